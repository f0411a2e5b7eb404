// The picture of the steps: the library's SVG in the colours of the page, light or dark, with hatching, so that no two kinds of marks differ by
// colour only. Its legend is a list, which wraps, and its labels count steps, as the line above it does.

import { find, make, makeSvg } from "./dom.js";

/** How wide a step is in a lane's own lengths, and the pixels of a tile of hatching. */
const COLUMN = 10, TILE = 6;
/** What is left of the part above the lanes without the legend, of 60 pixels. */
const HEAD = 60, LEFT = 8;

/**
 * The lines of hatched marks in a tile, by their classes; `over` is a packet that is dropped.
 * @type {Record<string, string>}
 */
const HATCHES = { dropped: "M0,0L6,6M6,0L0,6", read: "M0,3H6", turned: "M3,0V6" };
HATCHES.over = HATCHES.dropped;

const STYLE = `
  :host { color: var(--ink) }
  ul { display: flex; flex-wrap: wrap; gap: 4px 16px; margin: 0; padding: 6px 10px; list-style: none; font: 12px system-ui, "DejaVu Sans", sans-serif }
  li svg { vertical-align: -2px; margin-right: 5px }
  text { font: 12px system-ui, "DejaVu Sans", sans-serif; fill: var(--ink) }
  .name { font-size: 9px; text-anchor: middle }
  .page { fill: var(--paper) }
  .room { fill: var(--room) }
  .store, .stored { fill: var(--store) }
  .record { fill: var(--record); stroke: var(--store); vector-effect: non-scaling-stroke }
  .hold { fill: var(--hold) }
  .dropped, .over { fill: var(--dropped) }
  .read { fill: var(--read) }
  .turned { fill: var(--turned) }
  .passed, .idle { fill: var(--passed) }
  .closed { fill: var(--ink) }
  .hatch { fill: none; stroke: var(--hatch); stroke-width: 1.2px }
  .cursor { fill: none; stroke: var(--ink); stroke-width: 3px; vector-effect: non-scaling-stroke }`;

/**
 * Hatches the marks of a drawing whose lengths are stretched; the hatching is not.
 * @param {SVGSVGElement} drawing
 * @param {string} id of its tiles
 * @param {number} x how many pixels a length across is
 * @param {number} y how many pixels a length down is
 */
function hatch(drawing, id, x, y) {
  const frame = { patternUnits: "userSpaceOnUse", width: TILE, height: TILE, patternTransform: `scale(${1 / x},${1 / y})` };
  for (const [name, lines] of Object.entries(HATCHES)) {
    const marks = /** @type {NodeListOf<SVGRectElement>} */ (drawing.querySelectorAll(`rect.${name}`));
    if (!marks.length) continue;
    const ground = makeSvg("path", { class: name, d: `M0,0H${TILE}V${TILE}H0Z` }), tile = makeSvg("path", { class: "hatch", d: lines });
    drawing.append(makeSvg("pattern", { id: `${name}-${id}`, ...frame }, ground, tile));
    marks.forEach((mark) => (mark.style.fill = `url(#${name}-${id})`));
  }
}

/**
 * A list of what the marks mean, in place of the picture's own legend, which is taken out of it.
 * @param {Element} svg
 */
function legendOf(svg) {
  const marks = [...svg.querySelectorAll(":scope > rect[class]")], words = [...svg.querySelectorAll(":scope > text")];
  const items = marks.map((mark, at) => {
    const sample = makeSvg("svg", { width: 18, height: 12, "aria-hidden": "true" });
    sample.append(makeSvg("rect", { class: mark.getAttribute("class") || "", width: 18, height: 12 }));
    hatch(sample, `legend${at}`, 1, 1);
    return make("li", {}, sample, words[at].textContent);
  });
  [...marks, ...words].forEach((part) => part.remove());
  return make("ul", { "aria-label": "Legend" }, ...items);
}

/**
 * Writes the numbers of steps below a lane in place of the places of packets.
 * @param {SVGSVGElement} lane
 */
function numberSteps(lane) {
  const { x, width, viewBox } = lane, step = width.baseVal.value / (viewBox.baseVal.width / COLUMN), group = /** @type {Element} */ (lane.parentNode);
  group.querySelectorAll(".name").forEach((name) => {
    const number = 1 + Math.floor((Number(name.getAttribute("x")) - x.baseVal.value) / step);
    name.textContent = `${/^[A-Z]?/.exec(name.textContent || "")}${number}`;
  });
}

/**
 * A frame in a lane of the picture, which goes to the column of a step.
 * @param {SVGSVGElement} lane
 * @returns {(step: number) => void}
 */
function cursorOf(lane) {
  const cursor = makeSvg("rect", { class: "cursor", y: 0, width: COLUMN - 1, height: lane.viewBox.baseVal.height });
  lane.append(cursor);
  return (step) => {
    cursor.setAttribute("x", String(step * COLUMN));
    cursor.scrollIntoView({ block: "nearest", inline: "nearest" });
  };
}

export class Picture {
  constructor() {
    this.root = find("picture").attachShadow({ mode: "open" });
    const sheet = new CSSStyleSheet();
    sheet.replaceSync(STYLE);
    this.root.adoptedStyleSheets = [sheet];
    /**
     * One for each listener.
     * @type {((step: number) => void)[]}
     */
    this.cursors = [];
  }

  /** @param {string} text of the library's picture, or nothing */
  draw(text) {
    this.cursors = [];
    this.root.replaceChildren();
    if (!text) return;
    // The policy of the page refuses the style that is in the text.
    const { documentElement } = new DOMParser().parseFromString(text.replace(/<style>[^]*?<\/style>/, ""), "image/svg+xml");
    const svg = /** @type {SVGSVGElement} */ (/** @type {unknown} */ (document.importNode(documentElement, true))), { width, height } = svg.viewBox.baseVal;
    const [title, desc] = ["title", "desc"].map((name) => /** @type {Element} */ (svg.querySelector(`:scope > ${name}`)).textContent);
    svg.setAttribute("role", "img");
    svg.setAttribute("aria-label", `${title}. ${desc}`);
    svg.setAttribute("viewBox", `0 ${HEAD - LEFT} ${width} ${height - HEAD + LEFT}`);
    svg.setAttribute("height", String(height - HEAD + LEFT));
    this.root.replaceChildren(legendOf(svg), svg);
    /** @type {Element} */ (svg.querySelector(":scope > rect")).setAttribute("class", "page");
    this.cursors = [...svg.querySelectorAll("g > svg")].map((each, number) => {
      const lane = /** @type {SVGSVGElement} */ (each), { width: wide, height: high, viewBox } = lane;
      numberSteps(lane);
      hatch(lane, String(number), wide.baseVal.value / viewBox.baseVal.width, high.baseVal.value / viewBox.baseVal.height);
      return cursorOf(lane);
    });
  }

  /** @param {number} step */
  go(step) {
    this.cursors.forEach((look) => look(step));
  }
}

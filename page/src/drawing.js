// The graph of a program as SVG, and a run's way through it.

import { blocksOf } from "./program.js";
import { makeSvg } from "./dom.js";
import { newBox, place } from "./layout.js";
import { questionsOf } from "./questions.js";

/** @typedef {import("./program.js").Insn} Insn */
/** @typedef {import("./program.js").Block} Block */
/** @typedef {import("./program.js").Edge} Edge */
/** @typedef {import("./layout.js").Box} Box */
/** @typedef {import("./questions.js").Question} Question */

/**
 * The parts of a drawing that a way lights up.
 * @typedef {{ from: Block, to: Block, path: SVGElement, word: SVGElement | null }} DrawnEdge
 */
/** @typedef {{ svg: SVGSVGElement, nodes: Map<Block, SVGGElement>, edges: DrawnEdge[] }} Drawing */

const CHAR = 7.3, SMALL_CHAR = 6.4, LINE = 13, MARGIN = 12, LEAST_WIDTH = 60;

/**
 * A line of an image without the places that its jump goes to, which the edges show.
 * @param {string} line
 */
const shortened = (line) => line.replace(/\s+jt \d+\s+jf \d+/, "").trimEnd();

/**
 * @param {Question} question
 * @param {string[]} lines
 * @returns {Box}
 */
function boxOf(question, lines) {
  const width = Math.max(LEAST_WIDTH, question.title.length * CHAR + 20, ...lines.map((line) => line.length * SMALL_CHAR + 16));
  return newBox(width, 24 + (lines.length ? lines.length * LINE + 4 : 0));
}

/**
 * @param {Block} block
 * @param {Box} box
 * @param {Question} question
 * @param {string[]} lines
 * @param {string} ways where its answers lead
 */
function drawNode(block, box, question, lines, ways) {
  const left = box.x - box.width / 2, { width, height } = box, label = `${question.title}${ways && ` ${ways}`}`;
  return makeSvg("g", { class: `node ${question.end}`, "data-block": block.first, role: "listitem", "aria-label": label },
    makeSvg("rect", { x: left, y: box.y, width, height, rx: question.end ? 12 : 5 }),
    makeSvg("text", { class: "title", x: box.x, y: box.y + 16, "text-anchor": "middle" }, question.title),
    ...lines.map((line, at) => makeSvg("text", { class: "line", x: left + 8, y: box.y + 31 + at * LINE }, line)));
}

/**
 * The line of an edge from a place below its first box to the top of its last one.
 * @param {number} start
 * @param {Box[]} chain
 */
function pathOf(start, [first, ...others]) {
  let path = `M${start},${first.bottom}`, x = start, y = first.bottom;
  for (const box of others) {
    const middle = (y + box.y) / 2;
    path += ` C${x},${middle} ${box.x},${middle} ${box.x},${box.y}`;
    if (box.isBend) path += ` L${box.x},${box.bottom}`;
    [x, y] = [box.x, box.bottom];
  }
  return path;
}

/**
 * Of two ways out the one that goes further to the left begins on the left.
 * @param {Box[]} chain
 * @param {Box[] | undefined} twin
 * @param {boolean} isYes
 */
function sideOf(chain, twin, isYes) {
  if (!twin) return 0;
  const distance = chain[1].x - twin[1].x;
  return distance < 0 || (distance === 0 && isYes) ? -1 : 1;
}

/**
 * @param {Box[]} chain
 * @param {Edge["answer"]} answer
 * @param {number} side
 */
function drawEdge(chain, answer, side) {
  const [from] = chain, start = from.x + side * Math.min(26, from.width / 4);
  const path = makeSvg("path", { class: `edge ${answer}`, d: pathOf(start, chain), "marker-end": "url(#tip)" });
  // Between the two ways out, which go apart.
  const at = { x: start - side * 4, y: from.bottom + 12, "text-anchor": side < 0 ? "start" : "end" };
  return { path, word: answer ? makeSvg("text", { class: `word ${answer}`, ...at }, answer) : null };
}

/** The head of an arrow, in the colour of its line. */
function drawTip() {
  const size = { viewBox: "0 0 8 8", refX: 7, refY: 4, markerWidth: 9, markerHeight: 9, markerUnits: "userSpaceOnUse", orient: "auto" };
  return makeSvg("defs", {}, makeSvg("marker", { id: "tip", ...size }, makeSvg("path", { d: "M0,0 L8,4 L0,8 z", fill: "context-stroke" })));
}

/**
 * @param {Box[][]} chains
 * @param {Box[]} boxes
 */
function sizeOf(chains, boxes) {
  const all = [...boxes, ...chains.flat()];
  const left = Math.min(...all.map((box) => box.x - box.width / 2)) - MARGIN, right = Math.max(...all.map((box) => box.x + box.width / 2)) + MARGIN;
  const height = Math.max(...boxes.map((box) => box.bottom)) + 2 * MARGIN, width = right - left;
  return { viewBox: `${left} ${-MARGIN} ${width} ${height}`, width, height };
}

/**
 * @param {Insn[]} program
 * @param {string[]} image its instructions by names
 * @param {boolean} hasLines whether boxes show their instructions
 * @returns {Drawing}
 */
export function draw(program, image, hasLines) {
  const blocks = blocksOf(program), questions = questionsOf(program, blocks);
  const parts = blocks.map((block) => {
    const question = /** @type {Question} */ (questions.get(block));
    const lines = hasLines ? image.slice(block.first, block.last + 1).map(shortened) : [];
    return { block, question, lines, box: boxOf(question, lines) };
  });
  const byBlock = new Map(parts.map((part) => [part.block, part]));
  const boxFor = (/** @type {Block} */ block) => /** @type {typeof parts[0]} */ (byBlock.get(block)).box;
  const ends = new Set(parts.filter(({ question }) => question.end).map(({ box }) => box)), boxes = parts.map(({ box }) => box);
  const all = blocks.flatMap((from) => from.edges.map(({ to, answer }) => ({ from, to, answer })));
  const chains = place(boxes, all.map(({ from, to }) => [boxFor(from), boxFor(to)]), (box) => ends.has(box));
  const edges = all.map(({ from, to, answer }, at) => {
    const twin = all.findIndex((other, number) => number !== at && other.from === from);
    return { from, to, ...drawEdge(chains[at], answer, sideOf(chains[at], chains[twin], answer === "yes")) };
  });
  const titleOf = (/** @type {Block} */ block) => /** @type {Question} */ (questions.get(block)).title;
  const ways = (/** @type {Block} */ block) => block.edges.map(({ to, answer }) => `${answer || "then"}: ${titleOf(to)}`).join(" ");
  const nodes = new Map(parts.map(({ block, box, question, lines }) => [block, drawNode(block, box, question, lines, ways(block))]));
  const hidden = makeSvg("g", { "aria-hidden": "true" }, ...edges.map(({ path }) => path), ...edges.map(({ word }) => word));
  const named = { ...sizeOf(chains, boxes), role: "list", "aria-label": "The program as a graph: its questions" };
  const svg = makeSvg("svg", named, drawTip(), hidden, ...nodes.values());
  return { svg, nodes, edges };
}

/**
 * Lights up what a run went through, and the block that it is at.
 * @param {Drawing} drawing
 * @param {number[]} path the places of the instructions that were executed
 * @param {number} at where it is
 */
export function lightWay({ nodes, edges }, path, at) {
  const places = new Set(path), order = [...nodes.keys()].filter(({ first }) => places.has(first));
  const follows = new Map(order.map((block, number) => [block, order[number + 1]]));
  for (const [block, node] of nodes) {
    node.classList.toggle("way", places.has(block.first));
    const isHere = at >= block.first && at <= block.last && places.has(block.first);
    node.classList.toggle("here", isHere);
    if (isHere) node.setAttribute("aria-current", "step");
    else node.removeAttribute("aria-current");
  }
  for (const { from, to, path: line } of edges) {
    const isOn = places.has(from.first) && follows.get(from) === to;
    line.classList.toggle("way", isOn);
    // What is drawn later is on top.
    if (isOn && line.parentNode) line.parentNode.insertBefore(line, line.parentNode.querySelector(".word"));
  }
}

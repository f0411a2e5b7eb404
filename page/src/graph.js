// The filter's program as a graph, which can be saved.

import { draw, lightWay } from "./drawing.js";
import { find, make, makeSvg, save } from "./dom.js";

/** @typedef {import("./filter.js").Filter} Filter */
/** @typedef {import("./drawing.js").Drawing} Drawing */

/** A graph of more instructions takes longer to place than a keystroke may, and is drawn when it is asked for. */
const MOST_DRAWN = 120;

export class GraphView {
  /** @param {() => void} onDrawn is called when a drawing was asked for, which is to be lit up */
  constructor(onDrawn) {
    this.onDrawn = onDrawn;
    /** @type {Filter | null} */
    this.filter = null;
    /** @type {Drawing | null} */
    this.drawing = null;
    /** @type {HTMLInputElement} */
    this.hasLines = find("with-lines");
    this.hasLines.addEventListener("change", () => {
      this.show(this.filter);
      this.onDrawn();
    });
    find("save-graph").addEventListener("click", () => this.save());
  }

  /** @param {Filter | null} filter */
  show(filter) {
    this.filter = filter;
    this.drawing = null;
    if (!filter) {
      find("graph").replaceChildren();
    } else if (filter.program.length > MOST_DRAWN) {
      const click = () => {
        this.draw(filter);
        this.onDrawn();
      };
      const button = make("button", { type: "button", click }, `Draw ${filter.program.length} instructions`);
      find("graph").replaceChildren(button);
    } else {
      this.draw(filter);
    }
  }

  /** @param {Filter} filter */
  draw(filter) {
    this.drawing = draw(filter.program, filter.image, this.hasLines.checked);
    find("graph").replaceChildren(this.drawing.svg);
  }

  /**
   * @param {number[]} path the places of the instructions that were executed
   * @param {number} at the place of the one that it is at
   */
  mark(path, at) {
    if (this.drawing) lightWay(this.drawing, path, at);
  }

  /** Saves the drawing with its style, in its light colours. */
  save() {
    if (!this.drawing) return;
    const copy = /** @type {SVGSVGElement} */ (this.drawing.svg.cloneNode(true));
    copy.prepend(makeSvg("style", {}, graphStyle()));
    save("filter.svg", "image/svg+xml", new XMLSerializer().serializeToString(copy));
  }
}

/** The rules of the page's style that are of a graph, and the variables that they name. */
function graphStyle() {
  const rules = [...document.styleSheets[0].cssRules].map((rule) => rule.cssText);
  return rules.filter((text) => /^(:root|#graph svg)/.test(text)).join("\n").replaceAll("#graph svg", "svg");
}

// The second filter: whether both accept the same packets, of all that there can be, and if not a packet that shows it.

import { Ended } from "./jobs.js";
import { OK, SAMENESS } from "./library.js";
import { find, make, settled } from "./dom.js";
import { refusal } from "./filter.js";
import { wording } from "./wording.js";

/** @typedef {import("./library.js").Library} Library */
/** @typedef {import("./library.js").Comparison} Comparison */
/** @typedef {import("./jobs.js").Desk} Desk */

const SHORT = 2, DIFFER = 3, NOT_DECIDED = 4, MOST_SHOWN = 120;

const ANSWERS = [
  "Same: both accept the same packets, of all that there can be.",
  "Same as captured: both accept the same packets, unless a packet has more bytes captured than it had on the wire.",
  "Short: one accepts this packet, and the other one aborts; the lines below say why.",
  "Differ: one accepts this packet, and the other one does not.",
];

export class ComparisonView {
  /**
   * @param {Library} library
   * @param {Desk} desk
   * @param {(packet: Uint8Array, wire: number) => void} onOpen is called when the packet that shows a difference is to be opened
   * @param {() => void} onEdit
   */
  constructor(library, desk, onOpen, onEdit) {
    this.library = library;
    this.desk = desk;
    this.onOpen = onOpen;
    /**
     * The first filter, or `null` if there is none.
     * @type {string | null}
     */
    this.first = null;
    this.box = find("same");
    /** @type {HTMLInputElement} */
    this.input = find("other");
    const compare = settled(150, () => this.compare());
    this.input.addEventListener("input", () => {
      onEdit();
      compare();
    });
  }

  /** @param {string | null} first */
  follow(first) {
    this.first = first;
    this.compare();
  }

  /** @param {string} second */
  write(second) {
    if (second === this.input.value) return;
    this.input.value = second;
    this.compare();
  }

  async compare() {
    const { first, box } = this, second = this.input.value;
    this.desk.turnAway();
    if (first === null || second.trim() === "") {
      box.style.minHeight = "";
      this.say();
      return;
    }
    // The answer of before is gone, but its room stays, so that the page does not jump.
    box.style.minHeight = `${box.offsetHeight}px`;
    this.say("Comparing… ");
    const slow = setTimeout(() => box.append(make("button", { type: "button", click: () => this.desk.stop() }, "Stop")), 200);
    try {
      this.show(first, second, await this.desk.ask("compare", [first, second, wording().budget]));
    } catch (why) {
      if (!(why instanceof Ended)) this.say(`The library stopped in this call (${/** @type {Error} */ (why).message}): there is no answer.`);
      else if (why.isByUser) this.say("Stopped.");
    } finally {
      clearTimeout(slow);
    }
  }

  /** @param {...(Node | string)} words */
  say(...words) {
    this.box.replaceChildren(...words);
  }

  /**
   * @param {string} first
   * @param {string} second
   * @param {Comparison} found
   */
  show(first, second, found) {
    const { library, box } = this, { fault, number, answer, cause, packet, wire } = found;
    if (fault !== OK) {
      this.say(make("div", { class: "fault" }, ...refusal(library, number ? second : first, found)));
      return;
    }
    box.style.minHeight = "";
    const sentence = answer === NOT_DECIDED ? `Not decided: ${wording().causes[cause] || `cause ${cause}`}.` : ANSWERS[answer];
    this.say(make("strong", { class: SAMENESS[answer].replace(/ /g, "-") }, sentence));
    if (answer !== SHORT && answer !== DIFFER) return;
    const hexes = [...packet.subarray(0, MOST_SHOWN)].map((byte) => byte.toString(16).padStart(2, "0")).join("");
    const answers = [first, second].map((text) => make("li", {}, library.why(text, packet, wire).text));
    box.append(
      make("ol", { class: "answers" }, ...answers),
      make("code", { class: "witness" }, hexes + (packet.length > MOST_SHOWN ? "…" : "")), " ",
      make("button", { type: "button", id: "open-witness", click: () => this.onOpen(packet, wire) }, "Open this packet"));
  }
}

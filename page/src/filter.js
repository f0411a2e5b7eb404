// The filter that is typed: how it is read, its instructions by names, or its fault with a caret.

import { OK } from "./library.js";
import { decode } from "./program.js";
import { coded, counted, find, make } from "./dom.js";

/** @typedef {import("./library.js").Library} Library */
/** @typedef {import("./program.js").Insn} Insn */
/** @typedef {import("./library.js").Executed} Executed */
/**
 * An expression that has a program; the image has its instructions by names.
 * @typedef {{ expression: string, canonical: string, insns: Uint8Array, program: Insn[], image: string[] }} Filter
 */

/** What a hint names that only the command has: another command's words, and its option for files. */
const OF_COMMAND = /`bpftap |-f f\.bpf/, NO_COMMAND = "\n(That is for the command bpftap; this page reads expressions only.)";

/**
 * Spaces up to a byte of a text, and a caret.
 * @param {string} text
 * @param {number} place
 */
export function caret(text, place) {
  const before = new TextDecoder().decode(new TextEncoder().encode(text).slice(0, place));
  return " ".repeat([...before].length) + "^";
}

/**
 * The name of a fault, in small letters: what it says in words comes first.
 * @param {Library} library
 * @param {{ fault: number, place: number }} answer
 */
export const nameOf = (library, { fault, place }) => make("small", { class: "name" }, library.faultText(fault, place));

/**
 * What explains a fault of an expression: the caret if it has a place, what helps to fix it, and its name.
 * @param {Library} library
 * @param {string} expression
 * @param {{ fault: number, place: number }} answer
 * @returns {Node[]}
 */
export function refusal(library, expression, answer) {
  const name = nameOf(library, answer), hint = library.hint(expression, answer), hasPlace = / \d+$/.test(name.textContent || "");
  const sentence = make("p", { class: "hint" }, ...coded(hint + (OF_COMMAND.test(hint) ? NO_COMMAND : "")));
  return [...(hasPlace ? [make("pre", { "aria-hidden": "true" }, caret(expression, answer.place))] : []), sentence, name];
}

export class FilterView {
  /** @param {() => void} onEdit is called after each edit */
  constructor(onEdit) {
    /** @type {HTMLInputElement} */
    this.input = find("filter");
    /**
     * The rows of the listing.
     * @type {HTMLElement[]}
     */
    this.lines = [];
    this.frame = 0;
    this.input.addEventListener("input", onEdit);
  }

  /**
   * Reads what is typed, and explains it if it is no expression.
   * @param {Library} library
   * @returns {Filter | null}
   */
  read(library) {
    const expression = this.input.value;
    const answer = library.compile(expression);
    const isRead = answer.fault === OK;
    find("fault").replaceChildren(...(isRead ? [] : refusal(library, expression, answer)));
    this.input.setAttribute("aria-invalid", String(!isRead));
    if (!isRead) return null;
    const image = library.image(answer.insns).text.trimEnd().split("\n").map((line) => line.replace("\t", " "));
    return { expression, canonical: library.print(expression).text, insns: answer.insns, program: decode(answer.insns), image };
  }

  /**
   * Shows how a filter was read, and its instructions.
   * @param {Filter | null} filter
   * @param {boolean} isOld whether what is typed since then cannot be read
   */
  show(filter, isOld) {
    const image = filter ? filter.image : [], canonical = make("code", {}, (filter && filter.canonical) || "(every packet)");
    const begin = isOld ? "Still shown: " : "read as ";
    find("filters").classList.toggle("old", isOld);
    find("canonical").replaceChildren(...(filter ? [begin, canonical, `: ${counted(image.length, "instruction")}`] : []));
    if (isOld) return;
    const width = Math.max(0, ...image.map((line) => line.length)) + 2;
    this.lines = image.map((line) => make("span", { class: "insn" }, line.padEnd(width), make("span", { class: "registers" }), "\n"));
    find("listing").replaceChildren(...this.lines);
  }

  /**
   * Marks the instructions that a run executed, with the registers after each.
   * @param {Executed[]} steps
   * @param {number} at which step it is at
   */
  mark(steps, at) {
    const { lines } = this, byPlace = new Map(steps.map((step, number) => [step.place, { step, number }]));
    lines.forEach((line, place) => {
      const found = byPlace.get(place), registers = /** @type {Element} */ (line.querySelector(".registers"));
      registers.textContent = found ? registersText(found.step) : "";
      line.classList.toggle("way", found !== undefined);
      line.classList.toggle("here", found !== undefined && found.number === at);
    });
    this.reveal(lines[steps.length ? steps[at].place : -1]);
  }

  /**
   * Scrolls to a row, when the page is laid out anyway.
   * @param {HTMLElement | undefined} row
   */
  reveal(row) {
    cancelAnimationFrame(this.frame);
    this.frame = requestAnimationFrame(() => {
      const box = find("listing");
      if (row && (row.offsetTop < box.scrollTop || row.offsetTop + row.offsetHeight > box.scrollTop + box.clientHeight)) {
        box.scrollTop = row.offsetTop - box.clientHeight / 2;
      }
    });
  }
}

/** @param {Executed} step */
export function registersText({ accumulator, index }) {
  return `A 0x${accumulator.toString(16)} X 0x${index.toString(16)}`;
}

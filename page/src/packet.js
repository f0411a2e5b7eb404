// The packet that is chosen: what decides on it, its bytes with those marked that the filter looks at, and the steps of the program's run.

import { NO_CELL, VERDICTS } from "./library.js";
import { counted, find, make } from "./dom.js";
import { hex, packetField, valueAt } from "./fields.js";
import { registersText } from "./filter.js";

/** @typedef {import("./library.js").Library} Library */
/** @typedef {import("./library.js").Look} Look */
/** @typedef {import("./library.js").Trace} Trace */
/** @typedef {import("./filter.js").Filter} Filter */
/** @typedef {{ place: number, bytes: Uint8Array, wire: number }} Packet */

const ROW_BYTES = 16, FIRST_BYTES = 2048;

/**
 * @param {Packet} packet
 * @param {Look[]} looks
 */
function markedBytes({ bytes }, looks) {
  const marked = new Uint8Array(bytes.length);
  looks.forEach(({ offset, size }) => marked.fill(1, offset, offset + size));
  return marked;
}

/**
 * A row of a dump: the place, each byte, and the characters.
 * @param {Uint8Array} bytes
 * @param {Uint8Array} marked
 * @param {number} begin
 */
function dumpRow(bytes, marked, begin) {
  const row = bytes.subarray(begin, begin + ROW_BYTES);
  const numbers = /** @type {(Node | string)[]} */ ([]), characters = /** @type {(Node | string)[]} */ ([]);
  row.forEach((byte, at) => {
    const number = byte.toString(16).padStart(2, "0"), character = byte > 31 && byte < 127 ? String.fromCharCode(byte) : ".";
    const mark = (/** @type {string} */ text) => (marked[begin + at] ? make("b", {}, text) : text);
    numbers.push(mark(number), at % 8 === 7 ? "  " : " ");
    characters.push(mark(character));
  });
  const missing = ROW_BYTES - row.length, rest = " ".repeat(3 * missing + (missing > 8 ? 2 : missing > 0 ? 1 : 0));
  return [begin.toString(16).padStart(4, "0") + "  ", ...numbers, rest, ...characters, "\n"];
}

/**
 * Texts that follow each other as one, since a browser takes a node for each.
 * @param {(Node | string)[]} parts
 */
function joined(parts) {
  /** @type {(Node | string)[]} */
  const made = [];
  for (const part of parts) {
    const last = made[made.length - 1];
    if (typeof part === "string" && typeof last === "string") made[made.length - 1] = last + part;
    else made.push(part);
  }
  return made;
}

/**
 * What a look finds, in words.
 * @param {Packet} packet
 * @param {Look} look
 * @returns {[string, string, string]} the bytes, their value and the field that they belong to
 */
function lookWords({ bytes, wire }, { offset, size }) {
  if (size === 0) return ["len", String(wire), "length on the wire"];
  const where = size === 1 ? `ether[${offset}]` : `ether[${offset}:${size}]`, { name, show } = packetField(bytes, offset, size);
  if (offset + size > bytes.length) return [where, "not captured", name];
  const value = valueAt(bytes, offset, size), shown = show(value);
  return [where, hex(value), shown === hex(value) ? name : `${name}: ${shown}`];
}

/**
 * @param {Packet} packet
 * @param {Look[]} looks
 */
function lookTable(packet, looks) {
  const rows = new Map(looks.map((look) => [`${look.offset}:${look.size}`, look]));
  const sorted = [...rows.values()].sort((one, other) => one.offset - other.offset || one.size - other.size);
  return sorted.map((look) => make("tr", {}, ...lookWords(packet, look).map((text) => make("td", {}, text))));
}

export class PacketView {
  /** @param {(trace: Trace | null, at: number) => void} onStep is called when the run is at another instruction */
  constructor(onStep) {
    this.onStep = onStep;
    /** @type {Trace | null} */
    this.trace = null;
    this.at = 0;
    /** @type {Filter | null} */
    this.filter = null;
    const go = (/** @type {() => number} */ to) => () => this.go(to());
    find("first-step").addEventListener("click", go(() => 0));
    find("previous-step").addEventListener("click", go(() => this.at - 1));
    find("next-step").addEventListener("click", go(() => this.at + 1));
    find("last-step").addEventListener("click", go(() => this.last));
  }

  /** The number of the run's last step. */
  get last() {
    return this.trace ? this.trace.steps.length - 1 : 0;
  }

  /**
   * @param {Library} library
   * @param {Filter | null} filter
   * @param {Packet | null} packet
   */
  show(library, filter, packet) {
    this.filter = filter;
    this.trace = filter && packet ? library.trace(filter.insns, packet.bytes, packet.wire) : null;
    find("way").hidden = this.trace === null;
    find("reason").replaceChildren();
    find("answer").replaceChildren();
    const title = packet ? `Packet ${packet.place}: ${lengthText(packet.bytes.length, packet.wire)}` : "No packet chosen";
    find("packet-title").textContent = title;
    const looks = filter && packet ? library.looks(filter.expression, packet.bytes, packet.wire) : [];
    find("looks").replaceChildren(...(packet ? lookTable(packet, looks) : []));
    find("looks-table").hidden = looks.length === 0;
    find("bytes").replaceChildren();
    if (packet) this.showBytes(packet, markedBytes(packet, looks), FIRST_BYTES);
    if (filter && packet) this.showReason(packet.place, library.why(filter.expression, packet.bytes, packet.wire));
    this.go(this.last);
  }

  /**
   * @param {number} place
   * @param {import("./library.js").Reason} why
   */
  showReason(place, why) {
    const words = () => make("strong", { class: VERDICTS[why.verdict] }, why.text);
    find("reason").replaceChildren(words());
    find("answer").replaceChildren(`Packet ${place}: `, words());
    if (!this.trace) return;
    const { answer, steps } = this.trace;
    find("reason").append(`: the program answers ${answer} after ${counted(steps.length, "instruction")}`);
  }

  /**
   * @param {Packet} packet
   * @param {Uint8Array} marked
   * @param {number} most how many bytes are shown
   */
  showBytes(packet, marked, most) {
    const { bytes } = packet, shown = Math.min(bytes.length, most), rows = [];
    for (let begin = 0; begin < shown; begin += ROW_BYTES) rows.push(...dumpRow(bytes.subarray(0, shown), marked, begin));
    find("bytes").replaceChildren(...joined(rows));
    if (shown < bytes.length) {
      const all = () => this.showBytes(packet, marked, bytes.length);
      find("bytes").append(make("button", { type: "button", click: all }, `Show all ${bytes.length} bytes`));
    }
  }

  /**
   * Goes to a step of the run.
   * @param {number} to
   */
  go(to) {
    this.at = Math.max(0, Math.min(this.last, to));
    const { trace, filter } = this, step = trace && trace.steps[this.at];
    if (step && trace && filter) {
      const stored = step.cell < NO_CELL ? `, M[${step.cell}] ${hex(step.value)}` : "";
      const line = `${filter.image[step.place].trim().replace(/\s+/g, " ")}: ${registersText(step)}${stored}`;
      find("step").textContent = `Step ${this.at + 1} of ${trace.steps.length}: ${line}`;
    }
    this.onStep(trace, this.at);
  }

  /**
   * Whether a key goes to another step.
   * @param {string} key
   */
  takesKey(key) {
    if (!this.trace || (key !== "ArrowLeft" && key !== "ArrowRight")) return false;
    this.go(this.at + (key === "ArrowLeft" ? -1 : 1));
    return true;
  }
}

/**
 * @param {number} captured
 * @param {number} wire
 */
export function lengthText(captured, wire) {
  return captured === wire ? `${wire} bytes` : `${captured} of ${wire} bytes`;
}

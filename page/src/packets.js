// What a worker does with a capture: it reads its records, and asks an expression about each packet.

import { cutCapture, eachRecord, noRecords } from "./captures.js";
import { OK } from "./library.js";

/** @typedef {import("./library.js").Library} Library */
/** @typedef {import("./memory.js").Part} Part */
/** @typedef {import("./captures.js").Records} Records */

/**
 * What an expression answers to the next packets, in order, and the texts that no packet before had: `reasons[n]` is the number of the text that says
 * what decided on packet `n` of these.
 * @typedef {{ verdicts: Uint8Array, reasons: Uint32Array, texts: string[] }} News
 */
/**
 * A capture that was read. The file is there if packets were cut.
 * @typedef {{ records: Records, file: Uint8Array | null }} Opened
 */

/** After so many packets the time is looked at. */
const PIECE = 256;

/**
 * @param {Library} library
 * @returns {Record<string, (...given: any[]) => any>}
 */
export function captureJobs(library) {
  /** @type {{ memory: Part, records: Records } | null} */
  let capture = null;
  const close = () => {
    if (capture) library.give(capture.memory.at);
    capture = null;
  };
  return {
    /**
     * @param {Uint8Array} whole
     * @param {number} cut how many bytes of each packet are kept, or 0 for all
     * @param {number[]} unseenTypes
     * @returns {Generator<() => number, Opened, void>}
     */
    * open(whole, cut, unseenTypes) {
      close();
      const file = cut ? cutCapture(library, whole, cut) : whole, memory = library.put((size) => library.take(size), file);
      capture = { memory, records: noRecords() };
      const records = yield* eachRecord(library, memory, unseenTypes);
      capture = { memory, records };
      return { records, file: cut ? file : null };
    },
    /** @param {string} expression */
    ask(expression) {
      if (!capture) throw new Error("no capture is open");
      return askEach(library, capture.memory.at, capture.records, expression);
    },
  };
}

/** Numbers for texts that come again and again, without a string for each time. */
class TextNumbers {
  constructor() {
    /** @type {Map<number, { bytes: Uint8Array, number: number }[]>} */
    this.byHash = new Map();
    /** @type {string[]} */
    this.texts = [];
  }

  /**
   * @param {Library} library
   * @param {number} at
   * @param {number} size
   */
  numberOf(library, at, size) {
    const view = library.view();
    let hash = size;
    for (let place = 0; place < size; place++) hash = (Math.imul(hash, 31) + view.getUint8(at + place)) | 0;
    const found = this.byHash.get(hash) || [];
    for (const { bytes, number } of found) {
      let same = 0;
      while (same < size && bytes[same] === view.getUint8(at + same)) same++;
      if (same === size && bytes.length === size) return number;
    }
    const bytes = library.bytes(at, size).slice(), number = this.texts.push(library.text(at, size)) - 1;
    this.byHash.set(hash, [...found, { bytes, number }]);
    return number;
  }
}

/**
 * @param {Library} library
 * @param {number} begin of the capture in the library's memory
 * @param {Records} records
 * @param {string} expression
 * @returns {Generator<() => News, News, void>}
 */
function* askEach(library, begin, { count: total, offsets, captured, wire }, expression) {
  const verdicts = new Uint8Array(total), reasons = new Uint32Array(total), numbers = new TextNumbers();
  let count = 0, told = 0, toldTexts = 0;
  const news = () => {
    const [from, known] = [told, toldTexts];
    [told, toldTexts] = [count, numbers.texts.length];
    return { verdicts: verdicts.slice(from, count), reasons: reasons.slice(from, count), texts: numbers.texts.slice(known) };
  };
  /** @type {number[]} */
  const taken = [];
  try {
    const { result, to, ask } = library.asker((size) => taken[taken.push(library.take(size)) - 1], expression);
    for (; count < total; count++) {
      if (count % PIECE === 0) yield news;
      ask(begin + offsets[count], captured[count], wire[count]);
      if (library.u32(result) !== OK) break;
      verdicts[count] = library.u32(result + 4);
      reasons[count] = numbers.numberOf(library, to, library.u64(result + 8));
    }
    return news();
  } finally {
    taken.forEach((at) => library.give(at));
  }
}

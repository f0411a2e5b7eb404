// What a filter answers to the packets of the open capture, and the worker that asks.

import { VERDICTS } from "./library.js";

/** @typedef {import("./jobs.js").Desk} Desk */
/** @typedef {import("./packets.js").News} News */
/** @typedef {import("./packets.js").Opened} Opened */

/** The answers to the first packets of a capture, `count` of `total`: `texts[reasons[n]]` says what decided on packet `n`. */
export class Answers {
  /** @param {number} total */
  constructor(total) {
    this.total = total;
    this.count = 0;
    this.verdicts = new Uint8Array(total);
    this.reasons = new Uint32Array(total);
    /** @type {string[]} */
    this.texts = [];
    this.byVerdict = VERDICTS.map(() => 0);
    /**
     * How many packets each text is of.
     * @type {number[]}
     */
    this.byReason = [];
  }

  /** The place of the first packet that is accepted, or else 0. */
  get firstYes() {
    return Math.max(0, this.verdicts.indexOf(1));
  }

  /** @param {News} news */
  add({ verdicts, reasons, texts }) {
    this.verdicts.set(verdicts, this.count);
    this.reasons.set(reasons, this.count);
    this.count += verdicts.length;
    this.texts.push(...texts);
    this.byReason.push(...texts.map(() => 0));
    verdicts.forEach((verdict) => this.byVerdict[verdict]++);
    reasons.forEach((reason) => this.byReason[reason]++);
  }
}

/** A worker that has read a capture, and is asked about its packets. */
export class CaptureDesk {
  /**
   * @param {Desk} desk
   * @param {number[]} unseenTypes
   */
  constructor(desk, unseenTypes) {
    this.desk = desk;
    this.unseenTypes = unseenTypes;
    /**
     * The file that the worker has read.
     * @type {Uint8Array | null}
     */
    this.file = null;
  }

  /**
   * Reads a capture, each packet cut if that is wanted.
   * @param {Uint8Array} whole
   * @param {number} cut
   * @param {(count: number) => void} onNews is called with how many packets were read
   */
  async open(whole, cut, onNews = () => {}) {
    this.file = null;
    /** @type {Opened} */
    const { records, file } = await this.desk.ask("open", [whole, cut, this.unseenTypes], onNews);
    this.file = file || whole;
    return { records, file: this.file };
  }

  /**
   * Asks an expression about each packet of a file.
   * @param {Uint8Array} file
   * @param {string} expression
   * @param {(news: News) => void} onNews
   * @returns {Promise<News>} the last news
   */
  async ask(file, expression, onNews) {
    // A worker that was stopped has forgotten the capture.
    if (this.file !== file || !this.desk.worker) await this.open(file, 0);
    return this.desk.ask("ask", [expression], onNews);
  }
}

// The open capture: its name, what is wrong with it, how much of each packet is kept, and how far it was read.

import { MOST_SNAP, OK } from "./library.js";
import { captureHint } from "./hints.js";
import { coded, counted, find } from "./dom.js";
import { isCut } from "./state.js";
import { takeFiles } from "./files.js";

/** @typedef {import("./library.js").Library} Library */
/** @typedef {import("./captures.js").Records} Records */
/**
 * A file, whether a link opens it, and a sentence on what was done to it.
 * @typedef {{ name: string, file: Uint8Array, isOfPage: boolean, note?: string }} Source
 */

export class CaptureBar {
  /**
   * @param {(source: Source) => void} onFile
   * @param {(cut: number) => void} onCut
   */
  constructor(onFile, onCut) {
    /** @type {HTMLInputElement} */
    this.cut = find("cut");
    this.cut.addEventListener("change", () => {
      const size = this.cut.value === "" ? 0 : Number(this.cut.value), isFit = size === 0 || isCut(size);
      this.cut.setAttribute("aria-invalid", String(!isFit));
      if (isFit) onCut(size);
      else this.hint(`keep from 1 to ${MOST_SNAP} bytes, or all: the packets stay as they are`);
    });
    this.forget = takeFiles((text) => this.hint(text), (name, file, note) => onFile({ name, file, isOfPage: false, note }));
  }

  /** @param {number} cut */
  write(cut) {
    this.cut.value = cut ? String(cut) : "";
    this.cut.setAttribute("aria-invalid", "false");
  }

  /** @param {string} text below the name of the capture */
  hint(text) {
    find("capture-hint").replaceChildren(...coded(text));
  }

  /**
   * @param {string} name
   * @param {string} hint
   * @param {boolean} isFault
   */
  say(name, hint, isFault) {
    find("capture-name").textContent = name;
    find("capture-name").classList.toggle("fault", isFault);
    find("converted").textContent = "";
    this.hint(hint);
  }

  /**
   * Says that a file is being read, as a sign of life.
   * @param {string} name
   * @param {number} count of packets that were read
   */
  wait(name, count = 0) {
    // Of what is to be opened the last is meant, be it a file or a link.
    if (count === 0) this.forget();
    this.say(`${name}: reading${count ? `, ${counted(count, "packet")} so far` : ""}…`, "", false);
  }

  /**
   * @param {string} name
   * @param {string} why the file was not read
   */
  refuse(name, why) {
    this.say(`${name}: ${why}`, "", true);
  }

  /**
   * @param {Library} library
   * @param {Source} source
   * @param {Records} records
   */
  show(library, { name, file, isOfPage, note }, { fault, place, count }) {
    const text = fault === OK ? "" : `: ${library.faultText(fault, place)}`;
    this.say(`${name}, ${counted(count, "packet")}${text}${text && count ? "; the packets before it are shown" : ""}`, captureHint(file, fault), fault !== OK);
    find("capture-link").hidden = isOfPage;
    find("converted").textContent = note || "";
  }
}

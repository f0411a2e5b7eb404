// What can be saved of a filter: the packets that it accepts, and its program in the forms that `bpftap check` prints.

import { acceptedOf } from "./captures.js";
import { find, save } from "./dom.js";

/** @typedef {import("./library.js").Library} Library */
/** @typedef {import("./filter.js").Filter} Filter */

/** @param {number} number */
const hexOf = (number) => `0x${number.toString(16)}`;

/**
 * A program as an array of C.
 * @param {Filter} filter
 */
function arrayText({ program }) {
  return program.map(({ code, jt, jf, k }) => `{ ${hexOf(code)}, ${jt}, ${jf}, 0x${k.toString(16).padStart(8, "0")} },\n`).join("");
}

/**
 * Saves what is chosen, of the filter and the capture that are shown.
 * @param {Library} library
 * @param {() => { filter: Filter | null, file: Uint8Array | null, cut: number }} shown with how many bytes of each packet are kept
 */
export function offerSaving(library, shown) {
  /** @type {Record<string, [string, string, (filter: Filter, file: Uint8Array | null) => BlobPart | null]>} */
  const forms = {
    "save-accepted": ["accepted.pcap", "application/vnd.tcpdump.pcap", ({ insns }, file) => file && acceptedOf(library, file, insns, shown().cut)],
    "save-names": ["filter.txt", "text/plain", ({ insns }) => library.image(insns).text],
    "save-array": ["filter.h", "text/plain", arrayText],
    "save-listing": ["filter.bpf", "text/plain", ({ insns }) => library.listing(insns).text],
  };
  for (const [id, [name, type, contentOf]] of Object.entries(forms)) {
    find(id).addEventListener("click", () => {
      const { filter, file } = shown(), content = filter && contentOf(filter, file);
      if (content !== null) save(name, type, content);
    });
  }
}

// The program's own texts, which `wording.py` took out of its sources when the page was made.

import { find } from "./dom.js";

/**
 * A field of a header: its first byte, how many it has, its name, and how its number is written.
 * @typedef {[number, number, string, string]} FieldRow
 */
/**
 * What files of other formats begin with, and what to do with them; names of link types; one text for each name of CAPTURE_TEXTS and LINE_TEXTS; the
 * forms of lines; the fields of each header, and names of their numbers; frames that no filter looks into; why two filters are not decided.
 * @typedef {{ formats: [number[], string][], linkNames: [number[], string][], listeners: string, script: string,
 *   other: string, link: string, checked: string, capture: string, convert: string, cooked: number[], short: string, version: string, torn: string,
 *   fraction: string, smallFraction: string, long: string, form: string, noListener: string, capacity: string,
 *   headers: Record<string, FieldRow[]>, typeNames: Record<number, string>, protocolNames: Record<number, string>, unseenTypes: number[], unseen: string, budget: number, causes: Record<number, string> }} Wording
 */

/** @type {Wording | null} */
let carried = null;

/** @returns {Wording} those that the page carries */
export function wording() {
  return (carried = carried || /** @type {Wording} */ (JSON.parse(find("wording").textContent || "")));
}

/**
 * A text with words in place of the names that it has in braces.
 * @param {string} text
 * @param {Record<string, string | number>} words
 */
export const filled = (text, words) => text.replace(/\{(\w+)\}/g, (_, name) => String(words[name]));

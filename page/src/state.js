// What a link to the page says, after its `#`: what is typed, and the packet that is chosen. Packets are never in it.

import { MOST_SNAP } from "./library.js";

/**
 * @typedef {object} PageState
 * @property {string} view what is shown: `filters` or `listeners`
 * @property {string} filter
 * @property {string} other the second filter
 * @property {string} example which of the page's captures it is of; the first one, or the user's, if there is no name
 * @property {number} packet the place of the chosen packet, or -1
 * @property {number} cut how many bytes of each packet are kept, or 0 for all
 * @property {string} listeners
 * @property {string} script
 * @property {string} lesson
 */

/** @type {PageState} */
const FIRST = {
  view: "filters",
  filter: "tcp port 8080 or 443",
  other: "",
  example: "",
  packet: -1,
  cut: 0,
  listeners: "64 192 icmp\n0 262176i arp\n",
  script: "arrive\narrive\narrive\nread 1\narrive\narrive\narrive\narrive\nread 0\narrive\nflush 1\nclose 0\narrive\n",
  lesson: "",
};

/**
 * The words of a link.
 * @type {[keyof PageState, string][]}
 */
const WORDS = [
  ["view", "v"], ["filter", "e"], ["other", "o"], ["example", "x"], ["packet", "p"], ["cut", "c"], ["listeners", "l"], ["script", "s"], ["lesson", "k"],
];

/** How many characters of a link are read and written. */
export const MOST_LINK = 32768;
const MOST_PLACE = 2 ** 32 - 1;

/** @param {number} size of bytes of a packet that can be kept */
export const isCut = (size) => Number.isInteger(size) && size >= 1 && size <= MOST_SNAP;

/** @param {keyof PageState} name */
const rangeOf = (name) => (name === "cut" ? `1 to ${MOST_SNAP}` : `0 to ${MOST_PLACE}`);

/**
 * A number of a link, or nothing if it is none, or too large.
 * @param {string} text
 * @param {keyof PageState} name
 */
function numberOf(text, name) {
  const number = /^\d{1,10}$/.test(text) ? Number(text) : -1;
  return (name === "cut" ? number === 0 || isCut(number) : number >= 0 && number <= MOST_PLACE) ? number : null;
}

/**
 * What a link says, and a sentence on each part of it that is left out.
 * @param {string} hash
 * @returns {{ state: PageState, notes: string[] }}
 */
export function readLink(hash) {
  const state = { ...FIRST }, notes = /** @type {string[]} */ ([]);
  if (hash.length > MOST_LINK) return { state, notes: [`This link has ${hash.length} characters, of which none is read: at most ${MOST_LINK} are.`] };
  const found = new URLSearchParams(hash.replace(/^#/, ""));
  for (const [name, word] of WORDS) {
    const text = found.get(word), isNumber = typeof FIRST[name] === "number";
    if (text === null) continue;
    const value = isNumber ? numberOf(text, name) : text;
    if (value !== null) Object.assign(state, { [name]: value });
    else notes.push(`\`${word}=${text.slice(0, 40)}\` of the link is left out: it is no number from ${rangeOf(name)}.`);
  }
  if (state.view !== "listeners") state.view = FIRST.view;
  return { state, notes };
}

/**
 * The link to a state; what is as in the first one is left out, but for the filter.
 * @param {Partial<PageState>} state
 */
export function linkTo(state) {
  const words = new URLSearchParams();
  for (const [name, word] of WORDS) {
    const value = state[name];
    if (value !== undefined && (value !== FIRST[name] || name === "filter")) words.set(word, String(value));
  }
  return "#" + words.toString().replace(/\+/g, "%20");
}

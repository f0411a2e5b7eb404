// What helps with a fault that is of no expression: a file that is no capture, and lines of listeners and scripts.

import {
  BAD_CAPACITY, BAD_FRACTION, LINK_TYPE, LISTENERS, MOST_SNAP, NOT_SAVEFILE, NO_LISTENER, OK, RECORD_TOO_LONG, SCRIPT, SHORT_HEADER, TORN_RECORD, VERSION,
  isOfCapture, isOfExpression,
} from "./library.js";
import { nameOf, refusal } from "./filter.js";
import { coded, make } from "./dom.js";
import { filled, wording } from "./wording.js";

/** @typedef {import("./library.js").Library} Library */
/** @typedef {import("./steps.js").Plan} Plan */
/** @typedef {import("./steps.js").Replay} Replay */
/**
 * @param {Uint8Array} file
 * @returns {string} what a file of another format is, and what to do with it
 */
function otherFormat(file) {
  const { formats, other } = wording(), found = formats.find(([begins]) => begins.every((byte, at) => file[at] === byte));
  return found ? found[1] : other + [...file.subarray(0, 4)].map((byte) => " " + byte.toString(16).padStart(2, "0")).join("");
}

/**
 * @param {number} number a link type, with the further bits of its field
 * @returns {string}
 */
function linkHint(number) {
  const { linkNames, cooked, link, checked, capture, convert } = wording();
  if (number % 65536 === 1) return checked;
  const [, name] = linkNames.find(([known]) => known.includes(number)) || [[], ""];
  return [`link type ${number}${name}${link}`, capture, ...(cooked.includes(number) ? [convert] : [])].join("\n");
}

/**
 * What a file is, and what to do with it, if it cannot be read to its end: the lines of the program.
 * @param {Uint8Array} file
 * @param {number} fault
 */
export function captureHint(file, fault) {
  const { short, version, torn, fraction, smallFraction, long } = wording(), isBig = file[0] === 0xa1;
  const view = new DataView(file.buffer, file.byteOffset, file.byteLength), hasNanos = file[0] === 0x4d || file[3] === 0x4d;
  switch (fault) {
    case SHORT_HEADER: return short.replace("{}", String(file.length));
    case NOT_SAVEFILE: return otherFormat(file);
    case VERSION: return filled(version, { major: view.getUint16(4, !isBig), minor: view.getUint16(6, !isBig) });
    case LINK_TYPE: return linkHint(view.getUint32(20, !isBig));
    case TORN_RECORD: return torn;
    case BAD_FRACTION: return hasNanos ? fraction : smallFraction;
    case RECORD_TOO_LONG: return long;
    default: return "";
  }
}

/**
 * @param {string} text
 * @param {number} number of a line, from 1
 */
const showLine = (text, number) => `line ${number} is: ${text.split("\n")[number - 1]}`;

/**
 * What helps with a listener whose buffers have too little room, or too much.
 * @param {string} line
 */
function capacityHint(line) {
  const [, first, capacity] = /^(\d+) (\d+)/.exec(line) || ["", "", ""], snap = Number(first) || MOST_SNAP, least = 32 + 8 * Math.ceil(snap / 8);
  return filled(wording().capacity, { snap, capacity, least });
}

/**
 * What helps with a fault of steps that is of no expression.
 * @param {Plan} plan
 * @param {Replay} played
 * @param {Uint8Array} capture
 * @returns {string[]} lines
 */
function linesOf({ listeners, script }, { fault, number, place }, capture) {
  const texts = wording(), lines = listeners.split("\n");
  if (fault === LISTENERS) return [showLine(listeners, place), texts.form + texts.listeners];
  if (fault === SCRIPT) return [showLine(script, place), texts.form + texts.script];
  if (fault === NO_LISTENER) return [showLine(script, place + 1), filled(texts.noListener, { listeners: lines.filter(Boolean).length })];
  if (isOfCapture(fault)) return [captureHint(capture, fault)];
  const line = showLine(listeners, number + 1);
  return fault === BAD_CAPACITY ? [line, capacityHint(lines[number])] : [line];
}

/**
 * What is shown of steps that are not played, or that a capture ends early.
 * @param {Library} library
 * @param {Plan} plan
 * @param {Replay} played
 * @param {Uint8Array} capture
 * @returns {Node[]}
 */
export function explainSteps(library, plan, played, capture) {
  const { fault, number, place } = played;
  if (fault === OK) return [];
  if (!isOfExpression(fault)) return [make("p", { class: "hint" }, ...coded(linesOf(plan, played, capture).join("\n"))), nameOf(library, played)];
  const line = showLine(plan.listeners, number + 1), text = (/^line \d+ is: \S+ \S+ ?(.*)$/.exec(line) || [line, line])[1];
  return [make("pre", {}, text), ...refusal(library, text, { fault, place })];
}

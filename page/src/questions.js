// What each block of a program asks, in words: `destination port = 443?`. All jumps go forward, so one pass over the blocks knows what A holds.

import {
  ABSOLUTE, ALWAYS, AND, ARITHMETIC, BITS, BY_INDEX, EQUAL, FROM_A, GREATER, INDIRECT, JUMP, LENGTH, LOAD, RETURN, TO_A, TRANSFER,
  kindOf, modeOf, operationOf, widthOf,
} from "./program.js";
import { ARP, CONTROL, FRAGMENT, PROTOCOL, RARP, TYPE, decimal, dotted, frameField, hex, indexedField } from "./fields.js";
import { MOST_SNAP } from "./library.js";

/** @typedef {import("./program.js").Insn} Insn */
/** @typedef {import("./program.js").Block} Block */
/** @typedef {import("./fields.js").Field} Field */
/**
 * What A holds: a field, and the bits of it that were kept, if not all were.
 * @typedef {{ field: Field, mask: number | null }} Held
 */
/**
 * What is known where a block begins.
 * @typedef {{ held: Held | null, type: number | null, protocol: number | null }} Known
 */
/** @typedef {{ title: string, end: "" | "accept" | "reject" }} Question */

/**
 * Names of bits. Of a fragment these are the parts of its field.
 * @type {Record<string, [number, string][]>}
 */
const BIT_NAMES = {
  [FRAGMENT]: [[0x4000, "don't fragment"], [0x2000, "more fragments"], [0x1fff, "later fragment"]],
  [CONTROL]: [[0x01, "FIN"], [0x02, "SYN"], [0x04, "RST"], [0x08, "PSH"], [0x10, "ACK"], [0x20, "URG"], [0x40, "ECE"], [0x80, "CWR"]],
};

/**
 * The names of bits of a field, or nothing if some of them have none.
 * @param {string} name
 * @param {number} bits
 */
function bitsText(name, bits) {
  const found = (BIT_NAMES[name] || []).filter(([bit]) => (bits & bit) === bit), named = found.reduce((all, [bit]) => all | bit, 0);
  return bits !== 0 && named === bits ? found.map(([, word]) => word) : [];
}

/**
 * How many bits a mask of a net keeps, or -1 if it is none.
 * @param {number} mask
 */
function prefixOf(mask) {
  const size = 32 - Math.log2(2 ** 32 - mask);
  return Number.isInteger(size) && size > 0 ? size : -1;
}

/** @param {number | null} type */
const isArp = (type) => type === ARP || type === RARP;

/**
 * What is known where two ways meet.
 * @param {Known} one
 * @param {Known} other
 * @returns {Known}
 */
function meet(one, other) {
  const isSame = one.held && other.held && one.held.field.name === other.held.field.name && one.held.mask === other.held.mask;
  return {
    held: isSame ? one.held : null,
    type: one.type === other.type ? one.type : isArp(one.type) && isArp(other.type) ? ARP : null,
    protocol: one.protocol === other.protocol ? one.protocol : null,
  };
}

/**
 * What A holds after a load.
 * @param {Insn} insn
 * @param {Known} known
 * @returns {Field | null}
 */
function loaded(insn, { type, protocol }) {
  const mode = modeOf(insn);
  if (mode === LENGTH) return { name: "length on the wire", show: decimal };
  if (mode === ABSOLUTE) return frameField(insn.k, widthOf(insn), type);
  return mode === INDIRECT ? indexedField(insn.k, widthOf(insn), protocol) : null;
}

/**
 * What A holds after an instruction.
 * @param {Insn} insn
 * @param {Known} known
 * @returns {Held | null}
 */
function after(insn, known) {
  const { held } = known, kind = kindOf(insn);
  if (kind === LOAD) {
    const field = loaded(insn, known);
    return field && { field, mask: null };
  }
  if (kind === TRANSFER) return insn.code & TO_A ? null : held;
  if (kind !== ARITHMETIC) return held;
  const isMasked = held && held.mask === null && operationOf(insn) === AND && !(insn.code & BY_INDEX);
  return isMasked ? { field: held.field, mask: insn.k } : null;
}

/**
 * @param {string} name
 * @param {import("./fields.js").Show} show
 * @param {number} mask
 * @param {number} k
 */
function maskedText(name, show, mask, k) {
  const words = bitsText(name, mask), size = prefixOf(mask);
  if (show === dotted) return size > 0 ? `${name} in ${dotted(k)}/${size}?` : `${name} & ${dotted(mask)} = ${dotted(k)}?`;
  return words.length ? `${name} & (${words.join(", ")}) = ${bitsText(name, k).join(", ") || hex(k)}?` : `${name} & ${hex(mask)} = ${hex(k)}?`;
}

/**
 * What a test of bits asks.
 * @param {string} name
 * @param {number} k
 */
function bitsQuestion(name, k) {
  const words = bitsText(name, k);
  return words.length ? `${name === FRAGMENT ? "" : `${name}: `}${words.join(" or ")}?` : `${name} & ${hex(k)} ≠ 0?`;
}

/**
 * @param {Insn} insn a jump with two ways
 * @param {Held | null} held
 */
function testText(insn, held) {
  const { field, mask } = held || { field: { name: "A", show: hex }, mask: null }, operation = operationOf(insn), isByIndex = (insn.code & BY_INDEX) !== 0;
  if (operation === BITS && !isByIndex && mask === null) return bitsQuestion(field.name, insn.k);
  if (operation === EQUAL && !isByIndex && mask !== null) return maskedText(field.name, field.show, mask, insn.k);
  const name = mask === null ? field.name : `${field.name} & ${hex(mask)}`, by = isByIndex ? "X" : (mask === null ? field.show : hex)(insn.k);
  if (operation === BITS) return `${name} & ${by} ≠ 0?`;
  return `${name} ${operation === EQUAL ? "=" : operation === GREATER ? ">" : "≥"} ${by}?`;
}

/**
 * @param {Insn} insn
 * @param {Held | null} held
 * @returns {Question}
 */
function questionOf(insn, held) {
  const kind = kindOf(insn);
  if (kind === RETURN) {
    if (insn.code & FROM_A) return { title: "return A", end: "accept" };
    if (insn.k === 0) return { title: "reject", end: "reject" };
    return { title: insn.k < MOST_SNAP ? `accept: ${insn.k} bytes are kept` : "accept: the packet is kept", end: "accept" };
  }
  if (kind === JUMP && operationOf(insn) !== ALWAYS && insn.jt !== insn.jf) return { title: testText(insn, held), end: "" };
  return { title: held ? `read ${held.field.name}` : "read", end: "" };
}

/**
 * What is known where the test of a jump holds.
 * @param {Insn} insn
 * @param {Known} known
 * @returns {Known}
 */
function whereTrue(insn, known) {
  const { held } = known, isEqual = kindOf(insn) === JUMP && operationOf(insn) === EQUAL && !(insn.code & BY_INDEX) && held && held.mask === null;
  if (isEqual && held.field.name === TYPE) return { ...known, type: insn.k };
  return isEqual && held.field.name === PROTOCOL ? { ...known, protocol: insn.k } : known;
}

/**
 * The question of each block.
 * @param {Insn[]} program
 * @param {Block[]} blocks
 * @returns {Map<Block, Question>}
 */
export function questionsOf(program, blocks) {
  /** @type {Map<Block, Known>} */
  const entries = new Map([[blocks[0], { held: null, type: null, protocol: null }]]);
  const questions = new Map();
  for (const block of blocks) {
    const known = { .../** @type {Known} */ (entries.get(block)) }, last = program[block.last];
    for (let at = block.first; at <= block.last; at++) known.held = after(program[at], known);
    questions.set(block, questionOf(last, known.held));
    for (const { to, answer } of block.edges) {
      const left = answer === "yes" ? whereTrue(last, known) : known, earlier = entries.get(to);
      entries.set(to, earlier ? meet(earlier, left) : left);
    }
  }
  return questions;
}

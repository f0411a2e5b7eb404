// Programs as numbers, for drawing: what follows what. No run is followed here, that is the library's.

/** @typedef {{ code: number, jt: number, jf: number, k: number }} Insn */

/** The class of an instruction, the low three bits of its code. */
export const LOAD = 0, LOAD_INDEX = 1, ARITHMETIC = 4, JUMP = 5, RETURN = 6, TRANSFER = 7;
/** The mode of a load. */
export const IMMEDIATE = 0x00, ABSOLUTE = 0x20, INDIRECT = 0x40, SCRATCH = 0x60, LENGTH = 0x80, HEADER_LENGTH = 0xa0;
/** Operations of jumps, one of arithmetic, the bit for X in place of a constant, and that of a return or transfer for A and X. */
export const ALWAYS = 0x00, EQUAL = 0x10, GREATER = 0x20, AT_LEAST = 0x30, BITS = 0x40, AND = 0x50, BY_INDEX = 0x08, FROM_A = 0x10, TO_A = 0x80;

/** @param {Insn} insn */
export const kindOf = (insn) => insn.code & 7;
/** @param {Insn} insn */
export const modeOf = (insn) => insn.code & 0xe0;
/** @param {Insn} insn */
export const operationOf = (insn) => insn.code & 0xf0;
/**
 * How many bytes a load takes.
 * @param {Insn} insn
 */
export function widthOf(insn) {
  if (modeOf(insn) === HEADER_LENGTH) return 1;
  return { 0x00: 4, 0x08: 2, 0x10: 1 }[insn.code & 0x18] || 0;
}

/**
 * @param {Uint8Array} bytes of instructions, as the library writes them
 * @returns {Insn[]}
 */
export function decode(bytes) {
  const view = new DataView(bytes.buffer, bytes.byteOffset, bytes.byteLength);
  return Array.from({ length: bytes.length / 8 }, (_, number) => {
    const at = 8 * number;
    return { code: view.getUint16(at, true), jt: view.getUint8(at + 2), jf: view.getUint8(at + 3), k: view.getUint32(at + 4, true) };
  });
}

/**
 * Instructions that run one after the other, and what follows them. `answer` is that of a test: `yes`, `no`, or nothing.
 * @typedef {object} Block
 * @property {number} first
 * @property {number} last
 * @property {Edge[]} edges
 */
/** @typedef {{ to: Block, answer: "yes" | "no" | "" }} Edge */

/**
 * Where an instruction may go.
 * @param {Insn} insn
 * @param {number} at
 * @returns {{ to: number, answer: Edge["answer"] }[]}
 */
function waysOut(insn, at) {
  if (kindOf(insn) === RETURN) return [];
  if (kindOf(insn) !== JUMP) return [{ to: at + 1, answer: "" }];
  if (operationOf(insn) === ALWAYS) return [{ to: at + 1 + insn.k, answer: "" }];
  if (insn.jt === insn.jf) return [{ to: at + 1 + insn.jt, answer: "" }];
  return [{ to: at + 1 + insn.jt, answer: "yes" }, { to: at + 1 + insn.jf, answer: "no" }];
}

/**
 * The blocks of a program that can be reached, in order.
 * @param {Insn[]} program
 * @returns {Block[]}
 */
export function blocksOf(program) {
  const begins = new Set([0]);
  program.forEach((insn, at) => {
    if (kindOf(insn) === JUMP) waysOut(insn, at).forEach(({ to }) => begins.add(to));
    if (kindOf(insn) === JUMP || kindOf(insn) === RETURN) begins.add(at + 1);
  });
  /** @type {Block[]} */
  const blocks = [];
  program.forEach((_, at) => {
    if (begins.has(at)) blocks.push({ first: at, last: at, edges: [] });
    else blocks[blocks.length - 1].last = at;
  });
  const byFirst = new Map(blocks.map((block) => [block.first, block]));
  for (const block of blocks) {
    for (const { to, answer } of waysOut(program[block.last], block.last)) {
      const next = byFirst.get(to);
      if (next) block.edges.push({ to: next, answer });
    }
  }
  // All jumps go forward, so one pass finds what is reached.
  const reached = new Set(blocks.slice(0, 1));
  return blocks.filter((block) => {
    if (reached.has(block)) block.edges.forEach(({ to }) => reached.add(to));
    return reached.has(block);
  });
}

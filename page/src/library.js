// The calls of bpftap.h on filters and packets. Nothing is decided here: each call puts its words into the library's memory and reads the answer.

import { Memory, words } from "./memory.js";

/** @typedef {import("./memory.js").Part} Part */
/** @typedef {import("./memory.js").Take} Take */

/** Numbers of faults, of bpftap.h. */
export const OK = 0, NO_ROOM = 2, END = 4;
export const SHORT_HEADER = 64, NOT_SAVEFILE = 65, VERSION = 66, LINK_TYPE = 67, TORN_RECORD = 68, BAD_FRACTION = 69, RECORD_TOO_LONG = 70;
export const BAD_CAPACITY = 80, LISTENERS = 88, SCRIPT = 89, NO_LISTENER = 91;
/** @param {number} fault */
export const isOfExpression = (fault) => fault >= 32 && fault < 50;
/** @param {number} fault */
export const isOfCapture = (fault) => fault >= 64 && fault < 80;

export const NO_CELL = 16, MOST_INSNS = 512, MOST_SNAP = 262144, MOST_TEXT = 8192;
const INSN_SIZE = 8, EXECUTED_SIZE = 24, LOOK_SIZE = 16, ROOM = 65536;
// An expression of 8,192 bytes has fewer tests than bytes, and a test looks at a few places.
const MOST_LOOKS = 4 * MOST_TEXT;

/**
 * What most calls return.
 * @typedef {{ fault: number, size: number, place: number }} Result
 */
/** @typedef {Result & { text: string }} TextResult */
/** @typedef {Result & { insns: Uint8Array }} ProgramResult */
/**
 * What an expression answers: 0 No, 1 Yes, 2 Abort.
 * @typedef {TextResult & { verdict: number }} Reason
 */
/**
 * @typedef {object} Comparison
 * @property {number} fault
 * @property {number} number which filter the fault is of
 * @property {number} answer an index of SAMENESS
 * @property {number} cause
 * @property {number} wire
 * @property {number} place
 * @property {Uint8Array} packet
 */

/**
 * An instruction that a run executed: its place, the registers after it, and the cell that it stored into, or NO_CELL.
 * @typedef {{ place: number, accumulator: number, index: number, cell: number, value: number }} Executed
 */
/** @typedef {{ steps: Executed[], answer: number }} Trace */
/**
 * Bytes of a frame; with the size 0 its length on the wire.
 * @typedef {{ offset: number, size: number }} Look
 */

/** The numbers of `enum bpftap_verdict` and `enum bpftap_sameness` as words. */
export const VERDICTS = ["No", "Yes", "Abort"];
export const SAMENESS = ["same", "same as captured", "short", "differ", "not decided"];

export class Library extends Memory {
  /**
   * @param {number} at
   * @returns {Result}
   */
  result(at) {
    return { fault: this.u32(at), size: this.u64(at + 8), place: this.u64(at + 16) };
  }

  /**
   * A call that writes a text, made again with more room if there was too little.
   * @param {string} name
   * @param {(take: Take) => (bigint | number)[]} given
   * @returns {TextResult}
   */
  textOf(name, given) {
    for (let room = ROOM; ; ) {
      const answer = this.within((take) => {
        const result = take(24), to = take(room);
        this.call(name, BigInt(result), ...given(take), BigInt(to), BigInt(room));
        const { fault, size, place } = this.result(result);
        return { fault, size, place, text: fault === OK ? this.text(to, size) : "" };
      });
      if (answer.fault !== NO_ROOM) return answer;
      room = answer.size + 1;
    }
  }

  /** The version without the processor that the native library is made for. */
  version() {
    return this.textOf("version", () => []).text.split(" ")[0];
  }

  /**
   * @param {number} fault
   * @param {number} place
   */
  faultText(fault, place) {
    return this.textOf("fault_text", () => [fault, BigInt(place)]).text;
  }

  /**
   * What helps to fix an expression that a call refused, a line or two, or nothing.
   * @param {string} expression
   * @param {{ fault: number, place: number }} answer
   */
  hint(expression, { fault, place }) {
    return this.textOf("hint", (take) => [...words(this.putText(take, expression)), fault, BigInt(place)]).text;
  }

  /**
   * The canonical form of an expression.
   * @param {string} expression
   */
  print(expression) {
    return this.textOf("print", (take) => words(this.putText(take, expression)));
  }

  /**
   * A program by the names of its instructions.
   * @param {Uint8Array} insns
   */
  image(insns) {
    return this.textOf("image", (take) => this.putProgram(take, insns));
  }

  /**
   * A program as numbers, as `tcpdump -ddd` prints it.
   * @param {Uint8Array} insns
   */
  listing(insns) {
    return this.textOf("write_listing", (take) => this.putProgram(take, insns));
  }

  /**
   * @param {Take} take
   * @param {Uint8Array} insns
   * @returns {[bigint, bigint]}
   */
  putProgram(take, insns) {
    return [BigInt(this.put(take, insns).at), BigInt(insns.length / INSN_SIZE)];
  }

  /**
   * @param {string} expression
   * @returns {ProgramResult}
   */
  compile(expression) {
    return this.within((take) => {
      const result = take(24), to = take(MOST_INSNS * INSN_SIZE), text = this.putText(take, expression);
      this.call("compile", BigInt(result), ...words(text), MOST_SNAP, BigInt(to), BigInt(MOST_INSNS));
      const answer = this.result(result);
      return { ...answer, insns: this.bytes(to, answer.fault === OK ? answer.size * INSN_SIZE : 0).slice() };
    });
  }

  /**
   * What an expression answers to a packet, and what decides.
   * @param {string} expression
   * @param {Uint8Array} packet
   * @param {number} wire
   */
  why(expression, packet, wire) {
    return this.within((take) => {
      const { at, size: captured } = this.put(take, packet), { result, to, ask } = this.asker(take, expression);
      ask(at, captured, wire);
      const { fault, size, place } = this.result(result);
      return { fault, size, place, verdict: this.u32(result + 4), text: fault === OK ? this.text(to, size) : "" };
    });
  }

  /**
   * Asks an expression about packets that are in the library's memory. The result, `struct bpftap_reason`, and its text are written to the same
   * places each time.
   * @param {Take} take
   * @param {string} expression
   * @returns {{ result: number, to: number, ask: (at: number, captured: number, wire: number) => void }}
   */
  asker(take, expression) {
    // A canonical text has at most a few times the bytes of the text.
    const [text, textSize] = words(this.putText(take, expression)), result = take(24), to = take(ROOM), [first, second, room] = [result, to, ROOM].map(BigInt);
    const { bpftap_why: why } = this.calls;
    // As `call`, which takes longer: a million packets are asked about.
    const ask = (/** @type {number} */ at, /** @type {number} */ captured, /** @type {number} */ wire) => {
      try {
        why(first, text, textSize, BigInt(at), BigInt(captured), wire, second, room);
      } catch (trap) {
        throw this.stopped("why", trap);
      }
    };
    return { result, to, ask };
  }

  /**
   * The instructions that a run executes, in order, with the registers after each.
   * @param {Uint8Array} insns
   * @param {Uint8Array} packet
   * @param {number} wire
   * @returns {Trace}
   */
  trace(insns, packet, wire) {
    return this.within((take) => {
      const result = take(24), to = take(MOST_INSNS * EXECUTED_SIZE), program = this.putProgram(take, insns);
      this.call("trace", BigInt(result), ...program, ...words(this.put(take, packet)), wire, BigInt(to), BigInt(MOST_INSNS));
      const count = this.u32(result) === OK ? this.u64(result + 8) : 0;
      const steps = Array.from({ length: count }, (_, number) => {
        const at = to + number * EXECUTED_SIZE, [accumulator, index, cell, value] = [8, 12, 16, 20].map((part) => this.u32(at + part));
        return { place: this.u64(at), accumulator, index, cell, value };
      });
      return { steps, answer: this.u32(result + 4) };
    });
  }

  /**
   * The bytes of a packet that an expression looks at, from left to right; they need not be captured.
   * @param {string} expression
   * @param {Uint8Array} packet
   * @param {number} wire
   * @returns {Look[]}
   */
  looks(expression, packet, wire) {
    return this.within((take) => {
      const result = take(24), to = take(MOST_LOOKS * LOOK_SIZE), text = words(this.putText(take, expression));
      this.call("looks", BigInt(result), ...text, ...words(this.put(take, packet)), wire, BigInt(to), BigInt(MOST_LOOKS));
      const { fault, size } = this.result(result), count = fault === OK ? size : 0;
      return Array.from({ length: count }, (_, number) => ({
        offset: this.u64(to + number * LOOK_SIZE),
        size: this.u64(to + number * LOOK_SIZE + 8),
      }));
    });
  }

  /**
   * What a program answers to a packet.
   * @param {Uint8Array} insns
   * @param {Uint8Array} packet
   * @param {number} wire
   */
  run(insns, packet, wire) {
    return this.within((take) => {
      const program = take(Number(this.call("program_size"))), [at, size] = words(this.put(take, packet));
      this.call("program_init", BigInt(program), ...this.putProgram(take, insns));
      return /** @type {number} */ (this.call("program_run", BigInt(program), at, size, wire)) >>> 0;
    });
  }

  /**
   * @param {string} first
   * @param {string} second
   * @param {number} budget
   * @returns {Comparison}
   */
  compare(first, second, budget) {
    return this.within((take) => {
      const result = take(40), to = take(ROOM), texts = [first, second].map((text) => words(this.putText(take, text)));
      this.call("compare", BigInt(result), ...texts[0], ...texts[1], BigInt(budget), BigInt(to), BigInt(ROOM));
      const [fault, number, answer, cause, wire] = [0, 4, 8, 12, 16].map((at) => this.u32(result + at));
      const packet = this.bytes(to, fault === OK ? this.u64(result + 24) : 0).slice();
      return { fault, number, answer, cause, wire, place: this.u64(result + 32), packet };
    });
  }
}

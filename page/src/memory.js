// An instance of the proved library, and the memory of it that the page borrows.

/** A call of the library that did not return. */
export class Stopped extends Error {}

/**
 * A part of the library's memory.
 * @typedef {{ at: number, size: number }} Part
 */

/**
 * Takes memory until the work that it was taken for is done.
 * @typedef {(size: number) => number} Take
 */

/** @typedef {Record<string, (...words: (bigint | number)[]) => any>} Calls */

export class Memory {
  /** @param {WebAssembly.Module} module */
  constructor(module) {
    this.module = module;
    this.calls = this.started();
    this.seen = new DataView(this.buffer);
    this.decoder = new TextDecoder();
  }

  /** @returns {Calls} the exports of a new instance, in which nothing is taken */
  started() {
    return /** @type {any} */ (new WebAssembly.Instance(this.module, {}).exports);
  }

  get buffer() {
    return /** @type {any} */ (this.calls).memory.buffer;
  }

  /**
   * Calls an export of bpftap.h; sizes and addresses are BigInts. A trap leaves the instance in no known state, so it is thrown away.
   * @param {string} name without its `bpftap_`
   * @param {...(bigint | number)} given
   */
  call(name, ...given) {
    try {
      return this.calls["bpftap_" + name](...given);
    } catch (trap) {
      throw this.stopped(name, trap);
    }
  }

  /**
   * Starts the library anew after a trap in a call.
   * @param {string} name
   * @param {unknown} trap
   */
  stopped(name, trap) {
    this.calls = this.started();
    return new Stopped(`${name}: ${trap instanceof Error ? trap.message : trap}`);
  }

  /**
   * @param {number} size
   * @returns {number} the address of that many bytes, which stay until they are given back
   */
  take(size) {
    const at = BigInt.asUintN(64, this.calls.page_take(BigInt(Math.max(1, size))));
    if (at === 0n) throw new Stopped(`no memory for ${size} bytes`);
    return Number(at);
  }

  /** @param {number} at */
  give(at) {
    this.calls.page_give(BigInt(at));
  }

  /**
   * Gives back all that `work` takes, whatever happens in it.
   * @template T
   * @param {(take: Take) => T} work
   * @returns {T}
   */
  within(work) {
    const { calls } = this;
    /** @type {number[]} */
    const taken = [];
    try {
      return work((size) => {
        const at = this.take(size);
        taken.push(at);
        return at;
      });
    } finally {
      // After a trap there is another instance.
      if (this.calls === calls) taken.forEach((at) => this.give(at));
    }
  }

  /**
   * @param {number} at
   * @param {number} size
   * @returns {Uint8Array} the bytes themselves, until memory grows
   */
  bytes(at, size) {
    return new Uint8Array(this.buffer, at, size);
  }

  /** Memory as numbers, until it grows. */
  view() {
    const { buffer } = this;
    if (this.seen.buffer !== buffer) this.seen = new DataView(buffer);
    return this.seen;
  }

  /** @param {number} at */
  u32(at) {
    return this.view().getUint32(at, true);
  }

  /** @param {number} at */
  u64(at) {
    const view = this.view();
    return view.getUint32(at, true) + 2 ** 32 * view.getUint32(at + 4, true);
  }

  /**
   * @param {Take} take
   * @param {Uint8Array} bytes
   * @returns {Part}
   */
  put(take, bytes) {
    const at = take(bytes.length);
    this.bytes(at, bytes.length).set(bytes);
    return { at, size: bytes.length };
  }

  /**
   * @param {Take} take
   * @param {string} text
   * @returns {Part}
   */
  putText(take, text) {
    return this.put(take, new TextEncoder().encode(text));
  }

  /**
   * @param {number} at
   * @param {number} size
   */
  text(at, size) {
    return this.decoder.decode(this.bytes(at, size));
  }
}

/**
 * The two words of a part.
 * @param {Part} part
 * @returns {[bigint, bigint]}
 */
export function words(part) {
  return [BigInt(part.at), BigInt(part.size)];
}

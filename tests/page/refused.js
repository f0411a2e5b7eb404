// refused.js MODULE: each allocation of some calls fails in turn. Prints a line for each call that then does anything but return NoMemory, give
// back what it took, and answer as before once there is memory again. Then a call with an address above 4 GiB, which traps.

import { readFileSync } from "node:fs";
import { Library, OK } from "../../page/src/library.js";
import { Stopped } from "../../page/src/memory.js";

const NO_MEMORY = 1, EVERYTHING = 2n ** 64n - 1n;
const library = new Library(new WebAssembly.Module(readFileSync(process.argv[2])));
const packet = new Uint8Array(60).fill(8), text = "tcp port 80 or (icmp and not host 10.0.0.1) or ip[2:2] > 100";
const compiled = library.compile(text).insns;

/** Calls that allocate, each as a function of where the answer goes. */
const CALLS = {
  compile: (take) => {
    const result = take(24), to = take(4096), { at, size } = library.putText(take, text);
    return [result, BigInt(result), BigInt(at), BigInt(size), 262144, BigInt(to), 512n];
  },
  print: (take) => {
    const result = take(24), to = take(4096), { at, size } = library.putText(take, text);
    return [result, BigInt(result), BigInt(at), BigInt(size), BigInt(to), 4096n];
  },
  why: (take) => {
    const result = take(24), to = take(4096), { at, size } = library.putText(take, text), bytes = library.put(take, packet);
    return [result, BigInt(result), BigInt(at), BigInt(size), BigInt(bytes.at), BigInt(bytes.size), 60, BigInt(to), 4096n];
  },
  image: (take) => {
    const result = take(24), to = take(65536), { at } = library.put(take, compiled);
    return [result, BigInt(result), BigInt(at), BigInt(compiled.length / 8), BigInt(to), 65536n];
  },
};

let refused = 0;
for (const [name, prepare] of Object.entries(CALLS)) {
  library.within((take) => {
    const [result, ...given] = prepare(take), used = library.calls.page_used();
    for (let allowed = 0n; ; allowed++) {
      library.calls.page_allow(allowed);
      library.call(name, ...given);
      library.calls.page_allow(EVERYTHING);
      const fault = library.u32(result);
      if (library.calls.page_used() !== used) console.log(`${name}, ${allowed} allocations: not all was given back`);
      if (fault === OK) break;
      if (fault !== NO_MEMORY) console.log(`${name}, ${allowed} allocations: fault ${fault}`);
      refused++;
    }
  });
}
console.log(`${refused > 20 ? "enough" : "too few"} allocations were refused`);

try {
  library.call("image", BigInt(8), 1n << 50n, 1n, 1n << 51n, 100n);
  console.log("did not stop");
} catch (why) {
  const isNew = library.calls.page_used() === 0n && library.compile(text).fault === OK;
  console.log(why instanceof Stopped && isNew ? "stopped, and went on" : `stopped otherwise: ${why}`);
}

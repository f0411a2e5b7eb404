// Steps: a script that is played to listeners over one capture.

import { NO_ROOM, OK } from "./library.js";
import { words } from "./memory.js";

/** @typedef {import("./library.js").Library} Library */
/** @typedef {import("./memory.js").Part} Part */

/**
 * What the steps are of.
 * @typedef {{ listeners: string, script: string }} Plan
 */
/** @typedef {{ fault: number, number: number, place: number, text: string }} Replay */

const REPORTS_ROOM = 1 << 20;

/**
 * Plays the steps, and returns what a call of bpftap.h writes of them, with the fault of a capture that ends early beside it.
 * @param {Library} library
 * @param {"steps" | "steps_answers" | "picture"} name
 * @param {Plan} plan
 * @param {Uint8Array} capture
 * @returns {Replay}
 */
export function replay(library, name, plan, capture) {
  for (let room = REPORTS_ROOM; ; ) {
    const { size, ...answer } = library.within((take) => {
      const result = take(24), to = take(room), captures = take(16), file = library.put(take, capture);
      const texts = [plan.listeners, plan.script].map((text) => words(library.putText(take, text)));
      library.view().setBigUint64(captures, BigInt(file.at), true);
      library.view().setBigUint64(captures + 8, BigInt(file.size), true);
      library.bytes(to, 1)[0] = 0;
      library.call(name, BigInt(result), ...texts[0], ...texts[1], BigInt(captures), 1n, BigInt(to), BigInt(room));
      const [fault, number] = [library.u32(result), library.u32(result + 4)];
      const written = library.u64(result + 8), isWritten = fault !== NO_ROOM && written < room;
      return { fault, number, place: library.u64(result + 16), size: written, text: isWritten ? library.text(to, written) : "" };
    });
    if (answer.fault !== NO_ROOM) return answer;
    room = size + 1;
  }
}

/**
 * Whether there is something to show: also after a record that cannot be read.
 * @param {Replay} answer
 */
export function hasReports(answer) {
  return answer.fault === OK || answer.text !== "";
}

// Long work, in a worker of its own that can be stopped: the packets of a capture, the comparison of two filters, steps.

import { captureJobs } from "./packets.js";
import { Library } from "./library.js";
import { replay } from "./steps.js";

/** @typedef {import("./library.js").Comparison} Comparison */
/** @typedef {import("./steps.js").Plan} Plan */

/** How long a worker goes on without a look at its letter box, and how long it is silent, in milliseconds. */
const TURN = 50, SILENCE = 200;

/**
 * The work that a worker can be given. A generator yields what gives its news, and is given up when the next letter comes.
 * @param {Library} library
 * @returns {Record<string, (...given: any[]) => any>}
 */
function jobsOf(library) {
  return {
    ...captureJobs(library),
    compare: (/** @type {string} */ first, /** @type {string} */ second, /** @type {number} */ budget) => library.compare(first, second, budget),
    steps: (/** @type {Plan} */ plan, /** @type {Uint8Array} */ capture, /** @type {boolean} */ isDrawn) => ({
      reports: replay(library, "steps", plan, capture),
      answers: replay(library, "steps_answers", plan, capture),
      picture: isDrawn ? replay(library, "picture", plan, capture) : null,
    }),
  };
}

/** Answers letters in a worker: the first one is the module. One without work gives up what is being done. */
export function serve() {
  /** @type {ReturnType<typeof jobsOf>} */
  let jobs, latest = 0;
  /**
   * @param {number} number
   * @param {Generator} work
   * @param {number} told when there was news
   */
  const goOn = (number, work, told) => {
    if (number !== latest) {
      work.return(undefined);
      return;
    }
    const until = performance.now() + TURN;
    let step;
    do step = work.next();
    while (!step.done && performance.now() < until);
    const now = performance.now(), isNews = step.done || now - told >= SILENCE;
    if (isNews) postMessage({ number, done: step.done, value: step.done ? step.value : step.value() });
    if (!step.done) setTimeout(() => goOn(number, work, isNews ? now : told));
  };
  self.onmessage = ({ data }) => {
    if (data.module) {
      jobs = jobsOf(new Library(data.module));
      return;
    }
    latest = data.number;
    if (!data.name) return;
    const begun = jobs[data.name](...data.given);
    if (begun && typeof begun.next === "function") goOn(latest, begun, 0);
    else postMessage({ number: latest, done: true, value: begun });
  };
}

/** The work was stopped before it was done: by its user, or by the next work. */
export class Ended extends Error {
  /** @param {boolean} isByUser */
  constructor(isByUser) {
    super(isByUser ? "stopped" : "the next question came");
    this.isByUser = isByUser;
  }
}

/** A worker, seen from the page. It does one piece of work at a time: the next one takes the place of the one before. */
export class Desk {
  /**
   * @param {() => Worker} start
   * @param {WebAssembly.Module} module
   * @param {boolean} yields whether its work looks for the next letter in between; if not, the worker is ended when that comes
   */
  constructor(start, module, yields) {
    this.start = start;
    this.module = module;
    this.yields = yields;
    this.number = 0;
    /** @type {Worker | null} */
    this.worker = null;
    /** @type {{ resolve: (value: any) => void, reject: (why: Error) => void, onNews: (news: any) => void } | null} */
    this.waiting = null;
  }

  /**
   * @param {string} name of the work
   * @param {any[]} given
   * @param {(news: any) => void} [onNews] is called while it is being done
   * @returns {Promise<any>}
   */
  ask(name, given, onNews = () => {}) {
    this.turnAway();
    const worker = this.worker || this.open();
    worker.postMessage({ number: ++this.number, name, given });
    return new Promise((resolve, reject) => (this.waiting = { resolve, reject, onNews }));
  }

  /** Gives up the work that is being done, for the next one. */
  turnAway() {
    const why = new Ended(false);
    if (!this.waiting) return;
    if (!this.yields) {
      this.stop(why);
      return;
    }
    if (this.worker) this.worker.postMessage({ number: ++this.number });
    this.leave(why);
  }

  open() {
    const worker = this.start();
    worker.onmessage = ({ data }) => {
      if (data.number !== this.number || !this.waiting) return;
      const { resolve, onNews } = this.waiting;
      if (!data.done) {
        onNews(data.value);
        return;
      }
      this.waiting = null;
      resolve(data.value);
    };
    // A trap in it, most likely.
    worker.onerror = (event) => {
      event.preventDefault();
      this.stop(new Error(event.message));
    };
    worker.postMessage({ module: this.module });
    this.worker = worker;
    return worker;
  }

  /** @param {Error} why */
  leave(why) {
    const { waiting } = this;
    this.waiting = null;
    if (waiting) waiting.reject(why);
  }

  /**
   * Ends the worker; the next question starts another one.
   * @param {Error} why
   */
  stop(why = new Ended(true)) {
    if (this.worker) this.worker.terminate();
    this.worker = null;
    this.leave(why);
  }
}

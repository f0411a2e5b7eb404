// Listeners and a script: the picture of the steps, gone through one by one, and the reports.

import { Ended } from "./jobs.js";
import { explainSteps } from "./hints.js";
import { Picture } from "./picture.js";
import { find, make, save, settled } from "./dom.js";
import { hasReports } from "./steps.js";

/** @typedef {import("./library.js").Library} Library */
/** @typedef {import("./jobs.js").Desk} Desk */
/** @typedef {import("./steps.js").Plan} Plan */
/** @typedef {import("./steps.js").Replay} Replay */
/** @typedef {import("./app.js").Capture} Capture */
/**
 * What the library says of a step: a line of its own, and one for each listener that it reaches.
 * @typedef {{ head: string, answers: string[] }} Step
 */

/** More columns than these take longer to draw than a person waits. */
const MOST_COLUMNS = 10000;

/** @param {string} text */
const linesIn = (text) => text.split("\n").filter((line) => line.trim() !== "").length;

/**
 * The steps of `bpftap steps -v`: lines of answers are indented.
 * @param {string} text
 */
function stepsOf(text) {
  /** @type {Step[]} */
  const steps = [];
  for (const line of text.split("\n").filter(Boolean)) {
    if (line.startsWith(" ")) steps[steps.length - 1].answers.push(line.trim());
    else steps.push({ head: line, answers: [] });
  }
  return steps;
}

export class ListenersView {
  /**
   * @param {Library} library
   * @param {Desk} desk
   * @param {() => void} onEdit
   */
  constructor(library, desk, onEdit) {
    this.library = library;
    this.desk = desk;
    /** @type {HTMLTextAreaElement} */
    this.listeners = find("listeners-text");
    /** @type {HTMLTextAreaElement} */
    this.script = find("script-text");
    /** @type {Step[]} */
    this.steps = [];
    this.at = 0;
    /**
     * The capture whose packets arrive.
     * @type {Capture | null}
     */
    this.capture = null;
    this.saved = "";
    this.picture = new Picture();
    const play = settled(200, () => this.play(this.capture));
    [this.listeners, this.script].forEach((area) => area.addEventListener("input", () => {
      onEdit();
      play();
    }));
    find("stop-steps").addEventListener("click", () => this.desk.stop());
    find("save-picture").addEventListener("click", () => save("steps.svg", "image/svg+xml", this.saved));
    find("previous-column").addEventListener("click", () => this.go(this.at - 1));
    find("next-column").addEventListener("click", () => this.go(this.at + 1));
  }

  /** @param {Plan} plan */
  write({ listeners, script }) {
    [this.listeners.value, this.script.value] = [listeners, script];
  }

  /** @returns {Plan} */
  get plan() {
    return { listeners: this.listeners.value, script: this.script.value };
  }

  /**
   * Plays the steps over a capture. Nothing is played while there is none.
   * @param {Capture | null} capture
   */
  async play(capture) {
    this.capture = capture;
    if (!capture) return;
    const { plan } = this, columns = linesIn(plan.listeners) * linesIn(plan.script), isDrawn = columns <= MOST_COLUMNS;
    const slow = setTimeout(() => (find("stop-steps").hidden = false), 200);
    try {
      this.show(plan, capture, await this.desk.ask("steps", [plan, capture.file, isDrawn]));
      find("not-drawn").textContent = isDrawn ? "" : `The picture would have ${columns} columns, and at most ${MOST_COLUMNS} are drawn.`;
    } catch (why) {
      if (why instanceof Ended && !why.isByUser) return;
      this.clear();
      find("steps-fault").textContent = why instanceof Ended ? "Stopped." : `The library stopped in this call: ${/** @type {Error} */ (why).message}.`;
    } finally {
      clearTimeout(slow);
      find("stop-steps").hidden = true;
    }
  }

  /**
   * @param {Plan} plan
   * @param {Capture} capture
   * @param {{ reports: Replay, answers: Replay, picture: Replay | null }} played
   */
  show(plan, { file }, { reports, answers, picture }) {
    const { at } = this;
    this.clear();
    find("steps-fault").replaceChildren(...explainSteps(this.library, plan, reports, file));
    if (hasReports(reports)) {
      find("reports").textContent = reports.text;
      this.steps = stepsOf(answers.text);
      this.saved = picture ? picture.text : "";
      this.picture.draw(this.saved);
    }
    // The next steps begin where the user was.
    if (this.steps.length) this.go(at);
    else this.at = at;
  }

  /** Takes away what earlier steps gave. */
  clear() {
    this.desk.turnAway();
    for (const name of ["reports", "steps-fault", "not-drawn"]) find(name).textContent = "";
    [this.steps, this.saved] = [[], ""];
    this.picture.draw("");
    this.go(0);
  }

  /**
   * Goes to a step.
   * @param {number} to
   */
  go(to) {
    this.at = Math.max(0, Math.min(this.steps.length - 1, to));
    const step = this.steps[this.at] || { head: "", answers: [] };
    this.picture.go(this.at);
    find("column").textContent = step.head;
    find("column-answers").replaceChildren(...step.answers.map((answer) => make("li", {}, answer)));
  }

  /**
   * Whether a key goes to another step.
   * @param {string} key
   */
  takesKey(key) {
    if (key !== "ArrowLeft" && key !== "ArrowRight") return false;
    this.go(this.at + (key === "ArrowLeft" ? -1 : 1));
    return true;
  }
}

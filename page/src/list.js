// The list of a capture's packets: only the rows in sight are in the page, so that it scrolls with a million of them.

import { VERDICTS } from "./library.js";
import { counted, find, make } from "./dom.js";
import { lengthText } from "./packet.js";
import { filled, wording } from "./wording.js";

/** @typedef {import("./captures.js").Records} Records */
/** @typedef {import("./answers.js").Answers} Answers */

/** The height of a row in pixels, as the style says, and of the highest element that all browsers show. */
const ROW_HEIGHT = 22, MOST_HEIGHT = 8e6, MOST_REASONS = 100;

/**
 * The time of day of a packet.
 * @param {number} seconds
 * @param {number} nanos
 */
function timeText(seconds, nanos) {
  return new Date(seconds * 1000).toISOString().slice(11, 19) + "." + String(nanos).padStart(9, "0").slice(0, 6);
}

/**
 * How many frames no filter looks into, as the program says it.
 * @param {Records} records
 */
function unseenText({ count, unseen }) {
  return unseen ? filled(wording().unseen, { unseen, frames: count, are: unseen === 1 ? "is" : "are" }) : "";
}

export class ListView {
  /** @param {(place: number) => void} onChosen */
  constructor(onChosen) {
    this.onChosen = onChosen;
    /** @type {Records | null} */
    this.records = null;
    /** @type {Answers | null} */
    this.answers = null;
    this.chosen = -1;
    /**
     * The places that are shown, of the first packets that were answered; all packets if there is nothing.
     * @type {Uint32Array | null}
     */
    this.places = null;
    this.size = 0;
    this.taken = 0;
    // Where the box is scrolled to, and its height: to ask it for these, the browser has to lay out the page.
    this.scrolled = 0;
    this.height = 0;
    this.box = find("packets");
    /** @type {HTMLSelectElement} */
    this.only = find("only");
    this.box.addEventListener("scroll", () => this.measure());
    this.box.addEventListener("click", (event) => this.click(/** @type {Element} */ (event.target)));
    this.box.addEventListener("keydown", (event) => this.key(event));
    this.only.addEventListener("change", () => this.choose());
    new ResizeObserver(() => this.measure()).observe(this.box);
  }

  /** Draws what is in sight, wherever the box was scrolled to. */
  measure() {
    [this.scrolled, this.height] = [this.box.scrollTop, this.box.clientHeight];
    this.drawRows();
  }

  /** @param {number} to */
  scroll(to) {
    this.box.scrollTop = to;
    this.scrolled = this.box.scrollTop;
  }

  /** @param {Records | null} records of a capture that is shown from now on, without answers */
  open(records) {
    this.records = records;
    this.chosen = -1;
    this.only.value = "";
    this.scroll(0);
    find("unseen").textContent = records ? unseenText(records) : "";
    this.follow(null);
  }

  /**
   * Shows the answers of another filter from now on, or none. What was of the one before is gone.
   * @param {Answers | null} answers of which none came yet
   */
  follow(answers) {
    this.answers = answers;
    this.only.disabled = answers === null;
    this.offer(false);
    find("counts").textContent = "";
    this.choose();
  }

  /** Shows the answers that have come. */
  grow() {
    this.count((counts, count, total) => `${count} of ${counted(total, "packet")} so far: ${counts}`);
    this.take(false);
    this.drawRows();
  }

  /** Shows that no further answers come: all are here, or the work was stopped. */
  end() {
    const isWhole = this.answers !== null && this.answers.count === this.answers.total;
    this.count((counts, count, total) => `${isWhole ? "" : `Stopped after ${count} of `}${counted(total, "packet")}: ${counts}`);
    this.offer(true);
    this.choose();
  }

  /** @param {(counts: string, count: number, total: number) => string} say */
  count(say) {
    if (!this.answers) return;
    const { byVerdict: [no, yes, abort], count, total } = this.answers;
    find("counts").textContent = total ? say(`${yes} Yes, ${no} No, ${abort} Abort`, count, total) : "";
  }

  /**
   * Offers each verdict and each reason that came, and at the end how many packets have it.
   * @param {boolean} isLast
   */
  offer(isLast) {
    const kept = this.only.value, { byVerdict, byReason, texts } = this.answers || { byVerdict: [], byReason: [], texts: [] };
    const option = (/** @type {string} */ value, /** @type {string} */ text) => make("option", { value, selected: value === kept }, text);
    const order = texts.map((_, number) => number).sort((one, other) => byReason[other] - byReason[one]);
    const reasons = isLast ? order.slice(0, MOST_REASONS).map((number) => option("=" + texts[number], `${byReason[number]}: ${texts[number]}`)) : [];
    const verdicts = VERDICTS.map((verdict, number) => option(verdict, isLast ? `${byVerdict[number]} ${verdict}` : verdict));
    // A reason that was chosen before may come.
    if (!isLast && kept.startsWith("=")) reasons.push(option(kept, kept.slice(1)));
    this.only.replaceChildren(option("", "all"), ...verdicts, ...reasons);
  }

  /** Shows the packets that are wanted. */
  choose() {
    this.take(true);
    this.drawRows();
  }

  /**
   * Takes the packets that are wanted into the list.
   * @param {boolean} isAnew whether those of before are thrown away
   */
  take(isAnew) {
    const { answers } = this, only = this.only.value, total = this.records ? this.records.count : 0;
    if (isAnew) [this.places, this.size, this.taken] = [only === "" ? null : new Uint32Array(total), 0, 0];
    if (this.places && answers) {
      const verdict = VERDICTS.indexOf(only), values = verdict < 0 ? answers.reasons : answers.verdicts;
      const wanted = verdict < 0 ? answers.texts.indexOf(only.slice(1)) : verdict;
      for (; this.taken < answers.count; this.taken++) if (values[this.taken] === wanted) this.places[this.size++] = this.taken;
    }
    if (!this.places) this.size = total;
    find("rows").style.height = `${Math.min(MOST_HEIGHT, this.size * ROW_HEIGHT)}px`;
  }

  /** @param {number} at of a row */
  placeAt(at) {
    return this.places ? this.places[at] : at;
  }

  /**
   * @param {number} place
   * @returns {number} its row, or -1
   */
  rowOf(place) {
    if (this.places) return this.places.subarray(0, this.size).indexOf(place);
    return place < this.size ? place : -1;
  }

  /** How many pixels of rows one of the scroll bar stands for: above the highest element the rows pass faster. */
  get scale() {
    const whole = this.size * ROW_HEIGHT;
    return whole > MOST_HEIGHT ? (whole - this.height) / (MOST_HEIGHT - this.height) : 1;
  }

  /** @param {number} place */
  row(place) {
    const records = /** @type {Records} */ (this.records), { answers } = this, isAsked = answers !== null && place < answers.count;
    const verdict = isAsked ? VERDICTS[answers.verdicts[place]] : "", reason = isAsked ? answers.texts[answers.reasons[place]] : "";
    return [
      String(place),
      timeText(records.seconds[place], records.nanos[place]),
      lengthText(records.captured[place], records.wire[place]),
      make("span", { class: verdict }, verdict),
      reason.slice(verdict.length + 1),
    ].map((cell) => (typeof cell === "string" ? make("span", {}, cell) : cell));
  }

  drawRows() {
    const top = this.scrolled * this.scale, first = Math.floor(top / ROW_HEIGHT);
    const count = Math.max(0, Math.min(Math.ceil(this.height / ROW_HEIGHT) + 1, this.size - first));
    const rows = Array.from({ length: count }, (_, at) => {
      const number = first + at, place = this.placeAt(number);
      const words = { role: "option", id: `packet-${place}`, "aria-selected": String(place === this.chosen), "aria-setsize": this.size };
      const row = make("div", { class: "row", "data-place": place, "aria-posinset": number + 1, ...words }, ...this.row(place));
      row.style.top = `${number * ROW_HEIGHT - top + this.scrolled}px`;
      return row;
    });
    find("rows").replaceChildren(...rows);
    this.box.setAttribute("aria-activedescendant", rows.some((row) => row.id === `packet-${this.chosen}`) ? `packet-${this.chosen}` : "");
  }

  /** @param {Element} target */
  click(target) {
    const row = /** @type {HTMLElement | null} */ (target.closest(".row"));
    if (row) this.onChosen(Number(row.dataset.place));
  }

  /** @param {KeyboardEvent} event */
  key(event) {
    const page = Math.max(1, Math.floor(this.height / ROW_HEIGHT) - 1), at = this.rowOf(this.chosen), last = this.size - 1;
    const to = { ArrowUp: at - 1, ArrowDown: at + 1, PageUp: at - page, PageDown: at + page, Home: 0, End: last }[event.key];
    if (to === undefined || last < 0) return;
    event.preventDefault();
    this.onChosen(this.placeAt(Math.max(0, Math.min(last, to))));
  }

  /**
   * Shows a packet as the chosen one, and scrolls to it if it is out of sight.
   * @param {number} place
   */
  show(place) {
    this.chosen = place;
    const at = this.rowOf(place), { scale, height } = this, top = this.scrolled * scale;
    if (at >= 0 && (at * ROW_HEIGHT < top || (at + 1) * ROW_HEIGHT > top + height)) this.scroll(Math.max(0, at * ROW_HEIGHT - height / 3) / scale);
    this.drawRows();
  }
}

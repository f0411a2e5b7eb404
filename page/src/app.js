// The page as a whole: what is typed and chosen, and which view follows which. A filter, a capture and its answers each have one place where they
// change, which takes away what was shown of the one before.

import { Answers, CaptureDesk } from "./answers.js";
import { CaptureBar } from "./capturebar.js";
import { ComparisonView } from "./comparison.js";
import { Desk, Ended } from "./jobs.js";
import { FilterView } from "./filter.js";
import { GraphView } from "./graph.js";
import { LessonView } from "./lessons.js";
import { ListView } from "./list.js";
import { ListenersView } from "./listeners.js";
import { MOST_SNAP } from "./library.js";
import { MOST_LINK, linkTo, readLink } from "./state.js";
import { PacketView } from "./packet.js";
import { captureOf, exampleOf } from "./captures.js";
import { closeMenus, stoppable, takeKeys, takeTabs, takeTraps } from "./shell.js";
import { coded, counted, find, settled } from "./dom.js";
import { offerSaving } from "./saving.js";
import { wording } from "./wording.js";

/** @typedef {import("./library.js").Library} Library */
/** @typedef {import("./capturebar.js").Source} Source */
/** @typedef {import("./captures.js").Records} Records */
/** @typedef {import("./filter.js").Filter} Filter */
/**
 * A capture: its name, the file and the packets in it.
 * @typedef {{ name: string, file: Uint8Array, records: Records }} Capture
 */

export class App {
  /**
   * @param {Library} library
   * @param {() => Worker} startWorker
   * @param {Map<string, Uint8Array>} examples the captures that the page carries
   */
  constructor(library, startWorker, examples) {
    this.library = library;
    this.examples = examples;
    const desk = (/** @type {boolean} */ yields) => new Desk(startWorker, library.module, yields);
    this.state = readLink("").state;
    /**
     * The last filter that could be read.
     * @type {Filter | null}
     */
    this.filter = null;
    /** @type {Capture | null} */
    this.capture = null;
    /** @type {Source | null} */
    this.source = null;
    this.desk = new CaptureDesk(desk(true), wording().unseenTypes);
    this.write = settled(150, () => this.writeLink());
    this.bar = new CaptureBar((source) => this.open(source), (cut) => this.cut(cut));
    this.filterView = new FilterView(() => this.read());
    this.graph = new GraphView(() => this.packet.go(this.packet.at));
    this.packet = new PacketView((trace, at) => this.mark(trace, at));
    this.list = new ListView((place) => this.choose(place));
    this.comparison = new ComparisonView(library, desk(false), (packet, wire) => this.openWitness(packet, wire), this.write);
    this.listeners = new ListenersView(library, desk(false), this.write);
    this.lessons = new LessonView();
  }

  start() {
    find("about").textContent = `Library ${this.library.version()}. All is done in this page: nothing is sent anywhere.`;
    this.listen();
    this.go(location.hash);
  }

  listen() {
    // By now `writeLink` may have written the state before it into the address again.
    window.addEventListener("hashchange", (event) => this.go(new URL(event.newURL).hash));
    takeTraps((why) => {
      this.follow(null);
      this.endOf(why);
    });
    takeKeys((key) => (this.state.view === "filters" ? this.packet : this.listeners).takesKey(key));
    closeMenus();
    takeTabs();
    offerSaving(this.library, () => ({ filter: this.filter, file: this.capture && this.capture.file, cut: this.state.cut || MOST_SNAP }));
    // A link to the address that is there already changes nothing in it.
    document.addEventListener("click", ({ target }) => {
      const link = target instanceof Element && target.closest("a");
      if (link && link.hash && link.hash === location.hash) this.go(link.hash);
    });
    find("example-file").addEventListener("click", () => this.open(exampleOf(this.examples, "")));
    find("stop-packets").addEventListener("click", () => this.desk.desk.stop());
    find("show-filters").addEventListener("click", () => this.view("filters"));
    find("show-listeners").addEventListener("click", () => this.view("listeners"));
  }

  /**
   * Shows what a link says.
   * @param {string} hash
   */
  go(hash) {
    const { state, notes } = readLink(hash), { source } = this, { cut } = this.state, example = exampleOf(this.examples, state.example);
    // What a lesson says is of its capture, so its links open that in place of the user's.
    const isOther = source === null || state.example !== this.state.example || (state.lesson !== "" && source.file !== example.file);
    if (state.example && !this.examples.has(state.example)) notes.push(`\`x=${state.example.slice(0, 40)}\` of the link names no capture of this page.`);
    this.state = state;
    find("notice").replaceChildren(...coded(notes.join("\n")));
    this.lessons.show(state);
    this.listeners.write(state);
    this.comparison.write(state.other);
    this.filterView.input.value = state.filter;
    this.bar.write(state.cut);
    if (isOther) this.source = example;
    if (isOther || this.capture === null || state.cut !== cut) this.openCapture();
    this.read(false);
    this.show(state.packet);
    this.view(state.view);
  }

  /** Writes the state into the address of the page. */
  writeLink() {
    const { filterView, comparison, listeners } = this;
    Object.assign(this.state, listeners.plan, { filter: filterView.input.value, other: comparison.input.value });
    const link = linkTo(this.state);
    find("too-long").hidden = link.length <= MOST_LINK;
    history.replaceState(null, "", link.length <= MOST_LINK ? link : "#");
  }

  /** @param {string} view */
  view(view) {
    this.state.view = view;
    for (const name of ["filters", "listeners"]) {
      find(name).hidden = name !== view;
      find(`show-${name}`).setAttribute("aria-pressed", String(name === view));
    }
    if (view === "listeners") this.listeners.play(this.capture);
    this.write();
  }

  /**
   * Reads what is typed. While it has a fault, the last filter that could be read stays, and all that is shown of it, dimmed.
   * @param {boolean} isTyped and not of a link
   */
  read(isTyped = true) {
    find("stopped").hidden = true;
    const filter = this.filterView.read(this.library), isOld = isTyped && filter === null && this.filter !== null;
    const isSame = filter && this.filter && filter.expression === this.filter.expression;
    if (isOld || isSame) this.filterView.show(this.filter, isOld);
    else this.follow(filter);
    this.write();
  }

  /**
   * Goes on with another filter, or without one.
   * @param {Filter | null} filter
   */
  follow(filter) {
    this.filter = filter;
    this.filterView.show(filter, false);
    this.graph.show(filter);
    this.comparison.follow(filter && filter.expression);
    this.showPacket(this.list.chosen);
    this.ask();
  }

  /** @param {Source} source */
  open(source) {
    this.source = source;
    Object.assign(this.state, { packet: -1, example: "" });
    this.openCapture();
    this.write();
  }

  /** @param {number} cut */
  cut(cut) {
    this.state.cut = cut;
    this.openCapture();
    this.write();
  }

  /**
   * Goes on with another capture, or without one: nothing of the one before is shown.
   * @param {Capture | null} capture
   */
  followCapture(capture) {
    this.capture = capture;
    this.list.open(capture && capture.records);
    this.show(this.state.packet);
    this.listeners.clear();
    if (this.state.view === "listeners") this.listeners.play(capture);
    this.ask();
  }

  /** Reads the records of the source, each packet cut if that is wanted. */
  async openCapture() {
    const source = /** @type {Source} */ (this.source), { name } = source;
    this.followCapture(null);
    this.bar.wait(name);
    try {
      const opened = await stoppable(this.desk.open(source.file, this.state.cut, (count) => this.bar.wait(name, count)));
      this.bar.show(this.library, source, opened.records);
      this.followCapture({ name, ...opened });
    } catch (why) {
      if (!(why instanceof Ended)) this.bar.refuse(name, `it was not read, since the library stopped (${/** @type {Error} */ (why).message})`);
      else if (why.isByUser) this.bar.refuse(name, "not read, it was stopped");
    }
  }

  /** Asks the filter about each packet of the capture. */
  async ask() {
    const { filter, capture, list } = this, answers = filter && capture && new Answers(capture.records.count);
    if (capture) this.desk.desk.turnAway();
    list.follow(answers);
    find("unseen").hidden = filter === null || filter.expression.trim() === "";
    if (!answers) return;
    try {
      answers.add(await stoppable(this.desk.ask(capture.file, filter.expression, (news) => {
        answers.add(news);
        list.grow();
      })));
      list.end();
      if (this.state.packet < 0) this.show(-1);
    } catch (why) {
      if (why instanceof Ended && !why.isByUser) return;
      list.end();
      this.endOf(why);
    }
  }

  /** @param {number} place of the packet that the user chose */
  choose(place) {
    this.state.packet = place;
    this.show(place);
    this.write();
  }

  /**
   * Shows a packet, in the list and beside it; the first one that is accepted if none was chosen.
   * @param {number} wanted
   */
  show(wanted) {
    const { capture, list } = this, place = wanted < 0 && list.answers ? list.answers.firstYes : Math.max(0, wanted);
    list.show(capture && place < capture.records.count ? place : -1);
    this.showPacket(place);
  }

  /** @param {number} place of the packet that is shown beside the list */
  showPacket(place) {
    const { capture, library, filter } = this;
    if (capture === null || place < 0 || place >= capture.records.count) {
      this.packet.show(library, filter, null);
      if (capture && place > 0) find("packet-title").textContent = `No packet ${place}: the capture has ${counted(capture.records.count, "packet")}`;
      return;
    }
    const { offsets, captured, wire } = capture.records, begin = offsets[place];
    this.packet.show(library, filter, { place, bytes: capture.file.subarray(begin, begin + captured[place]), wire: wire[place] });
  }

  /**
   * Shows where the run of the chosen packet is.
   * @param {import("./library.js").Trace | null} trace
   * @param {number} at
   */
  mark(trace, at) {
    const steps = trace ? trace.steps : [];
    this.filterView.mark(steps, at);
    this.graph.mark(steps.map(({ place }) => place), steps.length ? steps[at].place : -1);
  }

  /**
   * @param {Uint8Array} packet
   * @param {number} wire
   */
  openWitness(packet, wire) {
    this.state.cut = 0;
    this.bar.write(0);
    this.open({ name: "the packet that shows the difference", file: captureOf(this.library, packet, wire), isOfPage: false });
  }

  /** @param {unknown} why work of a worker came to no end */
  endOf(why) {
    if (why instanceof Ended) return;
    find("stopped").hidden = false;
    find("stopped").textContent = `The library stopped in this call (${why instanceof Error ? why.message : why}). `
      + "It was started anew and the page goes on, but this filter has no result here.";
  }
}

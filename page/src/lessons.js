// The lessons of examples/lessons that can be done in the page: what to look at, and a link to it.

import { coded, find, make } from "./dom.js";
import { linkTo, readLink } from "./state.js";

/** @typedef {import("./state.js").PageState} PageState */
/**
 * A thing to look at.
 * @typedef {{ say: string, show: Partial<PageState> }} Stop
 */
/** @typedef {{ name: string, title: string, stops: Stop[] }} Lesson */

const STEP = { view: "listeners", filter: "icmp", listeners: "64 192 icmp\n" };

const OPTIONS = { example: "options" };
// The text of which libpcap made a program that is not right.
const TWICE = "ip and (tcp port 22 or tcp port 21 and tcp port 80 or tcp port 22 or tcp port 65535)";

/**
 * @param {number} arrivals between two reads
 * @param {number} times
 */
const readAfter = (arrivals, times) => ("arrive\n".repeat(arrivals) + "read 0\n").repeat(times);

/** @type {Lesson[]} */
const LESSONS = [
  {
    name: "filters",
    title: "What a filter is",
    stops: [
      { say: "A filter is read as a tree: what a number inherits is written out in the line below the box.", show: { filter: "tcp port 80 or 8080" } },
      { say: "`and` and `or` bind alike, from the left. What would C make of it?", show: { filter: "arp or icmp and src host 192.0.2.1" } },
      { say: "The smallest program: which bytes does it load, and where does it go? Be the machine on packet 2.", show: { filter: "icmp", packet: 2 } },
      { say: "The first packet is an ARP request: how many instructions run, and why so few?", show: { filter: "icmp", packet: 0 } },
      { say: "A text that is no expression is refused, at the place where it stops being one.", show: { filter: "icmp and proot 17" } },
    ],
  },
  {
    name: "drops",
    title: "Why a packet was dropped",
    stops: [
      { say: "Two buffers of 192 bytes, seven arrivals, and nobody reads: go through the steps by the arrow keys.", show: { ...STEP, script: "arrive\n".repeat(7) } },
      { say: "A reader that comes after each two packets loses nothing.", show: { ...STEP, script: readAfter(2, 20) } },
      { say: "After each eight: at which step is a packet lost first, and why?", show: { ...STEP, script: readAfter(8, 8) } },
      { say: "The same reader with larger buffers.", show: { ...STEP, listeners: "64 768 icmp\n", script: readAfter(8, 8) } },
      { say: "An `i` hands each packet over at once. Which of the two loses more?", show: { ...STEP, listeners: "64 192 icmp\n64 192i icmp\n", script: readAfter(8, 8).replace(/read 0/g, "read 0\nread 1") } },
    ],
  },
  {
    name: "rejects",
    title: "Why a filter rejects",
    stops: [
      { say: "Frames cut to 14 bytes: a test that needs a byte that is not there aborts, and the packet is rejected.", show: { filter: "tcp", cut: 14, packet: 2 } },
      { say: "`not` makes Yes of No. What does it make of Abort?", show: { filter: "not tcp", cut: 14, packet: 2 } },
      { say: "The order counts: put the test that can be answered first.", show: { filter: "ip or not tcp", cut: 14, packet: 2 } },
      { say: "A later fragment has no ports: bytes 20 and 21 have its place in the packet.", show: { filter: "udp port 5353", packet: 116 } },
      { say: "This was meant to keep answers. Why does it keep packet 27?", show: { filter: "icmp and not icmp[icmptype] = icmp-echo", packet: 27 } },
      { say: "A division by 0 has no answer either.", show: { filter: "10 / (len - 42) = 0", packet: 0 } },
    ],
  },
  {
    name: "same",
    title: "Filters that look the same",
    stops: [
      { say: "A filter that was shortened: is it still the same, for every packet there can be?", show: { filter: "ip and tcp port 80", other: "tcp port 80" } },
      { say: "`not` takes one test, and `or 443` inherits the word `port` only.", show: { filter: "not port 80 or 443", other: "not (port 80 or 443)" } },
      { say: "Any port is not every packet: open the packet that shows it.", show: { filter: "tcp", other: "tcp portrange 0-65535" } },
      { say: "The order of `or`, on frames that were cut.", show: { filter: "port 80 or 8080", other: "port 8080 or 80", cut: 36, packet: 124 } },
    ],
  },
  {
    name: "fragments",
    title: "Fragments",
    stops: [
      { say: "Later fragments, and first ones with More Fragments.", show: { filter: "ip[6:2] & 0x3fff != 0", packet: 115 } },
      { say: "The first fragment has the ports.", show: { filter: "udp port 5353", packet: 115 } },
      { say: "A later one has data at their place, so the filter does not look for ports. Which instruction decides?", show: { filter: "udp port 5353", packet: 116 } },
      { say: "The rest of the datagram, by its Identification.", show: { filter: "udp port 5353 or ip[4:2] = 0x9898", packet: 117 } },
      {
        say: "A filter that rejects a port lets later fragments in.",
        show: { filter: "not udp port 5353", other: "not udp port 5353 and (not udp or ip[6:2] & 0x1fff = 0)", packet: 116 },
      },
    ],
  },
  {
    name: "options",
    title: "How long is the header?",
    stops: [
      { say: "The low four bits of the first byte are the length of the header, in words: which frames have options?", show: { ...OPTIONS, filter: "ip[0] & 0xf != 5", packet: 1 } },
      { say: "The port is looked up after the options. What is X after `ldxb`, on frame 0 and on frame 1?", show: { ...OPTIONS, filter: "udp dst port 53", packet: 1 } },
      { say: "A filter with fixed places sees padding for a port. Open the packet that shows it.", show: { ...OPTIONS, filter: "udp dst port 53", other: "udp and ether[36:2] = 53", packet: 2 } },
      { say: "Record Route has type 7. Which frame without it is accepted, and what is its byte 20?", show: { ...OPTIONS, filter: "ip[20] = 7", packet: 1 } },
      { say: "TCP has options too: is option 2 only in segments with SYN, here and everywhere?", show: { filter: "tcp[12] > 0x5f and tcp[20] = 2", other: "tcp[tcpflags] & tcp-syn != 0" } },
    ],
  },
  {
    name: "cost",
    title: "What a filter costs",
    stops: [
      { say: "How many instructions run on an ARP frame, and how many on packet 2?", show: { filter: "icmp", packet: 0 } },
      { say: "Two tests, and each asks for six fields: how many loads does the program execute?", show: { filter: "tcp port 80 or 8080", packet: 123 } },
      { say: "What does the longer text cost?", show: { filter: "tcp port 8080", other: "ip and tcp and port 8080", packet: 123 } },
      { say: "`and` asks its second test only after a Yes: which order runs less?", show: { filter: "icmp and greater 1000", other: "greater 1000 and icmp", packet: 2 } },
      { say: "The order also says what can be shared. How long is the program of each?", show: { filter: "host 192.0.2.1 and tcp port 8080", other: "tcp port 8080 and host 192.0.2.1", packet: 123 } },
    ],
  },
  {
    name: "libpcap",
    title: "The same text, two programs",
    stops: [
      { say: "How is it read? `and` and `or` bind alike, from the left.", show: { filter: TWICE } },
      { say: "An optimiser must not change what a filter accepts. Is the shorter text the same?", show: { filter: TWICE, other: "ip and (tcp port 21 and tcp port 80 or tcp port 22 or tcp port 65535)" } },
      { say: "And this one? Open the packet that shows it.", show: { filter: TWICE, other: "ip and (tcp port 22 or tcp port 65535 or (tcp port 21 and tcp port 80))" } },
    ],
  },
];

export class LessonView {
  /** Puts a link to each lesson into the page's list. */
  constructor() {
    /**
     * The lesson that is shown.
     * @type {Lesson | undefined}
     */
    this.lesson = undefined;
    // Whether it was chosen in the menu, which closes.
    this.isByMenu = false;
    find("lessons").addEventListener("click", () => (this.isByMenu = true));
    const link = (/** @type {Lesson} */ { name, title, stops }) => make("a", { href: linkTo({ ...stops[0].show, lesson: name }) }, title);
    find("lessons").replaceChildren(...LESSONS.map((lesson) => make("li", {}, link(lesson))));
  }

  /**
   * Shows the lesson of a state, and which of its stops that is. The links stay the same elements, so the focus stays on them.
   * @param {PageState} state
   */
  show(state) {
    const lesson = LESSONS.find(({ name }) => name === state.lesson), panel = find("lesson");
    if (lesson && lesson !== this.lesson) panel.replaceChildren(...this.parts(lesson));
    this.lesson = lesson;
    panel.hidden = lesson === undefined;
    if (!lesson) return;
    const here = linkTo(state), links = /** @type {NodeListOf<HTMLAnchorElement>} */ (panel.querySelectorAll("li a"));
    links.forEach((link) => {
      if (linkTo(readLink(link.hash).state) === here) link.setAttribute("aria-current", "step");
      else link.removeAttribute("aria-current");
    });
    /** @type {HTMLAnchorElement} */ (panel.querySelector(".close")).href = linkTo({ ...state, lesson: "" });
    if (this.isByMenu) links[0].focus();
    this.isByMenu = false;
  }

  /** @param {Lesson} lesson */
  parts({ name, title, stops }) {
    const links = stops.map(({ say, show }) => make("li", {}, make("a", { href: linkTo({ ...show, lesson: name }) }, ...coded(say))));
    return [
      make("h2", {}, `Lesson: ${title}`),
      make("ol", {}, ...links),
      make("p", { class: "soft" }, `The whole lesson, with questions, is examples/lessons/${name}.md. `, make("a", { class: "close" }, "Close the lesson")),
    ];
  }
}

// desk.js: what the page's side of a worker sends and takes: a question that is given up is told to the worker, and what still comes of it is left.

import { Desk, Ended } from "../../page/src/jobs.js";

const letters = [], news = [], worker = { postMessage: (letter) => letters.push(letter), terminate: () => letters.push("terminated"), onmessage: () => {} };
const desk = new Desk(() => worker, "module", true), outcome = [];
const note = (name, work) => work.then((value) => outcome.push([name, value]), (why) => outcome.push([name, why instanceof Ended, why.isByUser]));

note("first", desk.ask("ask", ["ip"], (value) => news.push(value)));
worker.onmessage({ data: { number: 1, done: false, value: "some of it" } });
desk.turnAway();
worker.onmessage({ data: { number: 1, done: false, value: "too late" } });
note("second", desk.ask("ask", ["arp"], (value) => news.push(value)));
worker.onmessage({ data: { number: 1, done: true, value: "too late" } });
worker.onmessage({ data: { number: 3, done: true, value: "all of it" } });
await new Promise((done) => setTimeout(done));
note("third", desk.ask("ask", ["tcp"]));
desk.stop();
await new Promise((done) => setTimeout(done));
process.stdout.write(JSON.stringify({ letters, news, outcome }) + "\n");

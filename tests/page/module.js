// module.js MODULE < QUESTIONS: what the page's scripts get from its module, a line of JSON for each question of native.py.

import { readFileSync } from "node:fs";
import { createHash } from "node:crypto";
import { Library, OK } from "../../page/src/library.js";
import { captureOf, cutCapture, readRecords } from "../../page/src/captures.js";
import { replay } from "../../page/src/steps.js";

const library = new Library(new WebAssembly.Module(readFileSync(process.argv[2])));
const questions = JSON.parse(readFileSync(0, "utf8"));
const hex = (bytes) => Buffer.from(bytes).toString("hex");
const bytes = (text) => new Uint8Array(Buffer.from(text, "hex"));
const digest = (text) => createHash("sha256").update(text).digest("hex");
const packets = questions.packets.map(([text, wire]) => [bytes(text), wire]);

function textOr({ fault, place, text }) {
  return fault === OK ? text : [fault, place];
}

function expression(text) {
  const { fault, place, size, insns } = library.compile(text);
  const whys = packets.map(([packet, wire]) => library.why(text, packet, wire));
  const answers = whys.map((why) => [why.verdict, textOr(why)]);
  const looks = packets.map(([packet, wire]) => library.looks(text, packet, wire).map((look) => [look.offset, look.size]));
  const answer = [fault, place, size, textOr(library.print(text)), digest(JSON.stringify([answers, looks]))];
  if (fault !== OK) return [...answer, library.faultText(fault, place), library.hint(text, { fault, place })];
  const runs = packets.map(([packet, wire]) => {
    const trace = library.trace(insns, packet, wire);
    return [trace.answer, trace.steps.map((step) => [step.place, step.accumulator, step.index, step.cell, step.value])];
  });
  return [...answer, hex(insns), library.image(insns).text, digest(JSON.stringify(runs))];
}

function comparison([first, second, budget]) {
  const { fault, number, answer, cause, wire, place, packet } = library.compare(first, second, budget);
  return [fault, number, answer, cause, wire, place, hex(packet)];
}

function capture([text, size]) {
  const file = bytes(text);
  return library.within((take) => {
    const records = readRecords(library, library.put(take, file)), { count, fault, place } = records;
    const columns = [records.offsets, records.seconds, records.nanos, records.captured, records.wire].map((column) => [...column]);
    return [count, fault, place, digest(JSON.stringify(columns)), digest(cutCapture(library, file, size))];
  });
}

function steps([listeners, script, text]) {
  const plan = { listeners, script }, file = bytes(text);
  return ["steps", "steps_answers", "picture"].map((name) => {
    const { fault, number, place, text: written } = replay(library, name, plan, file);
    return [fault, number, place, digest(written)];
  });
}

const say = (answer) => process.stdout.write(JSON.stringify(answer) + "\n");
questions.expressions.forEach((text) => say(expression(text)));
questions.pairs.forEach((pair) => say(comparison(pair)));
questions.captures.forEach((file) => say(capture(file)));
questions.replays.forEach((one) => say(steps(one)));
packets.forEach(([packet, wire]) => say(digest(captureOf(library, packet, wire))));
say(["bytes that are still taken", Number(library.calls.page_used())]);

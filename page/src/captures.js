// Captures: those that the page carries, what the library reads of one, and a capture of one packet.

import { END, MOST_SNAP, OK } from "./library.js";
import { words } from "./memory.js";

/** @typedef {import("./library.js").Library} Library */
/** @typedef {import("./memory.js").Part} Part */

/**
 * The packets of a capture, a column for each of their numbers, and the fault that ended them if one did.
 * @typedef {object} Records
 * @property {number} count
 * @property {Float64Array} offsets where the captured bytes begin in the file
 * @property {Uint32Array} seconds
 * @property {Uint32Array} nanos
 * @property {Uint32Array} captured
 * @property {Uint32Array} wire
 * @property {number} unseen how many are of a type that no filter looks into
 * @property {number} fault
 * @property {number} place
 */

/** The bytes of the header of an Ethernet frame, and where its type is. */
export const ETHERNET_SIZE = 14, TYPE_AT = 12;
const RECORD_SIZE = 40, READER_SIZE = 32, RECORDS_ROOM = 1024, RECORDS_PIECE = 4096;

/** @returns {Records} */
export function noRecords() {
  const [seconds, nanos, captured, wire] = [0, 1, 2, 3].map(() => new Uint32Array(RECORDS_ROOM));
  return { count: 0, offsets: new Float64Array(RECORDS_ROOM), seconds, nanos, captured, wire, unseen: 0, fault: 0, place: 0 };
}

/**
 * @template {Float64Array | Uint32Array} T
 * @param {T} column
 * @param {number} size
 * @returns {T} the column with another size
 */
function resized(column, size) {
  const longer = column instanceof Float64Array ? new Float64Array(size) : new Uint32Array(size);
  longer.set(column.subarray(0, Math.min(size, column.length)));
  return /** @type {T} */ (longer);
}

/**
 * @param {Records} records
 * @param {number} size
 */
function resize(records, size) {
  records.offsets = resized(records.offsets, size);
  records.seconds = resized(records.seconds, size);
  records.nanos = resized(records.nanos, size);
  records.captured = resized(records.captured, size);
  records.wire = resized(records.wire, size);
}

/**
 * @param {Library} library
 * @param {number} at
 * @param {Records} records
 */
function append(library, at, records) {
  const { count } = records, view = library.view();
  if (count === records.offsets.length) resize(records, 2 * count);
  records.offsets[count] = library.u64(at);
  records.seconds[count] = view.getUint32(at + 20, true);
  records.nanos[count] = view.getUint32(at + 24, true);
  records.captured[count] = view.getUint32(at + 28, true);
  records.wire[count] = view.getUint32(at + 32, true);
  records.count++;
}

/**
 * The type that an Ethernet frame names, or -1 if it was not captured.
 * @param {Library} library
 * @param {number} begin of the capture in the library's memory
 * @param {Records} records
 * @param {number} place
 */
function typeOf(library, begin, { offsets, captured }, place) {
  return captured[place] < ETHERNET_SIZE ? -1 : library.view().getUint16(begin + offsets[place] + TYPE_AT, false);
}

/**
 * Reads the records of a capture that is in the library's memory, up to its end or its first fault. It yields what gives how many it has read.
 * @param {Library} library
 * @param {Part} capture
 * @param {number[]} unseenTypes of frames that no filter looks into
 * @returns {Generator<() => number, Records, void>}
 */
export function* eachRecord(library, capture, unseenTypes) {
  const records = noRecords(), taken = [READER_SIZE, RECORD_SIZE].map((size) => library.take(size)), [reader, record] = taken;
  try {
    library.call("open", BigInt(reader), ...words(capture));
    records.fault = library.u32(reader + 16);
    while (records.fault === OK) {
      library.call("next", BigInt(record), ...words(capture), BigInt(reader));
      const fault = library.u32(record + 16);
      if (fault === END) break;
      if (fault === OK) {
        append(library, record, records);
        if (unseenTypes.includes(typeOf(library, capture.at, records, records.count - 1))) records.unseen++;
        if (records.count % RECORDS_PIECE === 0) yield () => records.count;
      } else {
        records.fault = fault;
        records.place = library.u64(record + 8);
      }
    }
    resize(records, records.count);
    return records;
  } finally {
    taken.forEach((at) => library.give(at));
  }
}

/**
 * Reads them in one go.
 * @param {Library} library
 * @param {Part} capture
 * @returns {Records}
 */
export function readRecords(library, capture) {
  const reading = eachRecord(library, capture, []);
  for (;;) {
    const { done, value } = reading.next();
    if (done) return /** @type {Records} */ (value);
  }
}

/**
 * A capture that the page carries.
 * @param {Map<string, Uint8Array>} examples by the names that links have; a link without one has the first, of the name `""`
 * @param {string} wanted
 */
export function exampleOf(examples, wanted) {
  const file = examples.get(wanted);
  if (file && wanted) return { name: `examples/lessons/${wanted}.pcap`, file, isOfPage: true };
  return { name: "examples/veth.pcap", file: /** @type {Uint8Array} */ (examples.get("")), isOfPage: true };
}

/**
 * A capture of one packet, as a file.
 * @param {Library} library
 * @param {Uint8Array} packet
 * @param {number} wire
 */
export function captureOf(library, packet, wire) {
  return library.within((take) => {
    const room = packet.length + 64, result = take(24), to = take(room), record = take(RECORD_SIZE), bytes = library.put(take, packet);
    library.call("put_header", BigInt(result), 0, 0, MOST_SNAP, BigInt(to), BigInt(room));
    const begin = library.result(result).size;
    library.bytes(record, RECORD_SIZE).fill(0);
    library.view().setUint32(record + 28, packet.length, true);
    library.view().setUint32(record + 32, wire, true);
    library.call("put", BigInt(result), 0, 0, BigInt(record), ...words(bytes), BigInt(to + begin), BigInt(room - begin));
    return library.bytes(to, begin + library.result(result).size).slice();
  });
}

/**
 * The packets of a capture that a program accepts, cut to this many bytes, as a file; up to a record that cannot be read. Nothing of a file that is no
 * capture.
 * @param {Library} library
 * @param {Uint8Array} file
 * @param {Uint8Array} insns
 * @param {number} size
 */
export function acceptedOf(library, file, insns, size) {
  return library.within((take) => {
    const result = take(24), to = take(file.length), capture = library.put(take, file), program = library.putProgram(take, insns);
    library.call("cut", BigInt(result), ...words(capture), ...program, size, BigInt(to), BigInt(file.length));
    const written = library.result(result).size;
    return written > 0 && written <= file.length ? library.bytes(to, written).slice() : null;
  });
}

/**
 * A capture with at most this many bytes of each packet. A file that is no capture stays as it is, so that its fault is shown.
 * @param {Library} library
 * @param {Uint8Array} file
 * @param {number} size
 */
export function cutCapture(library, file, size) {
  return acceptedOf(library, file, library.compile("").insns, size) || file;
}

// The packets of a pcapng file, of any section and interface, as a classic capture. None of this is proved.

import { Classic, isWritable } from "./classic.js";

/**
 * An interface: its link type, how many bytes of a packet it keeps, how many of its units of time are a second, and from when they count.
 * @typedef {{ link: number, snap: number, units: bigint, offset: bigint }} Interface
 */

const SECTION = 0x0a0d0d0a, ORDER = 0x1a2b3c4d, INTERFACE = 1, OLD_PACKET = 2, SIMPLE = 3, PACKET = 6;

/**
 * @param {DataView} view of an interface's block
 * @param {boolean} isLittle
 * @returns {Interface}
 */
function interfaceOf(view, isLittle) {
  const found = { link: view.getUint16(8, isLittle), snap: view.getUint32(12, isLittle), units: 1000000n, offset: 0n };
  for (let at = 16; at + 4 <= view.byteLength - 4; ) {
    const code = view.getUint16(at, isLittle), size = view.getUint16(at + 2, isLittle);
    if (code === 0) break;
    const power = code === 9 ? view.getUint8(at + 4) : 0;
    if (code === 9) found.units = power & 128 ? 2n ** BigInt(power & 127) : 10n ** BigInt(power);
    if (code === 14) found.offset = view.getBigInt64(at + 4, isLittle);
    at += 4 + 4 * Math.ceil(size / 4);
  }
  return found;
}

/**
 * Adds the packet of a block.
 * @param {Classic} classic
 * @param {DataView} view of the block
 * @param {boolean} isLittle
 * @param {number} type
 * @param {Interface[]} interfaces
 */
function addPacket(classic, view, isLittle, type, interfaces) {
  const isSimple = type === SIMPLE, number = isSimple ? 0 : type === PACKET ? view.getUint32(8, isLittle) : view.getUint16(8, isLittle);
  const from = interfaces[number];
  if (!from || !isWritable(from.link)) throw new Error(from ? `an interface has the link type ${from.link}` : `no interface ${number} is described`);
  const begin = isSimple ? 12 : 28, wire = view.getUint32(isSimple ? 8 : 24, isLittle), room = view.byteLength - begin - 4;
  const size = isSimple ? Math.min(wire, from.snap || wire, room) : view.getUint32(20, isLittle);
  if (size > room) throw new Error("a packet is longer than its block");
  const time = isSimple ? 0n : (BigInt(view.getUint32(12, isLittle)) << 32n) | BigInt(view.getUint32(16, isLittle)), { units, offset } = from;
  const seconds = BigInt.asUintN(32, time / units + offset), nanos = ((time % units) * 1000000000n) / units;
  classic.add(Number(seconds), Number(nanos), new Uint8Array(view.buffer, view.byteOffset + begin, size), wire, from.link);
}

/**
 * The packets of a pcapng file as a classic capture, up to a block that the file ends in.
 * @param {Uint8Array} file
 */
export function fromNext(file) {
  const classic = new Classic(), whole = new DataView(file.buffer, file.byteOffset, file.byteLength);
  let isLittle = true, at = 0, interfaces = /** @type {Interface[]} */ ([]);
  while (at + 12 <= file.length) {
    if (whole.getUint32(at, true) === SECTION) [isLittle, interfaces] = [whole.getUint32(at + 8, true) === ORDER, []];
    const type = whole.getUint32(at, isLittle), size = whole.getUint32(at + 4, isLittle);
    if (type === SECTION && whole.getUint32(at + 8, isLittle) !== ORDER) throw new Error("a section has no byte order");
    if (size < 12 || size % 4) throw new Error(`a block has ${size} bytes`);
    if (at + size > file.length) break;
    const block = new DataView(file.buffer, file.byteOffset + at, size);
    if (type === INTERFACE) interfaces.push(interfaceOf(block, isLittle));
    if ([PACKET, SIMPLE, OLD_PACKET].includes(type)) addPacket(classic, block, isLittle, type, interfaces);
    at += size;
  }
  return { file: classic.file, isWhole: at === file.length };
}

// Captures in other forms as classic ones of Ethernet, which the library reads: gzip, pcapng, and the cooked and raw ones that cooked.py takes. All of
// this is done by scripts, and none of it is proved.

import { Classic, ETHERNET_LINK, NANO_MAGIC, isWritable } from "./classic.js";
import { fromNext } from "./pcapng.js";

const MOST_UNPACKED = 2 ** 30;

/**
 * What a gzip file has in it.
 * @param {Uint8Array} file
 */
async function unpack(file) {
  const reader = new Blob([file]).stream().pipeThrough(new DecompressionStream("gzip")).getReader(), parts = [];
  for (let size = 0; ; ) {
    const { done, value } = await reader.read();
    if (done) return new Uint8Array(await new Blob(parts).arrayBuffer());
    parts.push(value);
    size += value.length;
    if (size <= MOST_UNPACKED) continue;
    await reader.cancel();
    throw new Error("it has more than 1 GiB");
  }
}

/**
 * A classic capture of another link type as one of Ethernet, up to a record that the file ends in; nothing if it is none of those.
 * @param {Uint8Array} file
 */
function fromCooked(file) {
  const view = new DataView(file.buffer, file.byteOffset, file.byteLength), magic = file.length < 24 ? 0 : view.getUint32(0, true);
  const isLittle = [0xa1b2c3d4, NANO_MAGIC].includes(magic), isNano = [NANO_MAGIC, 0x4d3cb2a1].includes(magic);
  const link = [0xa1b2c3d4, NANO_MAGIC, 0xd4c3b2a1, 0x4d3cb2a1].includes(magic) ? view.getUint32(20, isLittle) : ETHERNET_LINK;
  if (link === ETHERNET_LINK || !isWritable(link) || view.getUint16(4, isLittle) !== 2 || view.getUint16(6, isLittle) !== 4) return null;
  const classic = new Classic();
  let at = 24, size = 0;
  for (; at + 16 <= file.length && at + 16 + (size = view.getUint32(at + 8, isLittle)) <= file.length; at += 16 + size) {
    const [seconds, fraction, wire] = [0, 4, 12].map((part) => view.getUint32(at + part, isLittle));
    classic.add(seconds, isNano ? fraction : Math.min(fraction * 1000, 2 ** 32 - 1), file.subarray(at + 16, at + 16 + size), wire, link);
  }
  return { file: classic.file, isWhole: at === file.length, from: `link type ${link}` };
}

/** @param {Uint8Array} file */
function classicOf(file) {
  const isNext = [0x0a, 0x0d, 0x0d, 0x0a].every((byte, at) => file[at] === byte);
  return isNext ? { ...fromNext(file), from: "pcapng" } : fromCooked(file);
}

/**
 * A file as one that the library may read, and a sentence on what was done to it; the file itself if it is of no such form.
 * @param {Uint8Array} given
 * @returns {Promise<{ file: Uint8Array, note: string }>}
 */
export async function converted(given) {
  try {
    const isPacked = given[0] === 0x1f && given[1] === 0x8b, plain = isPacked ? await unpack(given) : given, made = classicOf(plain);
    const done = [...(isPacked ? ["unpacked"] : []), ...(made ? [`converted from ${made.from}`] : [])].join(" and ");
    const end = made && !made.isWhole ? " It ends inside a packet or block: what comes before is shown." : "";
    return { file: made ? made.file : plain, note: done && `It was ${done} by this page, which is not part of what is proved.${end}` };
  } catch (why) {
    return { file: given, note: `This page cannot convert it: ${why instanceof Error ? why.message : why}.` };
  }
}

// A classic capture of Ethernet with nanoseconds, written of packets in other forms, as cooked.py does. None of this is proved.

export const ETHERNET_LINK = 1, NANO_MAGIC = 0xa1b23c4d;
/**
 * By the link type how long its header is, and where that has the protocol and the sender's address, if it has them.
 * @type {Record<number, number[]>}
 */
const FORMS = { 113: [16, 14, 6], 276: [20, 0, 12], 101: [0], 12: [0], 14: [0], 0: [4], 108: [4] };

/**
 * A frame with an Ethernet header in place of its own; one without a whole header is cut to nothing. Addresses that it lacks are 0.
 * @param {Uint8Array} frame
 * @param {number} link
 */
function ethernetOf(frame, link) {
  if (link === ETHERNET_LINK) return frame;
  const [size, protocol, sender] = FORMS[link], isBare = protocol === undefined;
  if (frame.length < size + Number(isBare)) return new Uint8Array();
  const made = new Uint8Array(14 + frame.length - size), type = { 4: [8, 0], 6: [0x86, 0xdd] }[frame[size] >> 4] || [0, 0];
  if (!isBare) made.set(frame.subarray(sender, sender + 6), 6);
  made.set(isBare ? type : frame.subarray(protocol, protocol + 2), 12);
  made.set(frame.subarray(size), 14);
  return made;
}

/** @param {number} link whether packets of this link type can be written */
export const isWritable = (link) => link === ETHERNET_LINK || FORMS[link] !== undefined;

/** A capture, which grows. */
export class Classic {
  constructor() {
    this.bytes = new Uint8Array(1 << 16);
    this.size = 0;
    this.put([NANO_MAGIC, 2 | (4 << 16), 0, 0, 262144, ETHERNET_LINK], new Uint8Array());
  }

  /**
   * @param {number[]} numbers
   * @param {Uint8Array} content
   */
  put(numbers, content) {
    const end = this.size + 4 * numbers.length + content.length;
    if (end > this.bytes.length) {
      const { bytes } = this;
      this.bytes = new Uint8Array(Math.max(end, 2 * bytes.length));
      this.bytes.set(bytes);
    }
    const view = new DataView(this.bytes.buffer);
    numbers.forEach((number, at) => view.setUint32(this.size + 4 * at, number, true));
    this.bytes.set(content, end - content.length);
    this.size = end;
  }

  /**
   * @param {number} seconds
   * @param {number} nanos
   * @param {Uint8Array} frame
   * @param {number} wire
   * @param {number} link
   */
  add(seconds, nanos, frame, wire, link) {
    const made = ethernetOf(frame, link), length = link === ETHERNET_LINK ? wire : Math.max(made.length, wire - FORMS[link][0] + 14);
    this.put([seconds, nanos, made.length, length], made);
  }

  /** The file. */
  get file() {
    return this.bytes.slice(0, this.size);
  }
}

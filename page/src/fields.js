// Names for the bytes of a frame, as `explain -p` has them, so that a person need not know its layout by heart. They are labels: nothing is decided
// by them.

import { ETHERNET_SIZE, TYPE_AT } from "./captures.js";
import { wording } from "./wording.js";

/** @typedef {import("./wording.js").FieldRow} FieldRow */
/**
 * How a value is written.
 * @typedef {(value: number) => string} Show
 */
/** @typedef {{ name: string, show: Show }} Field */

/** @type {Show} */
export const hex = (value) => "0x" + value.toString(16);
/** @type {Show} */
export const decimal = (value) => String(value);
/** @type {Show} */
export const dotted = (value) => [24, 16, 8, 0].map((shift) => (value >>> shift) & 255).join(".");
/**
 * As addresses of Ethernet are written, or parts of them.
 * @param {number} size
 * @returns {Show}
 */
const colons = (size) => (value) => value.toString(16).padStart(2 * size, "0").replace(/..(?=.)/g, "$&:");

export const IPV4 = 0x800, ARP = 0x806, RARP = 0x8035;
const PROTOCOL_AT = 23, FRAGMENT_AT = 20, OFFSET_BITS = 0x1fff, ADDRESS_SIZE = 6;
/**
 * The header that follows that of IPv4, by its protocol.
 * @type {Record<number, string>}
 */
const PAYLOADS = { 1: "ICMP", 6: "TCP", 17: "UDP", 132: "SCTP" };
export const FRAGMENT = "flags and fragment offset", CONTROL = "control bits", TYPE = "ethertype", PROTOCOL = "protocol";

/** @type {Record<string, Show>} */
const NOTATIONS = {
  Decimal: decimal,
  Dotted: dotted,
  EtherType: (value) => wording().typeNames[value] || hex(value),
  Protocol: (value) => wording().protocolNames[value] || decimal(value),
};

/**
 * What the flags and the fragment offset of an IPv4 header say, with the offset in bytes.
 * @type {Show}
 */
function fragmentText(value) {
  const offset = 8 * (value & OFFSET_BITS), isMore = (value & 0x2000) !== 0, kind = isMore ? "more fragments" : offset ? "last fragment" : "no fragment";
  return `${kind}${isMore || offset ? `, offset ${offset}` : ""}${value & 0x4000 ? ", don't fragment" : ""}`;
}

/**
 * The field of a header that these bytes are, or are part of.
 * @param {string | undefined} header
 * @param {number} at
 * @param {number} size
 * @returns {Field | null}
 */
function findPart(header, at, size) {
  /** @type {FieldRow[]} */
  const rows = (header && wording().headers[header]) || [];
  const row = rows.find(([begin, length]) => begin <= at && at + size <= begin + length);
  if (!row) return null;
  const [begin, length, name, notation] = row, isAddress = length === ADDRESS_SIZE, first = at - begin, last = first + size - 1;
  if (size === length) return { name, show: isAddress ? colons(size) : NOTATIONS[notation] || hex };
  return { name: `${name}, ${size > 1 ? `bytes ${first}-${last}` : `byte ${first}`}`, show: isAddress && size > 1 ? colons(size) : hex };
}

/**
 * @param {number | null} type the ethertype, if it is known
 * @returns {string | undefined}
 */
function headerOf(type) {
  if (type === IPV4) return "IPV4";
  return type === ARP || type === RARP ? "ARP" : undefined;
}

/**
 * Bytes at a place of the frame.
 * @param {number} at
 * @param {number} size
 * @param {number | null} type
 * @returns {Field}
 */
export function frameField(at, size, type) {
  const found = at < ETHERNET_SIZE ? findPart("ETHERNET", at, size) : findPart(headerOf(type), at - ETHERNET_SIZE, size);
  return found || { name: size > 1 ? `bytes ${at}-${at + size - 1}` : `byte ${at}`, show: hex };
}

/**
 * Bytes after the header of IPv4, whose length is in X. Without a protocol these are the ports, if they can be.
 * @param {number} k
 * @param {number} size
 * @param {number | null} protocol
 * @returns {Field}
 */
export function indexedField(k, size, protocol) {
  const found = findPart(protocol === null ? "PORTS" : PAYLOADS[protocol], k - ETHERNET_SIZE, size);
  return found || { name: size > 1 ? `${size} bytes at X + ${k}` : `byte X + ${k}`, show: hex };
}

/**
 * @param {Uint8Array} packet
 * @param {number} at
 * @param {number} size
 */
export function valueAt(packet, at, size) {
  return packet.subarray(at, at + size).reduce((value, byte) => value * 256 + byte, 0);
}

/**
 * Bytes of a packet, by what the packet is.
 * @param {Uint8Array} packet
 * @param {number} at
 * @param {number} size
 * @returns {Field}
 */
export function packetField(packet, at, size) {
  const type = packet.length < ETHERNET_SIZE ? null : valueAt(packet, TYPE_AT, 2), payload = ETHERNET_SIZE + 4 * ((packet[ETHERNET_SIZE] || 0) & 15);
  const isFirst = packet.length > PROTOCOL_AT && (valueAt(packet, FRAGMENT_AT, 2) & OFFSET_BITS) === 0;
  const inside = type === IPV4 && isFirst && at >= payload ? findPart(PAYLOADS[packet[PROTOCOL_AT]], at - payload, size) : null;
  const field = inside || frameField(at, size, type);
  return field.name === FRAGMENT ? { name: FRAGMENT, show: fragmentText } : field;
}

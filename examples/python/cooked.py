# SPDX-License-Identifier: MIT OR Apache-2.0
"""Writes a Linux-cooked capture (of the interface `any`; SLL or SLL2), one of raw IP (of a tunnel), or one of BSD loopback, as one of Ethernet: `python3 cooked.py IN OUT`.
Addresses that such a capture lacks are 0; frames that were cut stay cut."""
import struct
import sys

# The link type, how long its header is, and where that has the protocol and the sender's address.
COOKED = {113: (16, 14, 6), 276: (20, 0, 12)}
# Link types whose header has no Ethernet type, and how long that is: raw IP has none, BSD loopback has a number of four bytes.
BARE = {101: 0, 12: 0, 14: 0, 0: 4, 108: 4}
FORMS = {**COOKED, **{link: (size, None, None) for link, size in BARE.items()}}
# The Ethernet types of raw IP, by its version.
VERSIONS = {4: b"\x08\x00", 6: b"\x86\xdd"}


def ethernet(frame, form):
    """A frame with an Ethernet header in place of its own; one without a whole header is cut to nothing."""
    size, protocol, sender = form
    if len(frame) < size + (protocol is None):
        return b""
    if protocol is None:
        return bytes(12) + VERSIONS.get(frame[size] >> 4, bytes(2)) + frame[size:]
    return bytes(6) + frame[sender : sender + 6] + frame[protocol : protocol + 2] + frame[size:]


def convert(text):
    """Such a capture as one of Ethernet."""
    order = "<" if text[:4] in (b"\xd4\xc3\xb2\xa1", b"\x4d\x3c\xb2\xa1") else ">"
    link = struct.unpack(order + "I", text[20:24])[0]
    if link not in FORMS:
        sys.exit(f"cooked.py: the link type {link} is neither cooked (113, 276), raw IP (12, 14, 101) nor BSD loopback (0, 108)")
    form = FORMS[link]
    out, place = [text[:20], struct.pack(order + "I", 1)], 24
    while place + 16 <= len(text):
        seconds, fraction, captured, length = struct.unpack(order + "4I", text[place : place + 16])
        frame = ethernet(text[place + 16 : place + 16 + captured], form)
        wire = max(len(frame), length - form[0] + 14)
        out.append(struct.pack(order + "4I", seconds, fraction, len(frame), wire) + frame)
        place += 16 + captured
    return b"".join(out)


if __name__ == "__main__":
    if len(sys.argv) != 3:
        sys.exit("usage: python3 cooked.py IN OUT")
    with open(sys.argv[1], "rb") as cooked:
        ethernets = convert(cooked.read())
    with open(sys.argv[2], "wb") as made:
        made.write(ethernets)

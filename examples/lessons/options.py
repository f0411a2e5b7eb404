# SPDX-License-Identifier: MIT OR Apache-2.0
"""Four frames written by hand, with the fields of RFC 791, for the lesson on header lengths: `python3 options.py > options.pcap`."""
import sys

FRAMES = """
# To port 53, without options: the Internet Header Length is 5 words.
02000000000b 02000000000a 0800
45 00 001c 0001 0000 40 11 f6cc c0000201 c0000202
07d0 0035 0008 0000

# To port 53 again, with Record Route (7) of 7 bytes, and End of Option List (0).
02000000000b 02000000000a 0800
47 00 0024 0002 0000 40 11 e9bc c0000201 c0000202
07 07 04 00000000 00
07d0 0035 0008 0000

# To port 5000: No Operation (1) twice, End of Option List, and padding that is not 0.
02000000000b 02000000000a 0800
46 00 0020 0003 0000 40 11 f490 c0000201 c0000202
01 01 00 35
c000 1388 0008 0000

# An IGMP report, with Router Alert (148, RFC 2113) of 4 bytes.
01005e000016 02000000000a 0800
46 c0 0028 0000 4000 01 02 41f8 c0000201 e0000016
94 04 0000
22 00 f902 0000 0001 04 00 0000 e00000fb
"""


def frames(text):
    """The frames of a text: digits, and lines of remarks, which begin with #."""
    for part in text.strip().split("\n\n"):
        yield bytes.fromhex("".join(line for line in part.splitlines() if not line.startswith("#")))


def capture(frames):
    """The frames as a capture, a second after each other."""
    text = bytes.fromhex("a1b2c3d4 0002 0004 00000000 00000000 00040000 00000001")
    for second, frame in enumerate(frames):
        text += b"".join(number.to_bytes(4, "big") for number in (second, 0, len(frame), len(frame))) + frame
    return text


if __name__ == "__main__":
    sys.stdout.buffer.write(capture(frames(FRAMES)))

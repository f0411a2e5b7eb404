# SPDX-License-Identifier: MIT OR Apache-2.0
"""A lesson in steps, to be run cell by cell as a notebook or as a whole: what a filter is, and why a packet fails it."""
# %% A filter is an expression, and a program that was made of it.
from bpftap import Filter

web = Filter("tcp dst port 80 or 443", snap=96)
print(web.canonical)
print(web.image, end="")

# %% A packet is asked part after part, and the last part that is asked decides.
ethernet = bytes.fromhex("000102030405 060708090a0b 0800")
ip = bytes.fromhex("45000028 00004000 40060000 0a000001 0a000002")
tcp = bytes.fromhex("c000 0051 00000000 00000000 50020000 00000000")
packet = ethernet + ip + tcp
print(web.why(packet))

# %% To port 80 it is accepted.
to_port_80 = packet[:36] + (80).to_bytes(2, "big") + packet[38:]
print(web.why(to_port_80))
print(web.run(to_port_80), "bytes are kept")

# %% A byte that was not captured decides too: the answer is neither yes nor no.
print(web.why(to_port_80[:36], wire=len(packet)))

# SPDX-License-Identifier: MIT OR Apache-2.0
"""A lesson in steps, to be run cell by cell as a notebook or as a whole: why a capture tool loses packets."""
# %% A listener has two buffers. The store takes packets; when it is full it becomes the hold, which waits for its reader.
import pathlib

from bpftap import Listener, read, steps

CAPTURE = pathlib.Path(__file__).resolve().parents[1] / "veth.pcap"


def replay(every, capacity):
    """A listener for packets above 50 bytes, which is read after every N packets."""
    script = (["arrive"] * every + ["read 0"]) * (250 // every)
    return steps([Listener("len > 50", snap=96, capacity=capacity)], script, [read(CAPTURE)])


# %% A reader that comes often loses nothing.
often = replay(every=10, capacity=4096)
print(often.reports[0].dropped, "dropped of", often.reports[0].matched)

# %% One that comes late finds the hold as it was when the store became full: what came after both were full is lost.
late = replay(every=125, capacity=4096)
print(late.reports[0].dropped, "dropped of", late.reports[0].matched)

# %% Larger buffers help a reader that is late, and not one that stays away. In a notebook a replay shows itself as a picture.
large = replay(every=125, capacity=32768)
print(large.reports[0].dropped, "dropped of", large.reports[0].matched)
large

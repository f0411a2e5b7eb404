# SPDX-License-Identifier: MIT OR Apache-2.0
"""A test bench: a device is to send its answers from port 53, and the capture of a run is checked. Run it by pytest, or by itself.

    BPFTAP_CAPTURE=examples/veth.pcap python3 examples/python/test_bench.py
"""
import os
import pathlib

from bpftap import Filter, assert_all_match, read

CAPTURE = os.environ.get("BPFTAP_CAPTURE") or pathlib.Path(__file__).resolve().parent.parent / "veth.pcap"


def test_all_is_ethernet_of_a_known_type():
    assert_all_match(read(CAPTURE), "ip or arp or ether proto 0x86dd or ether[12:2] <= 1500")


def test_each_rejected_packet_says_why():
    udp = Filter("udp port 5353")
    reasons = [udp.why(packet) for packet in read(CAPTURE) if not udp.matches(packet)]
    assert reasons and all(reason.startswith(("No ", "Abort ")) for reason in reasons)


def test_a_failure_names_each_packet():
    try:
        assert_all_match(read(CAPTURE), "tcp")
    except AssertionError as error:
        assert "packet" in str(error) and "No tcp" in str(error)
    else:
        raise AssertionError("all packets are TCP")


if __name__ == "__main__":
    for name, test in list(globals().items()):
        if name.startswith("test_"):
            test()
            print("passed", name)

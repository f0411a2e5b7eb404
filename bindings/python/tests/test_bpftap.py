# SPDX-License-Identifier: MIT OR Apache-2.0
"""The package, by Python's own unittest: what its page says, and every error."""
import array
import copy
import ctypes
import dataclasses
import mmap
import os
import pathlib
import pickle
import struct
import subprocess
import sys
import tempfile
import threading
import unittest
import unittest.mock
import xml.etree.ElementTree

import bpftap
from bpftap import CaptureError, Fed, Filter, FilterError, Listener, ListenerError, Message, Packet, Verdict

# Frames of 38 bytes from 10.0.0.1 to 10.0.0.2, from port 53 to port 53.
TCP = bytes.fromhex("ffffffffffff 000102030405 0800 45000018 00000000 40060000 0a000001 0a000002 00350035")
UDP = bytes.fromhex("ffffffffffff 000102030405 0800 45000018 00000000 40110000 0a000001 0a000002 00350035")

# `tcpdump -ddd ip` with a snapshot length of 96, and `tcpdump -d` of the same.
LISTING = "4\n40 0 0 12\n21 0 1 2048\n6 0 0 96\n6 0 0 0\n"
EXAMPLES = pathlib.Path(__file__).resolve().parents[3] / "examples"
IMAGE = "(000) ldh      [12]\n(001) jeq      #0x800           jt 2\tjf 3\n(002) ret      #96\n(003) ret      #0\n"


class Filters(unittest.TestCase):
    def test_an_expression_accepts_and_rejects(self):
        udp = Filter("udp port 53", snap=100)
        self.assertTrue(udp.matches(UDP))
        self.assertFalse(udp.matches(TCP))
        self.assertEqual(udp.run(UDP), 100)
        self.assertEqual(repr(udp), "Filter('udp port 53')")

    def test_the_wire_length_is_the_one_that_is_passed(self):
        long = Filter("len > 1000")
        self.assertFalse(long.matches(UDP))
        self.assertTrue(long.matches(UDP, wire=1500))

    def test_why_says_what_decides(self):
        tcp = Filter("ip and tcp port 80")
        self.assertEqual(tcp.why(UDP), "No tcp port 80")
        self.assertEqual(tcp.decide(UDP[:20]), (Verdict.ABORT, "tcp port 80, byte 23 is not captured"))
        self.assertEqual(Filter("udp").decide(UDP), (Verdict.YES, "udp"))

    def test_a_refused_expression_has_a_name_and_a_place(self):
        for text, name, place in [("port http", "BadWord", 5), ("tcp host 10.0.0.1", "BadQualifier", 0), (" " * 8193, "TextTooLong", None)]:
            with self.assertRaises(FilterError) as caught:
                Filter(text)
            self.assertEqual((caught.exception.name, caught.exception.place), (name, place))
        with self.assertRaisesRegex(FilterError, "^BadSnap$") as caught:
            Filter("ip", snap=0)
        self.assertIsNone(caught.exception.hint)

    def test_a_refused_expression_has_a_hint(self):
        for call, number in ((lambda: Filter("icmp and proot 17"), None), (lambda: bpftap.compare("tcp", "icmp and proot 17"), 2)):
            with self.assertRaises(FilterError) as caught:
                call()
            for error in (caught.exception, pickle.loads(pickle.dumps(caught.exception))):
                self.assertEqual((error.hint, error.number), ("did you mean `proto`?", number))
                self.assertEqual(str(error), "BadWord 9\n" + "  in the second expression\n" * (number == 2) + "  did you mean `proto`?")
        with self.assertRaisesRegex(FilterError, r"\ABadWord 5\n  in the first expression\n"):
            bpftap.compare("port http", "port http")
        with self.assertRaises(FilterError) as caught:
            Filter("ip6")
        self.assertRegex(str(caught.exception), r"\ABadWord 0\n  only Ethernet .*\n  libpcap may read that: .*\Z")
        with self.assertRaisesRegex(FilterError, r"\ATooLong\n  its program may have more than 512 instructions: "):
            Filter(" or ".join(f"ip[{at}:2] + len > {at}" for at in range(120)))

    def test_programs_and_listings(self):
        listed = Filter.from_listing(LISTING)
        self.assertEqual(listed.program, [(40, 0, 0, 12), (21, 0, 1, 2048), (6, 0, 0, 96), (6, 0, 0, 0)])
        self.assertEqual(listed.listing, LISTING)
        self.assertEqual(listed.image, IMAGE)
        self.assertEqual(Filter.from_program(listed.program).run(UDP), 96)
        with self.assertRaisesRegex(FilterError, "^JumpOut 1$"):
            Filter.from_program(listed.program[:2])
        with self.assertRaisesRegex(FilterError, "^Empty$"):
            Filter.from_program([])
        with self.assertRaisesRegex(FilterError, "^Count$"):
            Filter.from_listing("3\n6 0 0 0\n")
        for call in (lambda: listed.why(UDP), lambda: listed.canonical):
            self.assertRaises(TypeError, call)

    def test_a_program_has_rows_of_four_numbers_in_their_ranges(self):
        for row in [(6, 0, 0), (6, 0, 0, 0, 0), (65536, 0, 0, 0), (6, 256, 0, 0), (6, 0, -1, 0), (6, 0, 0, 2**32)]:
            with self.assertRaisesRegex(ValueError, "instruction 1"):
                Filter.from_program([(6, 0, 0, 0), row])

    def test_numbers_out_of_range_are_refused_and_not_shortened(self):
        for snap in (-1, 2**32 + 1, bpftap.MAX_SNAP + 1):
            with self.assertRaisesRegex(FilterError, "^BadSnap$"):
                Filter("ip", snap)
        for wire in (-1, 2**32):
            for call in (Filter("ip").run, Filter("ip").matches, Filter("ip").why, Filter("ip").decide):
                with self.assertRaisesRegex(ValueError, "^wire is"):
                    call(UDP, wire)

    def test_copies_have_memory_of_their_own(self):
        @dataclasses.dataclass
        class Rule:
            keep: Filter

        for found in (Filter("udp", snap=7), Filter.from_listing(LISTING)):
            answers = [found.run(UDP), found.run(TCP)]
            copies = [copy.copy(found), copy.deepcopy(found), pickle.loads(pickle.dumps(found)), dataclasses.asdict(Rule(found))["keep"]]
            wanted = (found.expression, found.program)
            del found
            for other in copies:
                self.assertEqual(([other.run(UDP), other.run(TCP)], (other.expression, other.program)), (answers, wanted))
            self.assertEqual(len({ctypes.addressof(other._program) for other in copies}), len(copies))

    def test_a_program_is_prepared_before_it_is_run(self):
        found, lib, ran = Filter("udp port 53"), bpftap._library.lib, []
        prepare = lib.bpftap_program_init

        def preparing(at, insns, size):
            ran.append(found.run(UDP))
            return prepare(at, insns, size)

        with unittest.mock.patch.object(lib, "bpftap_program_init", preparing):
            found.__init__("tcp")
        self.assertEqual(([*map(bool, ran)], found.matches(UDP), found.matches(TCP)), ([True], False, True))

    def test_the_canonical_form(self):
        self.assertEqual(Filter("tcp dst port 80 or 443").canonical, "tcp dst port 80 or tcp dst port 443")

    def test_a_packet_has_its_wire_length(self):
        long = Filter("len > 1000")
        for packet in (Packet(UDP, 1500), Message(UDP, 1500)):
            self.assertEqual((long.matches(packet), long.matches(packet, 38), long.why(packet)), (True, False, "Yes len > 1000"))
        self.assertTrue(Filter("len = 4294967295").matches(UDP, 2**32 - 1))
        self.assertEqual(Filter("len > 2147483647").run(Packet(UDP, 2**31)), bpftap.MAX_SNAP)
        with self.assertRaisesRegex(ValueError, "^wire is 4294967296"):
            long.matches(Packet(UDP, 2**32))

    def test_arguments_of_other_types_are_named(self):
        udp = Filter("udp")
        for call, what in [(lambda: Filter(7), "expression is of type int, which is not a str"), (lambda: Filter("ip", "96"), "snap is of type str"),
                           (lambda: Filter.from_listing(b"1"), "listing is of type bytes"), (lambda: udp.matches(UDP, "38"), "wire is of type str"),
                           (lambda: Filter.from_program([(6, 0, 0, "0")]), "k of instruction 0 is of type str"),
                           (lambda: bpftap.compare("ip", None), "second is of type NoneType"), (lambda: bpftap.compare("ip", "ip", 1.5), "budget is of type float"),
                           (lambda: bpftap.cut(b"", 7), "keep is of type int, which is neither a Filter nor a str"), (lambda: Listener(7), "keep is of type int"),
                           (lambda: bpftap.cut(b"", "ip", 1.5), "snap is of type float"), (lambda: Listener("ip", None), "snap is of type NoneType"),
                           (lambda: Listener("ip", 96, "4096"), "capacity is of type str"), (lambda: Listener("ip").arrive(UDP, "0"), "capture is of type str")]:
            with self.assertRaisesRegex(TypeError, f"^{what}"):
                call()

    def test_arguments_that_are_not_iterable_are_named(self):
        udp, path = Filter("udp"), pathlib.Path(tempfile.gettempdir()) / "bpftap-never-written.pcap"
        for call, what in [
                (lambda: udp.run_each(5), "packets is"), (lambda: udp.run_each([UDP], 5), "wire is"), (lambda: Filter.from_program(5), "program is"),
                (lambda: Filter.from_program([(6, 0, 0, 0), 5]), "instruction 1 is"), (lambda: udp.assert_matches(5, []), "packets is"),
                (lambda: udp.assert_matches([], exactly=5), "exactly is"), (lambda: bpftap.assert_all_match(5, "ip"), "packets is"),
                (lambda: bpftap.write(path, 5), "packets is"), (lambda: bpftap.steps(5, "", []), "listeners is"), (lambda: bpftap.steps([], 5, []), "script is"),
                (lambda: bpftap.steps([], [], 5), "captures is"), (lambda: bpftap.steps([], [], [[], 5]), "capture 1 is")]:
            with self.assertRaisesRegex(TypeError, f"^{what} of type int, which is not iterable$"):
                call()
        for call, line in [
                (lambda: udp.run_spans(5, []), "memory is of type int, which is not bytes-like"), (lambda: udp.run_spans(b"", 5), "spans is of type int, which is not bytes-like"),
                (lambda: bpftap.write(path, [Packet(UDP, 38), 5]), "packet 1 is of type int, which is not a Packet"),
                (lambda: bpftap.write(path, [UDP]), "packet 0 is of type bytes, which is not a Packet"),
                (lambda: udp.assert_matches([], ["0"]), "a place in exactly is of type str, which is not an int"),
                (lambda: bpftap.steps([Listener("ip"), "ip"], [], []), "listener 1 is of type str, which is not a Listener"),
                (lambda: bpftap.steps([], ["arrive", 5], []), "step 1 is of type int, which is not a str")]:
            with self.assertRaisesRegex(TypeError, f"^{line}$"):
                call()
        self.assertFalse(path.exists())

    def test_the_path_of_a_capture_is_no_content(self):
        for call in (bpftap.Capture, lambda given: bpftap.cut(given, "ip")):
            for given in ("x.pcap", pathlib.PurePosixPath("x.pcap")):
                with self.assertRaisesRegex(TypeError, rf"^content is of type {type(given).__name__}, which is not bytes-like: read\(path\) reads a file, and has its bytes as \.content$"):
                    call(given)

    def test_half_a_character_is_not_text(self):
        with self.assertRaisesRegex(FilterError, "^NotText 3$"):
            Filter("ip \ud800")

    def test_long_expressions_take_any_thread(self):
        text = "(" * 60 + "ip" + ")" * 60 + " or ip" * 90 + " " * 4000
        before, ended = threading.stack_size(max(64 << 10, os.sysconf("SC_THREAD_STACK_MIN"))), []
        try:
            thread = threading.Thread(target=lambda: ended.append((Filter(text).canonical[:8], Filter(text).why(UDP)[:3], bpftap.compare("tcp", "udp").answer)))
            thread.start()
            thread.join()
        finally:
            threading.stack_size(before)
        self.assertEqual(ended, [("ip or ip", "Yes", bpftap.Sameness.DIFFER)])
        with self.assertRaisesRegex(FilterError, r"\ABadWord 7801\n  "):
            Filter("ip or " * 1300 + " http")

    def test_batches(self):
        udp = Filter("udp", snap=7)
        self.assertEqual(list(udp.run_each([UDP, TCP, b"", UDP])), [7, 0, 0, 7])
        self.assertEqual(list(udp.run_each([])), [])
        self.assertEqual(list(udp.run_each(iter([UDP] * 3000 + [TCP]))), [7] * 3000 + [0])

    def test_batches_have_wire_lengths(self):
        long = Filter("len > 1000")
        self.assertEqual([answer > 0 for answer in long.run_each([UDP, Packet(UDP, 1500), Packet(UDP, 38), Message(TCP, 2000)])], [False, True, False, True])
        for wire in ([38, 1500, 9], iter([38, 1500, 9])):
            self.assertEqual([answer > 0 for answer in long.run_each([UDP, Packet(UDP, 38), b""], wire)], [False, True, False])
        wires = [n % 2000 for n in range(5000)]
        self.assertEqual([answer > 0 for answer in long.run_each([UDP] * 5000, wires)], [wire > 1000 for wire in wires])
        capture = bpftap.read(EXAMPLES / "veth.pcap")
        dns = Filter("udp port 5353")
        self.assertEqual([*dns.run_each([*capture])], [dns.run(packet) for packet in capture])
        for wire, what in (([38], "fewer numbers"), ([38, 38, 38], "more numbers"), ([38, 2**32], "wire is 4294967296"), ([-1, 38], "wire is -1")):
            with self.assertRaisesRegex(ValueError, what):
                long.run_each([UDP, UDP], wire)
        self.assertEqual(list(long.run_each([], [])), [])

    def test_spans_of_any_buffer(self):
        udp, content = Filter("udp", snap=7), TCP + UDP
        spans = (bpftap._library.Span * 2)((38, 38, 38), (38, 20, 38))
        with tempfile.TemporaryFile() as file:
            file.write(content)
            file.flush()
            with mmap.mmap(file.fileno(), 0, access=mmap.ACCESS_READ) as mapped:
                for memory in (content, bytearray(content), memoryview(content), mapped):
                    for where in (spans, bytes(spans), bytearray(spans), memoryview(spans)):
                        self.assertEqual(list(udp.run_spans(memory, where)), [7, 0])
        self.assertEqual(list(udp.run_spans(b"", spans)), [0, 0])
        self.assertEqual(list(udp.run_spans(bytearray(), b"")), [])
        grown = bytearray(content)
        udp.run_spans(grown, spans)
        grown.extend(b"the buffer was given back")
        for size in (1, 15, 31):
            with self.assertRaisesRegex(ValueError, f"^spans have {size} bytes"):
                udp.run_spans(content, bytes(size))
        for memory, where in ((7, spans), (content, 32), ("text", spans)):
            self.assertRaises(TypeError, udp.run_spans, memory, where)
        self.assertRaises(BufferError, udp.run_spans, memoryview(content)[::2], spans)

    def test_packets_are_anything_bytes_like(self):
        udp, tap = Filter("udp", snap=7), Listener("udp")
        for packet in (bytearray(UDP), memoryview(UDP), memoryview(UDP + UDP)[:38], array.array("H", UDP)):
            self.assertEqual((udp.run(packet), udp.matches(packet), udp.why(packet)), (7, True, "Yes udp"))
            self.assertEqual((tap.arrive(packet), tap.arrive(Packet(packet, 38))), (Fed.STORED, Fed.STORED))
            bpftap.assert_all_match([packet], "udp and len = 38")
        self.assertEqual(list(udp.run_each([bytearray(UDP), memoryview(UDP)])), [7, 7])
        self.assertEqual({message.data for message in tap.pending}, {UDP})
        for packet in ("text", 7, None, [1, 2]):
            for call in (udp.run, udp.matches, udp.why, tap.arrive):
                with self.assertRaisesRegex(TypeError, f"^packet is of type {type(packet).__name__}, which is not bytes-like$"):
                    call(packet)
        self.assertEqual(tap.received, 8)

    def test_a_trace_has_each_instruction(self):
        listed = Filter.from_listing(LISTING)
        self.assertEqual(listed.trace(UDP), [bpftap.Executed(0, 2048, 0), bpftap.Executed(1, 2048, 0), bpftap.Executed(2, 2048, 0)])
        self.assertEqual([one.place for one in listed.trace(b"")], [0])
        # A = 7, M[3] = A, X = M[3], return A.
        stores = Filter.from_program([(0, 0, 0, 7), (2, 0, 0, 3), (0x61, 0, 0, 3), (0x16, 0, 0, 0)])
        self.assertEqual(stores.trace(UDP), [(0, 7, 0, None, 0), (1, 7, 0, 3, 7), (2, 7, 7, None, 0), (3, 7, 7, None, 0)])
        self.assertEqual(len(Filter.from_program([(0, 0, 0, 0)] * 511 + [(6, 0, 0, 0)]).trace(UDP)), 512)

    def test_looks_are_the_bytes_that_decide(self):
        self.assertEqual(Filter("ether proto 0x800").looks(UDP), [bpftap.Look(12, 2)])
        self.assertEqual(Filter("len > 30").looks(Packet(UDP, 60)), [(0, 0)])
        many = " and ".join(["ether[30] = 10"] * 80)
        self.assertEqual(Filter(many).looks(UDP), [(30, 1)] * 80)
        with self.assertRaisesRegex(TypeError, "no expression"):
            Filter.from_listing(LISTING).looks(UDP)

    def test_long_texts_are_whole(self):
        longest = Filter.from_program([(6, 0, 0, 262144)] * 512)
        self.assertEqual(longest.listing, "512\n" + "6 0 0 262144\n" * 512)
        self.assertEqual(longest.image.count("\n"), 512)


class Comparisons(unittest.TestCase):
    def test_the_same_and_different(self):
        self.assertEqual(bpftap.compare("port 80", "src port 80 or dst port 80"), bpftap.Comparison(bpftap.Sameness.SAME))
        found = bpftap.compare("tcp", "udp")
        answers = {Filter(text).decide(found.packet, found.wire)[0] for text in ("tcp", "udp")}
        self.assertEqual((found.answer, answers, found.cause), (bpftap.Sameness.DIFFER, {bpftap.Verdict.YES, bpftap.Verdict.NO}, None))
        self.assertEqual(bpftap.compare("tcp", "udp", budget=1), bpftap.Comparison(bpftap.Sameness.NOT_DECIDED, cause=bpftap.Cause.BUDGET))

    def test_a_comparison_is_asked_and_not_taken_for_true(self):
        for text, same in (("src port 80 or dst port 80", True), ("udp", False)):
            found = bpftap.compare("port 80", text)
            self.assertIs(found.same, same)
            for one in (found, found.answer):
                with self.assertRaisesRegex(TypeError, "neither true nor false"):
                    bool(one)

    def test_a_refused_expression_has_a_name_and_a_place(self):
        with self.assertRaises(bpftap.FilterError) as raised:
            bpftap.compare("tcp", "port http")
        self.assertEqual((raised.exception.name, raised.exception.place, raised.exception.number), ("BadWord", 5, 2))
        with self.assertRaises(bpftap.FilterError) as raised:
            bpftap.compare("tcp and 80", "port http")
        self.assertEqual((raised.exception.name, raised.exception.place, raised.exception.number), ("NoQualifier", 8, 1))
        self.assertEqual(pickle.loads(pickle.dumps(raised.exception)).number, 1)
        with self.assertRaises(bpftap.FilterError) as raised:
            Filter("port http")
        self.assertIsNone(raised.exception.number)
        with self.assertRaises(ValueError):
            bpftap.compare("tcp", "udp", budget=-1)


class Listeners(unittest.TestCase):
    def test_it_keeps_reads_and_drops(self):
        # Two records of 72 bytes: 32 of fields, and 38 of a frame up to a multiple of 8.
        tap = Listener("udp", snap=38, capacity=144)
        packet = Packet(UDP, 60, 7, 123456789)
        self.assertEqual([tap.arrive(part) for part in (TCP, packet, UDP, UDP, UDP, UDP)],
                         [Fed.PASSED, Fed.STORED, Fed.STORED, Fed.ROTATED, Fed.STORED, Fed.DROPPED])
        self.assertEqual((tap.received, tap.matched, tap.dropped), (6, 5, 1))
        self.assertEqual(tap.read(), [Message(UDP, 60, 7, 123456789, 1, 0), Message(UDP, 38, 0, 0, 2, 0)])
        self.assertEqual(tap.read(), [])
        self.assertTrue(tap.flush())
        self.assertFalse(tap.flush())
        self.assertEqual([message.place for message in tap.read()], [3, 4])
        self.assertEqual(tap.arrive(UDP, capture=7, place=9), Fed.STORED)
        tap.close()
        self.assertEqual((tap.arrive(UDP), tap.flush(), tap.read(), tap.received), (Fed.CLOSED, False, [], 7))
        self.assertEqual(repr(tap), "<Listener of Filter('udp'): received 7, matched 6, dropped 1>")

    def test_an_immediate_listener_hands_over_at_once(self):
        tap = Listener(Filter("udp", snap=20), snap=30, capacity=64, immediate=True)
        self.assertEqual(tap.arrive(UDP), Fed.HELD)
        self.assertEqual([message.data for message in tap.read()], [UDP[:20]])

    def test_a_refused_listener_has_a_name(self):
        for snap, capacity, name in [(0, 64, "BadSnap"), (-1, 64, "BadSnap"), (2**32 + 38, 128, "BadSnap"), (38, 71, "BadCapacity"), (38, 0, "BadCapacity"),
                                     (38, bpftap.MAX_CAPACITY + 1, "BadCapacity"), (38, -1, "BadCapacity"), (38, 2**64 + 128, "BadCapacity")]:
            with self.assertRaisesRegex(ListenerError, f"^{name}$"):
                Listener("ip", snap=snap, capacity=capacity)


    def test_numbers_out_of_range_change_nothing(self):
        tap = Listener("ip")
        for packet, capture, place, name in [(Packet(UDP, 2**32), 0, 0, "wire"), (Packet(UDP, 38, -1), 0, 0, "seconds"), (UDP, 2**32, 0, "capture"),
                                             (Packet(UDP, 38, 0, 2**32), 0, 0, "nanos"), (UDP, 0, 2**64, "place"), (UDP, 0, -1, "place")]:
            with self.assertRaisesRegex(ValueError, f"^{name} is"):
                tap.arrive(packet, capture, place)
        self.assertEqual((tap.received, tap.pending), (0, []))

    def test_threads_share_a_listener(self):
        tap = Listener("", snap=38)

        def arrivals():
            for _ in range(20_000):
                tap.arrive(UDP)

        threads = [threading.Thread(target=arrivals) for _ in range(4)]
        for thread in threads:
            thread.start()
        read = []
        while any(thread.is_alive() for thread in threads):
            read += tap.read()
        for thread in threads:
            thread.join()
        read += tap.read() + tap.pending
        self.assertEqual((tap.received, tap.matched, len(read)), (80_000, 80_000, 80_000 - tap.dropped))
        places = [message.place for message in read]
        self.assertEqual(places, sorted(set(places)))

    def test_a_listener_has_no_copy(self):
        for call in (copy.copy, copy.deepcopy, pickle.dumps):
            with self.assertRaisesRegex(TypeError, "^a listener cannot be copied"):
                call(Listener("ip"))


class Steps(unittest.TestCase):
    CAPTURE = bpftap._captures.encode([Packet(UDP, 38, 7, 5000), Packet(TCP, 60, 8), Packet(UDP, 38, 9)])

    def test_a_script_is_played(self):
        listeners = [Listener("udp"), Listener("len > 0 and len < 500", snap=38, capacity=72, immediate=True)]
        script = ["arrive", "read 1", "arrive", "arrive", "arrive", "flush 0", "read 0"]
        replay = bpftap.steps(listeners, script, [bpftap.Capture(self.CAPTURE)])
        udp, all_of_them = replay.reports
        self.assertEqual((udp.filter, udp.received, udp.matched, udp.dropped, udp.held), ("udp", 3, 2, 0, []))
        self.assertEqual(udp.batches, [[Message(UDP, 38, 7, 5000, 0, 0), Message(UDP, 38, 9, 0, 2, 0)]])
        self.assertEqual((all_of_them.matched, all_of_them.dropped), (3, 0))
        self.assertEqual(all_of_them.batches, [[Message(UDP, 38, 7, 5000, 0, 0)]])
        self.assertEqual(all_of_them.held, [Message(TCP, 60, 8, 0, 1, 0), Message(UDP, 38, 9, 0, 2, 0)])
        picture = xml.etree.ElementTree.fromstring(replay._repr_svg_())
        self.assertEqual([text.text for text in picture.iter("{http://www.w3.org/2000/svg}text")][3],
                         "1: len > 0 and len < 500 (received 3, matched 3, dropped 0)")

    def test_a_torn_capture_is_the_last_one(self):
        replay = bpftap.steps([Listener("ip")], ["arrive"] * 9, [bpftap.Capture(self.CAPTURE), bpftap.Capture(self.CAPTURE[:-1]), bpftap.Capture(self.CAPTURE)])
        self.assertEqual((replay.reports[0].received, replay.fault.name, replay.fault.place, replay.capture), (5, "TornRecord", 2, 1))

    def test_a_torn_record_after_the_last_step_is_the_fault_too(self):
        for script in ([], ["arrive"], ["arrive"] * 4):
            replay = bpftap.steps([Listener("ip")], script, [bpftap.Capture(self.CAPTURE), bpftap.Capture(self.CAPTURE[:-1])])
            self.assertEqual((replay.reports[0].received, replay.fault.name, replay.fault.place, replay.capture), (len(script), "TornRecord", 2, 1))
        self.assertIsNone(bpftap.steps([Listener("ip")], [], [bpftap.Capture(self.CAPTURE)]).fault)

    def test_what_is_no_step_is_refused_before_one_is_played(self):
        for step in ["", "arrives", "arrive 0", "read", "read 1", "read -1", "read  0", "opens 0", "read \u0660"]:
            tap = Listener("ip")
            with self.assertRaisesRegex(ValueError, "^step 1 is not"):
                bpftap.steps([tap], ["arrive", step], [bpftap.Capture(self.CAPTURE)])
            self.assertEqual(tap.received, 0)


class Captures(unittest.TestCase):
    PACKETS = [Packet(TCP, 60, 1, 7000), Packet(UDP, 38, 2, 999_999_000)]

    def test_what_is_written_is_read(self):
        for form in ({}, {"nanoseconds": True}, {"big_endian": True, "snap": 100}):
            with tempfile.TemporaryDirectory() as folder:
                path = pathlib.Path(folder) / "x.pcap"
                bpftap.write(path, self.PACKETS, **form)
                capture = bpftap.read(path)
                self.assertEqual(list(capture), self.PACKETS)
                self.assertEqual(list(capture), self.PACKETS)
                self.assertEqual(capture.nanoseconds, form.get("nanoseconds", False))
                self.assertEqual(capture.big_endian, form.get("big_endian", False))
                self.assertEqual(capture.snap, form.get("snap", bpftap.MAX_SNAP))

    def test_the_examples_of_each_form_are_read(self):
        for name, magic, order, parts in [("veth", b"\xd4\xc3\xb2\xa1", "<", 1000), ("veth-big-micro", b"\xa1\xb2\xc3\xd4", ">", 1000),
                                          ("veth-little-nano", b"\x4d\x3c\xb2\xa1", "<", 1), ("veth-big-nano", b"\xa1\xb2\x3c\x4d", ">", 1)]:
            content = (EXAMPLES / f"{name}.pcap").read_bytes()
            self.assertEqual(content[:4], magic)
            wanted, at = [], 24
            while at < len(content):
                seconds, part, captured, wire = struct.unpack(f"{order}4I", content[at : at + 16])
                wanted.append(Packet(content[at + 16 : at + 16 + captured], wire, seconds, part * parts))
                at += 16 + captured
            capture = bpftap.Capture(content)
            self.assertEqual((capture.big_endian, capture.nanoseconds, list(capture)), (order == ">", parts == 1, wanted))
            self.assertGreater(len(wanted), 200)
            form = {"big_endian": capture.big_endian, "nanoseconds": capture.nanoseconds}
            self.assertEqual(bpftap._captures.encode(wanted, capture.snap, **form), content)

    def test_a_capture_has_more_records_than_a_batch(self):
        """Written by hand: record n has the second n, the nanosecond 123,456,789, 4 bytes with n, and n more on the wire."""
        for count in (1023, 1024, 1025, 3000):
            content = struct.pack("<IHHiIII", 0xa1b23c4d, 2, 4, 0, 0, 262144, 1) + b"".join(struct.pack("<5I", n, 123456789, 4, 4 + n, n) for n in range(count))
            wanted = [Packet(struct.pack("<I", n), 4 + n, n, 123456789) for n in range(count)]
            capture, long, answers = bpftap.Capture(content), Filter("len > 1000"), [n > 996 for n in range(count)]
            spans = capture.spans()
            self.assertEqual((len(capture), len(spans), capture.fault), (count, count, None))
            self.assertTrue([*capture] == wanted)
            self.assertEqual([*spans.offsets], [24 + 20 * n + 16 for n in range(count)])
            self.assertEqual([*spans.times], [n * 10**9 + 123456789 for n in range(count)])
            self.assertTrue([*capture.matching(long)] == wanted[997:])
            for found in (capture.answers(long), long.run_spans(content, spans), long.run_each(wanted), long.run_each((one.data for one in wanted), (one.wire for one in wanted))):
                self.assertEqual([answer > 0 for answer in found], answers)
            self.assertEqual(len(Filter("").run_each([one.data for one in wanted])), count)

    def test_it_is_a_sequence(self):
        capture = bpftap.read(EXAMPLES / "veth.pcap")
        packets = [*capture]
        self.assertEqual((len(capture), len(packets)), (253, 253))
        self.assertEqual((capture[0], capture[-1], capture[7]), (packets[0], packets[-1], packets[7]))
        self.assertEqual((capture[3:9:2], capture[:], capture[400:]), (packets[3:9:2], packets, []))
        for place in (253, -254):
            self.assertRaises(IndexError, capture.__getitem__, place)
        self.assertIsNone(capture.fault)

    def test_spans_and_answers(self):
        for name in ("veth", "veth-big-micro", "veth-little-nano", "veth-big-nano"):
            capture = bpftap.read(EXAMPLES / f"{name}.pcap")
            packets, spans, dns = [*capture], capture.spans(), Filter("udp port 5353")
            self.assertEqual(len(spans), 253)
            self.assertEqual([*spans.times], [packet.seconds * 10**9 + packet.nanos for packet in packets])
            self.assertEqual(([*spans.captured], [*spans.wire]), ([len(packet.data) for packet in packets], [packet.wire for packet in packets]))
            self.assertEqual([capture.content[at : at + size] for at, size in zip(spans.offsets, spans.captured)], [packet.data for packet in packets])
            answers = [dns.run(packet) for packet in packets]
            self.assertEqual(([*dns.run_spans(capture.content, spans)], [*capture.answers(dns)]), (answers, answers))
            for keep in (dns, "udp port 5353"):
                self.assertEqual([*capture.matching(keep)], [packet for packet in packets if dns.matches(packet)])

    def test_a_map_is_read_in_place_and_given_back(self):
        with open(EXAMPLES / "veth.pcap", "rb") as file, mmap.mmap(file.fileno(), 0, access=mmap.ACCESS_READ) as mapped:
            with bpftap.Capture(mapped) as capture:
                packets, kept = [*capture], [*capture.matching("udp port 5353")]
                self.assertEqual((len(packets), len(kept), capture[5], type(packets[0].data)), (253, 67, packets[5], bytes))
                self.assertIsInstance(capture.content, memoryview)
            for call in (lambda: list(capture), lambda: capture.content, lambda: capture.answers("ip"), lambda: capture[0]):
                with self.assertRaisesRegex(ValueError, "^the capture is closed$"):
                    call()
            self.assertEqual(len(capture), 253)

    def test_torn_at_each_byte_it_reads_what_the_library_reads(self):
        """The records and the fault of a loop of `bpftap_next`."""
        whole = bpftap._captures.encode([*self.PACKETS, Packet(TCP, 99, 3)])
        bad = bytearray(whole)
        bad[24 + 54 + 4 : 24 + 54 + 8] = (10**6).to_bytes(4, "little")
        for content in [whole[:size] for size in range(24, len(whole) + 1)] + [bytes(bad)]:
            reader, wanted = bpftap._library.lib.bpftap_open(content, len(content)), []
            while not (found := bpftap._library.lib.bpftap_next(content, len(content), reader)).fault:
                wanted.append(Packet(content[found.offset : found.offset + found.captured], found.wire, found.seconds, found.nanos))
            capture, seen = bpftap.Capture(content), []
            self.assertEqual((len(capture), capture[:]), (len(wanted), wanted))
            for packets, of in ((iter(capture), wanted), (capture.matching("tcp"), [packet for packet in wanted if Filter("tcp").matches(packet)])):
                seen = []
                if found.fault == bpftap._library.END:
                    seen.extend(packets)
                    self.assertIsNone(capture.fault)
                else:
                    with self.assertRaises(CaptureError) as caught:
                        for packet in packets:
                            seen.append(packet)
                    fault = bpftap._errors.fault_line(found.fault, found.place)
                    self.assertEqual((str(caught.exception), str(capture.fault)), (fault, fault))
                self.assertEqual(seen, of)

    def test_a_torn_record_comes_after_the_packets_before_it(self):
        content = bpftap._captures.encode(self.PACKETS)
        capture, seen = bpftap.Capture(content[:-1]), []
        with self.assertRaisesRegex(CaptureError, "^TornRecord 1$") as caught:
            seen.extend(iter(capture))
        self.assertEqual(caught.exception.place, 1)
        self.assertEqual(next(iter(capture)), self.PACKETS[0])
        with self.assertRaisesRegex(CaptureError, "^ShortHeader$") as caught:
            bpftap.Capture(b"")
        self.assertIsNone(caught.exception.written)

    def test_cut(self):
        content = bpftap._captures.encode(self.PACKETS)
        self.assertEqual(list(bpftap.Capture(bpftap.cut(content, Filter("udp")))), self.PACKETS[1:])
        self.assertEqual([packet.data for packet in bpftap.Capture(bpftap.cut(content, Filter("ip"), 20))], [TCP[:20], UDP[:20]])
        self.assertEqual(bpftap.cut(content, "udp"), bpftap.cut(content, Filter("udp")))
        with self.assertRaisesRegex(FilterError, r"\ABadWord 5\n  "):
            bpftap.cut(content, "port http")
        with self.assertRaisesRegex(CaptureError, "^TornRecord 1$") as caught:
            bpftap.cut(content[:-1], Filter("ip"))
        self.assertEqual(list(bpftap.Capture(caught.exception.written)), self.PACKETS[:1])

    def test_a_content_is_anything_bytes_like(self):
        content = bpftap._captures.encode(self.PACKETS)
        with tempfile.TemporaryFile() as file:
            file.write(content)
            file.flush()
            with mmap.mmap(file.fileno(), 0, access=mmap.ACCESS_READ) as mapped:
                for given in (bytearray(content), memoryview(content), mapped):
                    self.assertEqual(list(bpftap.Capture(given)), self.PACKETS)
                    self.assertEqual(bpftap.cut(given, Filter("ip")), bpftap.cut(content, Filter("ip")))
        changed = [Packet(bytearray(packet.data), packet.wire, packet.seconds, packet.nanos) for packet in self.PACKETS]
        self.assertEqual(bpftap._captures.encode(changed), content)
        for given in (7, None):
            for call in (bpftap.Capture, lambda given: bpftap.cut(given, "ip")):
                with self.assertRaisesRegex(TypeError, f"^content is of type {type(given).__name__}, which is not bytes-like$"):
                    call(given)

    def test_what_may_not_be_written(self):
        for packet, name in [(Packet(b"", 0, 0, 10**9), "BadFraction"), (Packet(bytes(262145), 0), "RecordTooLong")]:
            with self.assertRaises(CaptureError) as caught:
                bpftap._captures.encode([self.PACKETS[0], packet])
            self.assertEqual((caught.exception.name, caught.exception.place), (name, 1))


    def test_numbers_out_of_range_are_not_written(self):
        for packet, name in [(Packet(b"", -1), "wire"), (Packet(b"", 2**32), "wire"), (Packet(b"", 0, 2**32), "seconds"), (Packet(b"", 0, 0, -1), "nanos")]:
            with self.assertRaisesRegex(ValueError, f"^{name} is"):
                bpftap._captures.encode([packet])
        with self.assertRaisesRegex(CaptureError, "^BadFraction 0$"):
            bpftap._captures.encode([Packet(b"", 0, 0, 2**32)])
        for snap in (-1, 2**32):
            self.assertRaises(ValueError, bpftap._captures.encode, [], snap)
            self.assertRaises(ValueError, bpftap.cut, bpftap._captures.encode([]), Filter("ip"), snap)


class Library(unittest.TestCase):
    def test_a_library_that_is_missing_is_named(self):
        words = [sys.executable, "-c", "import bpftap"]
        environment = {**os.environ, "BPFTAP_LIBRARY": "/nosuch/library.so", "PYTHONPATH": os.pathsep.join(sys.path)}
        ended = subprocess.run(words, stderr=subprocess.PIPE, text=True, env=environment)
        self.assertEqual(ended.returncode, 1)
        self.assertRegex(ended.stderr, "ImportError: .*/nosuch/library.so.*BPFTAP_LIBRARY.*./build bpftap_c")


class Assertions(unittest.TestCase):
    def test_assert_all_match_says_why(self):
        bpftap.assert_all_match([UDP, Packet(TCP, 60)], "ip")
        with self.assertRaises(AssertionError) as caught:
            bpftap.assert_all_match([UDP, TCP], "udp")
        self.assertEqual(str(caught.exception), "not 'udp':\n  packet 1: No udp")

    def test_exactly_these_match(self):
        udp = Filter("udp")
        udp.assert_matches([UDP, TCP, Packet(UDP, 60)], exactly={0, 2})
        udp.assert_matches(iter([TCP]), exactly=[])
        for packets, exactly, lines in [
                ([UDP, TCP], {1}, ["packet 0: Yes udp, wanted No", "packet 1: No udp, wanted Yes"]), ([UDP[:20]], {0}, ["packet 0: Abort udp, byte 23 is not captured, wanted Yes"]),
                ([UDP], [0, 3], ["packet 3: there are only 1 packets"]), ([UDP], (), ["packet 0: Yes udp, wanted No"])]:
            with self.assertRaises(AssertionError) as caught:
                udp.assert_matches(packets, exactly)
            self.assertEqual(str(caught.exception).splitlines(), ["Filter('udp') differs:", *(f"  {line}" for line in lines)])
        with self.assertRaisesRegex(AssertionError, "packet 0: rejects it, wanted Yes\n  packet 1: accepts it, wanted No"):
            Filter.from_listing(LISTING).assert_matches([b"", UDP], {0})

    def test_the_version(self):
        self.assertRegex(bpftap.version(), r"^\d+\.\d+\.\d+$")
        self.assertEqual(bpftap.__version__, bpftap.version())


if __name__ == "__main__":
    unittest.main()

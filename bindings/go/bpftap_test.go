// SPDX-License-Identifier: MIT OR Apache-2.0

package bpftap_test

import (
	"bytes"
	"encoding/binary"
	"encoding/hex"
	"errors"
	"fmt"
	"io"
	"os"
	"os/exec"
	"reflect"
	"runtime"
	"runtime/debug"
	"strings"
	"sync"
	"testing"
	"time"

	"bpftap"
)

// A frame of 38 bytes from 10.0.0.1 to 10.0.0.2, by UDP from port 53 to port 53.
var udp, _ = hex.DecodeString("ffffffffffff000102030405080045000018000000004011" + "00000a0000010a00000200350035")

// `tcpdump -ddd ip` with a snapshot length of 96.
const listing = "4\n40 0 0 12\n21 0 1 2048\n6 0 0 96\n6 0 0 0\n"

func compiled(t *testing.T, expression string) *bpftap.Filter {
	t.Helper()
	filter, err := bpftap.Compile(expression)
	if err != nil {
		t.Fatal(err)
	}
	return filter
}

func capture(t *testing.T, form string) []byte {
	t.Helper()
	content, err := os.ReadFile("../../examples/veth" + form + ".pcap")
	if err != nil {
		t.Fatal(err)
	}
	return content
}

// numbered is a capture with nanoseconds, written by hand: record n has the second n, the nanosecond 123456789, 4 bytes with n, and n more on the wire.
func numbered(count int) []byte {
	u32 := binary.LittleEndian.AppendUint32
	made, _ := hex.DecodeString("4d3cb2a1020004000000000000000000" + "0000040001000000")
	for n := uint32(0); n < uint32(count); n++ {
		for _, number := range []uint32{n, 123456789, 4, 4 + n, n} {
			made = u32(made, number)
		}
	}
	return made
}

func packets(t *testing.T, content []byte) []bpftap.Packet {
	t.Helper()
	reader, err := bpftap.NewReader(content)
	if err != nil {
		t.Fatal(err)
	}
	packets, err := reader.All()
	if err != nil {
		t.Fatal(err)
	}
	return packets
}

func same(t *testing.T, what string, seen, wanted any) {
	t.Helper()
	if !reflect.DeepEqual(seen, wanted) {
		t.Errorf("%s: %v, wanted %v", what, seen, wanted)
	}
}

// refused checks that an error is this fault at this place, and prints so.
func refused(t *testing.T, err error, fault bpftap.Fault, place uint64, line string) {
	t.Helper()
	var found *bpftap.Error
	if !errors.As(err, &found) || !errors.Is(err, fault) || found.Place != place || err.Error() != line {
		t.Errorf("%v, wanted %s", err, line)
	}
}

func TestPacketsAreFiltered(t *testing.T) {
	dns, all := compiled(t, "udp port 5353"), packets(t, capture(t, ""))
	count := 0
	var answers []uint32
	for _, packet := range all {
		answers = append(answers, dns.Run(packet.Data, packet.Wire))
		if dns.Matches(packet.Data, packet.Wire) {
			count++
		}
	}
	// tcpdump counts 67 with UDP port 5353.
	same(t, "packets", [2]int{len(all), count}, [2]int{253, 67})
	for n := range all {
		same(t, "RunEach", dns.RunEach(all[n:]), answers[n:])
	}
	reader, _ := bpftap.NewReader(capture(t, ""))
	spans, err := reader.Spans()
	same(t, "RunSpans", dns.RunSpans(capture(t, ""), spans), answers)
	same(t, "Spans", err, nil)
}

func TestCapturesOfMoreRecordsThanABatch(t *testing.T) {
	for _, count := range []int{1023, 1024, 1025, 3000} {
		content := numbered(count)
		reader, _ := bpftap.NewReader(content)
		spans, err := reader.Spans()
		same(t, "Spans", []any{len(spans), err}, []any{count, nil})
		for n, span := range spans {
			if want := (bpftap.Span{Offset: uint64(24 + 20*n + 16), Captured: 4, Wire: uint32(4 + n)}); span != want {
				t.Fatalf("span %d of %d: %v, wanted %v", n, count, span, want)
			}
		}
		all := packets(t, content)
		same(t, "All", len(all), count)
		last := len(all) - 1
		same(t, "the last packet", all[last], bpftap.Packet{Data: content[len(content)-4:], Wire: uint32(4 + last), Time: time.Unix(int64(last), 123456789).UTC()})
		// The wire length is above 1000 from record 997 on.
		long := compiled(t, "len > 1000")
		for name, answers := range map[string][]uint32{"RunSpans": long.RunSpans(content, spans), "RunEach": long.RunEach(all)} {
			matched := 0
			for _, answer := range answers {
				if answer > 0 {
					matched++
				}
			}
			same(t, name, [2]int{len(answers), matched}, [2]int{count, count - 997})
		}
	}
}

func TestWhatIsAppendedToAPacketIsACopy(t *testing.T) {
	content := numbered(2)
	before := append([]byte(nil), content...)
	for _, packet := range packets(t, content) {
		same(t, "what it reaches", cap(packet.Data), len(packet.Data))
		_ = append(packet.Data, 0xff, 0xff, 0xff, 0xff)
	}
	same(t, "the capture", bytes.Equal(content, before), true)
}

func TestNanosecondsAreWhole(t *testing.T) {
	reader, _ := bpftap.NewReader(numbered(8))
	same(t, "Form", reader.Form().Nanoseconds, true)
	for n := int64(0); n < 8; n++ {
		packet, err := reader.Next()
		same(t, "Next", []any{packet.Time, err}, []any{time.Unix(n, 123456789).UTC(), nil})
	}
	var written bytes.Buffer
	writer, _ := bpftap.NewWriter(&written, reader.Form())
	for _, packet := range packets(t, numbered(8)) {
		writer.Write(packet)
	}
	same(t, "Write", bytes.Equal(written.Bytes(), numbered(8)), true)
}

func TestWireLengths(t *testing.T) {
	long := compiled(t, "len > 1000")
	same(t, "Run", []bool{long.Matches(udp, 38), long.Matches(udp, 1500)}, []bool{false, true})
	same(t, "RunEach", long.RunEach([]bpftap.Packet{{Data: udp, Wire: 38}, {Data: udp, Wire: 1500}}), []uint32{0, bpftap.MaxSnap})
}

func TestWhatIsEmpty(t *testing.T) {
	all := compiled(t, "")
	same(t, "Run", all.Run(nil, 0), uint32(bpftap.MaxSnap))
	same(t, "RunEach", all.RunEach(nil), []uint32{})
	same(t, "RunEach of an empty packet", all.RunEach([]bpftap.Packet{{}}), []uint32{bpftap.MaxSnap})
	same(t, "RunSpans", all.RunSpans(nil, nil), []uint32{})
	same(t, "RunSpans of nothing", all.RunSpans(nil, []bpftap.Span{{Offset: 7, Captured: 7}}), []uint32{bpftap.MaxSnap})
	refused(t, bpftap.Check(nil), bpftap.Empty, 0, "Empty")
	_, err := bpftap.FromListing("")
	refused(t, err, bpftap.BadLine, 1, "BadLine 1")
	_, err = bpftap.NewReader(nil)
	refused(t, err, bpftap.ShortHeader, 0, "ShortHeader")
	_, err = bpftap.Cut(nil, all, 0)
	refused(t, err, bpftap.ShortHeader, 0, "ShortHeader")
	verdict, part, err := compiled(t, "ip").Why(nil, 0)
	same(t, "Why", []any{verdict, part, err}, []any{bpftap.Abort, "ip, byte 12 is not captured", nil})
	found, err := bpftap.Compare("", "", bpftap.DefaultBudget)
	same(t, "Compare", []any{found.Answer, err}, []any{bpftap.Same, nil})
}

func TestErrorsHaveAHint(t *testing.T) {
	hint := func(err error) string {
		var found *bpftap.Error
		errors.As(err, &found)
		return found.Hint
	}
	_, err := bpftap.Compile("icmp and proot 17")
	same(t, "Compile", []string{err.Error(), hint(err)}, []string{"BadWord 9", "did you mean `proto`?"})
	_, err = bpftap.Compile("ip6")
	same(t, "two lines", strings.Count(hint(err), "\n"), 1)
	_, err = bpftap.Compile(strings.Repeat("ip or ", 1300) + " proot")
	same(t, "a long expression", hint(err), "did you mean `proto`?")
	_, err = bpftap.CompileSnap("ip", 0)
	same(t, "BadSnap", hint(err), "")
	_, err = bpftap.FromListing("")
	same(t, "FromListing", hint(err), "")
	_, err = bpftap.Compare("tcp", "icmp and proot 17", bpftap.DefaultBudget)
	same(t, "Compare", hint(err), "did you mean `proto`?")
}

func TestWhyDecides(t *testing.T) {
	verdict, part, err := compiled(t, "ip and tcp port 80").Why(udp, 38)
	same(t, "Why", []any{verdict, part, err}, []any{bpftap.No, "tcp port 80", nil})
	text, err := compiled(t, "tcp dst port 80 or 443").Canonical()
	same(t, "Canonical", []any{text, err}, []any{"tcp dst port 80 or tcp dst port 443", nil})
}

// Canonical, Listing and Image begin with room for 1,024 bytes.
func TestTextsBeyondTheFirstRoom(t *testing.T) {
	many := strings.TrimSuffix(strings.Repeat("port 80 or ", 200), " or ")
	done := make(chan []any)
	go func() {
		// 200 times `ld #0`, and a return.
		filter, _ := bpftap.FromInsns(append(make([]bpftap.Insn, 200), bpftap.Insn{Code: 6}))
		listed, err := filter.Listing()
		image, other := filter.Image()
		text, last := compiled(t, many).Canonical()
		done <- []any{text, last, listed, err, strings.Count(image, "\n"), other}
	}()
	select {
	case seen := <-done:
		same(t, "long texts", seen, []any{many, nil, "201\n" + strings.Repeat("0 0 0 0\n", 200) + "6 0 0 0\n", nil, 201, nil})
	case <-time.After(20 * time.Second):
		t.Fatal("the calls do not return")
	}
}

func TestFaultsHaveNamesAndPlaces(t *testing.T) {
	_, err := bpftap.Compile("port http")
	refused(t, err, bpftap.BadWord, 5, "BadWord 5")
	same(t, "a fault", bpftap.BadWord.Error(), "BadWord")
	_, err = bpftap.Compile("ip \xff")
	refused(t, err, bpftap.NotText, 3, "NotText 3")
	for _, snap := range []uint32{0, bpftap.MaxSnap + 1} {
		_, err = bpftap.CompileSnap("ip", snap)
		refused(t, err, bpftap.BadSnap, 0, "BadSnap")
	}
	_, err = bpftap.FromInsns([]bpftap.Insn{{Code: 21, Jt: 9}, {Code: 6}})
	refused(t, err, bpftap.JumpOut, 0, "JumpOut 0")
	_, err = bpftap.Compare("tcp", "port http", 1)
	refused(t, err, bpftap.BadWord, 5, "BadWord 5")
	var found *bpftap.Error
	same(t, "the number", errors.As(err, &found) && found.Number == 2, true)
}

func TestProgramsAndListings(t *testing.T) {
	listed, err := bpftap.FromListing(listing)
	if err != nil {
		t.Fatal(err)
	}
	insns := listed.Insns()
	same(t, "Insns", insns, []bpftap.Insn{{40, 0, 0, 12}, {21, 0, 1, 2048}, {6, 0, 0, 96}, {6, 0, 0, 0}})
	again, err := listed.Listing()
	same(t, "Listing", []any{again, err}, []any{listing, nil})
	image, err := listed.Image()
	same(t, "Image", []any{strings.Split(image, "\n")[2], err}, []any{"(002) ret      #96", nil})
	insns[2].K = 7
	other, err := bpftap.FromInsns(insns)
	same(t, "FromInsns", []any{other.Run(udp, 38), listed.Run(udp, 38), err}, []any{uint32(7), uint32(96), nil})
	insns[2].K = 9
	runtime.GC()
	same(t, "its own memory", other.Run(udp, 38), uint32(7))
	_, _, err = listed.Why(udp, 38)
	_, other2 := listed.Canonical()
	same(t, "no expression", []bool{errors.Is(err, bpftap.NotText), errors.Is(other2, bpftap.NotText)}, []bool{true, true})
}

// The copies are all that is left of their filters when others take the memory that is free.
func TestCopiesOutliveTheirFilters(t *testing.T) {
	var copies [100]bpftap.Filter
	for n := range copies {
		copies[n] = *compiled(t, "udp port 53")
	}
	for round := 0; round < 2; round++ {
		runtime.GC()
		time.Sleep(20 * time.Millisecond)
	}
	var others [100]*bpftap.Filter
	for n := range others {
		others[n] = compiled(t, "udp port 54")
	}
	for n := range copies {
		spans := copies[n].RunSpans(udp, []bpftap.Span{{Captured: 38, Wire: 38}})
		each := copies[n].RunEach([]bpftap.Packet{{Data: udp, Wire: 38}})
		seen := []uint32{copies[n].Run(udp, 38), spans[0], each[0], others[n].Run(udp, 38)}
		same(t, "a copy, and another filter", seen, []uint32{bpftap.MaxSnap, bpftap.MaxSnap, bpftap.MaxSnap, 0})
	}
}

// Go collects garbage all the time, also while C runs, and the memory that is free is overwritten.
func TestFiltersAreUsedWhileGarbageIsCollected(t *testing.T) {
	defer debug.SetGCPercent(debug.SetGCPercent(1))
	var group sync.WaitGroup
	for n := 0; n < 8; n++ {
		group.Add(1)
		go func(n int) {
			defer group.Done()
			// A packet of its own, on the stack if Go may have it there.
			packet := [38]byte{}
			copy(packet[:], udp)
			packet[37] = byte(n)
			for round := 0; round < 20; round++ {
				filter, err := bpftap.Compile(fmt.Sprintf("udp dst port %d", n))
				for run := 0; run < 20; run++ {
					bytes.Repeat([]byte{255}, 6704)
					if err != nil || filter.Run(packet[:], 38) == 0 || filter.RunEach([]bpftap.Packet{{}, {Data: packet[:], Wire: 38}})[1] == 0 {
						t.Errorf("goroutine %d: %v", n, err)
						return
					}
				}
			}
		}(n)
	}
	group.Wait()
}

func TestAFilterThatWasNotMadeAcceptsNothing(t *testing.T) {
	var none bpftap.Filter
	same(t, "Run", []any{none.Run(udp, 38), none.Run(nil, 0), none.Matches(udp, 38)}, []any{uint32(0), uint32(0), false})
	same(t, "RunEach", none.RunEach([]bpftap.Packet{{Data: udp, Wire: 38}, {}}), []uint32{0, 0})
	same(t, "RunSpans", none.RunSpans(udp, []bpftap.Span{{Captured: 38, Wire: 38}}), []uint32{0})
	_, err := none.Trace(udp, 38)
	refused(t, err, bpftap.Empty, 0, "Empty")
	_, err = none.Listing()
	refused(t, err, bpftap.Empty, 0, "Empty")
	_, err = none.Image()
	refused(t, err, bpftap.Empty, 0, "Empty")
	_, err = bpftap.Cut(capture(t, ""), &none, 0)
	refused(t, err, bpftap.Empty, 0, "Empty")
	_, _, err = none.Why(udp, 38)
	refused(t, err, bpftap.NotText, 0, "NotText 0")
	_, err = none.Looks(udp, 38)
	refused(t, err, bpftap.NotText, 0, "NotText 0")
	_, err = none.Canonical()
	refused(t, err, bpftap.NotText, 0, "NotText 0")
	same(t, "what it has", []any{none.Expression(), len(none.Insns())}, []any{"", 0})
	var reader bpftap.Reader
	_, err = reader.Next()
	same(t, "a reader of nothing", err, io.EOF)
}

func TestRunsTakeNoMemory(t *testing.T) {
	dns, all := compiled(t, "udp port 5353"), packets(t, capture(t, ""))
	same(t, "Run", testing.AllocsPerRun(100, func() { dns.Run(all[0].Data, all[0].Wire) }), 0.0)
	same(t, "RunEach, but for its answers", testing.AllocsPerRun(100, func() { dns.RunEach(all) }), 1.0)
}

// The least time of many, since other programs run too.
func TestRunEachTakesHalfTheTimeOfRuns(t *testing.T) {
	dns, all := compiled(t, "udp port 5353"), packets(t, capture(t, ""))
	runs, each := time.Hour, time.Hour
	for n := 0; n < 1000 && (n < 20 || 2*each > runs); n++ {
		began := time.Now()
		for _, packet := range all {
			dns.Run(packet.Data, packet.Wire)
		}
		between := time.Now()
		dns.RunEach(all)
		ended := time.Now()
		if took := between.Sub(began); took < runs {
			runs = took
		}
		if took := ended.Sub(between); took < each {
			each = took
		}
	}
	if 2*each > runs {
		t.Errorf("RunEach takes %v, a loop of Run %v", each, runs)
	}
}

func TestRunsAreTraced(t *testing.T) {
	listed, _ := bpftap.FromListing(listing)
	traced, err := listed.Trace(udp, 38)
	same(t, "Trace", []any{traced, err}, []any{[]bpftap.Executed{{Place: 0, Accumulator: 2048}, {Place: 1, Accumulator: 2048}, {Place: 2, Accumulator: 2048}}, nil})
	traced, _ = listed.Trace(nil, 38)
	same(t, "a load past the end", traced, []bpftap.Executed{{}})
	// A = 7, M[3] = A, return A.
	stores, _ := bpftap.FromInsns([]bpftap.Insn{{K: 7}, {Code: 2, K: 3}, {Code: 0x16}})
	traced, _ = stores.Trace(udp, 38)
	same(t, "a store", traced[1], bpftap.Executed{Place: 1, Accumulator: 7, Stored: true, Cell: 3, Value: 7})
	looks, err := compiled(t, "ether proto 0x800").Looks(udp, 38)
	same(t, "Looks", []any{looks, err}, []any{[]bpftap.Look{{Offset: 12, Size: 2}}, nil})
	looks, _ = compiled(t, strings.TrimSuffix(strings.Repeat("ether[30] = 10 and ", 80), " and ")).Looks(udp, 38)
	same(t, "many", len(looks), 80)
	_, err = listed.Looks(udp, 38)
	refused(t, err, bpftap.NotText, 0, "NotText 0")
}

func TestLongExpressionsHaveStackEnough(t *testing.T) {
	text := strings.Repeat("(", 60) + "ip" + strings.Repeat(")", 60) + strings.Repeat(" or ip", 90) + strings.Repeat(" ", 4000)
	done := make(chan bool)
	for n := 0; n < 8; n++ {
		go func() {
			filter, err := bpftap.Compile(text)
			verdict, _, other := filter.Why(udp, 38)
			_, last := filter.Canonical()
			done <- err == nil && other == nil && last == nil && verdict == bpftap.Yes
		}()
	}
	for n := 0; n < 8; n++ {
		same(t, "a goroutine", <-done, true)
	}
}

// This test runs itself once more, with threads of 128 KiB: the hint to a long expression needs more.
func TestLongExpressionsHaveAHintOnSmallStacks(t *testing.T) {
	if os.Getenv("BPFTAP_SMALL_STACKS") == "" {
		again := exec.Command("sh", "-c", `ulimit -s 128 && exec "$0" -test.run '^TestLongExpressionsHaveAHintOnSmallStacks$'`, os.Args[0])
		again.Env = append(os.Environ(), "BPFTAP_SMALL_STACKS=1")
		if printed, err := again.CombinedOutput(); err != nil {
			t.Fatalf("%v: %.1000s", err, printed)
		}
		return
	}
	done := make(chan error)
	for n := 0; n < 8; n++ {
		go func() {
			_, err := bpftap.Compile(strings.Repeat("ip or ", 1300) + " proot")
			done <- err
		}()
	}
	for n := 0; n < 8; n++ {
		var found *bpftap.Error
		if err := <-done; !errors.As(err, &found) || found.Hint != "did you mean `proto`?" {
			t.Errorf("%v", err)
		}
	}
}

func TestWhatIsWrittenIsRead(t *testing.T) {
	for form, wanted := range map[string]bpftap.Form{"": {}, "-big-micro": {BigEndian: true}, "-little-nano": {Nanoseconds: true},
		"-big-nano": {BigEndian: true, Nanoseconds: true}} {
		content := capture(t, form)
		reader, err := bpftap.NewReader(content)
		if err != nil {
			t.Fatal(err)
		}
		wanted.Snap = reader.Form().Snap
		same(t, "Form", reader.Form(), wanted)
		var written bytes.Buffer
		writer, err := bpftap.NewWriter(&written, reader.Form())
		for _, packet := range packets(t, content) {
			if err == nil {
				err = writer.Write(packet)
			}
		}
		same(t, "veth"+form, []any{bytes.Equal(written.Bytes(), content), err}, []any{true, nil})
	}
	var header bytes.Buffer
	bpftap.NewWriter(&header, bpftap.Form{})
	same(t, "a header", hex.EncodeToString(header.Bytes()), "d4c3b2a1020004000000000000000000"+"0000040001000000")
}

// narrow is a file that takes some bytes and then fails.
type narrow struct{ room int }

func (n *narrow) Write(content []byte) (int, error) {
	if n.room -= len(content); n.room < 0 {
		return 0, io.ErrShortWrite
	}
	return len(content), nil
}

func TestWhatMayNotBeWritten(t *testing.T) {
	writer, err := bpftap.NewWriter(io.Discard, bpftap.Form{})
	if err != nil || writer.Write(bpftap.Packet{Data: udp, Wire: 38, Time: time.Unix(1, 0)}) != nil {
		t.Fatal(err)
	}
	for _, when := range []time.Time{{}, time.Unix(-1, 0), time.Unix(1<<32, 0)} {
		refused(t, writer.Write(bpftap.Packet{Time: when}), bpftap.BadFraction, 1, "BadFraction 1")
	}
	err = writer.Write(bpftap.Packet{Data: make([]byte, bpftap.MaxSnap+1), Time: time.Unix(1, 0)})
	same(t, "a long packet", errors.Is(err, bpftap.RecordTooLong), true)
	same(t, "a packet after it", writer.Write(bpftap.Packet{Data: udp, Time: time.Unix(1<<32-1, 999999999)}), nil)
	_, err = bpftap.NewWriter(&narrow{23}, bpftap.Form{})
	same(t, "a full disk", err, io.ErrShortWrite)
	writer, _ = bpftap.NewWriter(&narrow{24}, bpftap.Form{})
	same(t, "a full disk later", writer.Write(bpftap.Packet{Time: time.Unix(1, 0)}), io.ErrShortWrite)
}

func TestTornCaptures(t *testing.T) {
	content := capture(t, "")[:200]
	reader, _ := bpftap.NewReader(content)
	found, err := reader.All()
	refused(t, err, bpftap.TornRecord, 2, "TornRecord 2")
	same(t, "the packets before", len(found), 2)
	_, err = reader.Next()
	refused(t, err, bpftap.TornRecord, 2, "TornRecord 2")
	written, err := bpftap.Cut(content, compiled(t, ""), 20)
	refused(t, err, bpftap.TornRecord, 2, "TornRecord 2")
	same(t, "its cut", []int{len(written), len(packets(t, written))}, []int{24 + 2*36, 2})
	reader, _ = bpftap.NewReader(content)
	spans, err := reader.Spans()
	refused(t, err, bpftap.TornRecord, 2, "TornRecord 2")
	same(t, "its spans", len(spans), 2)
	_, err = bpftap.NewReader(bytes.Repeat([]byte("no capture"), 9))
	refused(t, err, bpftap.NotSavefile, 0, "NotSavefile")
}

func TestCut(t *testing.T) {
	content, dns := capture(t, ""), compiled(t, "udp port 5353")
	written, err := bpftap.Cut(content, dns, 0)
	same(t, "Cut", []any{len(packets(t, written)), err}, []any{67, nil})
	for _, packet := range packets(t, written) {
		same(t, "what is kept", dns.Matches(packet.Data, packet.Wire), true)
	}
}

func TestComparisons(t *testing.T) {
	found, err := bpftap.Compare("port 80", "src port 80 or dst port 80", bpftap.DefaultBudget)
	same(t, "Same", []any{found, err}, []any{bpftap.Comparison{Answer: bpftap.Same}, nil})
	found, err = bpftap.Compare("tcp", "udp", bpftap.DefaultBudget)
	one, other := compiled(t, "tcp").Matches(found.Packet, found.Wire), compiled(t, "udp").Matches(found.Packet, found.Wire)
	same(t, "Differ", []any{found.Answer, one != other, err}, []any{bpftap.Differ, true, nil})
	found, err = bpftap.Compare("tcp", "udp", 1)
	same(t, "NotDecided", []any{found, err}, []any{bpftap.Comparison{Answer: bpftap.NotDecided, Cause: bpftap.Budget}, nil})
	same(t, "its name", found.Answer.String(), "NotDecided")
	found, err = bpftap.Compare("len > 1500", "len > 1501", bpftap.DefaultBudget)
	if err == nil && found.Answer == bpftap.Differ {
		same(t, "a long packet", compiled(t, "len > 1500").Matches(found.Packet, found.Wire) != compiled(t, "len > 1501").Matches(found.Packet, found.Wire), true)
	}
}

func TestGoroutinesShareAFilter(t *testing.T) {
	dns, all := compiled(t, "udp port 5353"), packets(t, capture(t, ""))
	var group sync.WaitGroup
	counts := make([]int, 8)
	for n := range counts {
		group.Add(1)
		go func(n int) {
			defer group.Done()
			for _, packet := range all {
				if dns.Matches(packet.Data, packet.Wire) {
					counts[n]++
				}
			}
		}(n)
	}
	group.Wait()
	same(t, "counts", counts, []int{67, 67, 67, 67, 67, 67, 67, 67})
}

// Each takes the packets of a capture; a time is that of all 253.
func BenchmarkFilter(b *testing.B) {
	content, err := os.ReadFile("../../examples/veth.pcap")
	if err != nil {
		b.Fatal(err)
	}
	reader, _ := bpftap.NewReader(content)
	all, _ := reader.All()
	reader, _ = bpftap.NewReader(content)
	spans, _ := reader.Spans()
	web, _ := bpftap.Compile("tcp port 80")
	for name, call := range map[string]func(){
		"Run": func() {
			for _, packet := range all {
				web.Run(packet.Data, packet.Wire)
			}
		},
		"RunEach":  func() { web.RunEach(all) },
		"RunSpans": func() { web.RunSpans(content, spans) },
	} {
		b.Run(name, func(b *testing.B) {
			for n := 0; n < b.N; n++ {
				call()
			}
		})
	}
}

// SPDX-License-Identifier: MIT OR Apache-2.0

package bpftap

// #include "calls.h"
import "C"

import (
	"io"
	"time"
	"unsafe"
)

// A Packet is what a capture has of a packet: its captured bytes, its length on the wire, and when it was captured.
type Packet struct {
	Data []byte
	Wire uint32
	Time time.Time
}

// A Form says how a capture is written: its byte order, its unit of time and the snapshot length of its header.
type Form struct {
	BigEndian, Nanoseconds bool
	Snap                   uint32
}

func bit(is bool) C.uint32_t {
	if is {
		return 1
	}
	return 0
}

// A Reader reads the packets of a capture in memory: a pcap file of Ethernet frames, in either byte order, with microseconds or nanoseconds.
// The memory must not change meanwhile. It is one goroutine's.
type Reader struct {
	memory []byte
	at     C.struct_bpftap_reader
	last   error
}

// NewReader reads the header of a capture.
func NewReader(capture []byte) (*Reader, error) {
	at := C.bpftap_open(bytesOf(capture), C.size_t(len(capture)))
	if err := errorOf(at.fault, 0); err != nil {
		return nil, err
	}
	return &Reader{memory: capture, at: at}, nil
}

// Form is what the header says.
func (r *Reader) Form() Form {
	return Form{BigEndian: r.at.order != 0, Nanoseconds: r.at.unit != 0, Snap: uint32(r.at.snap)}
}

// end keeps why there is no further record, if there is none.
func (r *Reader) end(fault C.uint32_t, place uint64) {
	switch fault {
	case C.BPFTAP_OK:
	case C.BPFTAP_END:
		r.last = io.EOF
	default:
		r.last = errorOf(fault, place)
	}
}

// Next is the next packet, whose bytes lie in the capture; append to them makes a copy. After the last one the error is io.EOF, or that of a torn
// or bad record.
func (r *Reader) Next() (Packet, error) {
	if r.last != nil {
		return Packet{}, r.last
	}
	record := C.bpftap_next(bytesOf(r.memory), C.size_t(len(r.memory)), &r.at)
	if r.end(record.fault, uint64(record.place)); r.last != nil {
		return Packet{}, r.last
	}
	end := uint64(record.offset) + uint64(record.captured)
	data := r.memory[record.offset:end:end]
	return Packet{data, uint32(record.wire), time.Unix(int64(record.seconds), int64(record.nanos)).UTC()}, nil
}

// All are the packets that are left, and why there is no further one, if that is not the end of the capture.
func (r *Reader) All() ([]Packet, error) {
	var packets []Packet
	for {
		packet, err := r.Next()
		if err == io.EOF {
			return packets, nil
		}
		if err != nil {
			return packets, err
		}
		packets = append(packets, packet)
	}
}

// Spans are where the packets that are left lie, for Filter.RunSpans over the same capture, and why there is no further one.
func (r *Reader) Spans() ([]Span, error) {
	var spans []Span
	for r.last == nil {
		part := make([]Span, 1024)
		found := C.bpftap_spans(bytesOf(r.memory), C.size_t(len(r.memory)), &r.at, (*C.struct_bpftap_span)(unsafe.Pointer(&part[0])), C.size_t(len(part)))
		spans = append(spans, part[:found.size]...)
		r.end(found.fault, uint64(found.place))
	}
	if r.last != io.EOF {
		return spans, r.last
	}
	return spans, nil
}

// A Writer writes a capture. NewWriter makes it; it is one goroutine's.
type Writer struct {
	to    io.Writer
	form  Form
	place uint64
	room  []byte
}

// NewWriter writes the header of a capture. A Snap of 0 stands for MaxSnap.
func NewWriter(to io.Writer, form Form) (*Writer, error) {
	if form.Snap == 0 {
		form.Snap = MaxSnap
	}
	w := &Writer{to: to, form: form, room: make([]byte, 24)}
	result := C.bpftap_put_header(bit(form.BigEndian), bit(form.Nanoseconds), C.uint32_t(form.Snap), bytesOf(w.room), C.size_t(len(w.room)))
	return w, w.put(result)
}

// put writes what a call has put.
func (w *Writer) put(result C.struct_bpftap_result) error {
	if err := errorOf(result.fault, uint64(result.place)); err != nil {
		return err
	}
	_, err := w.to.Write(w.room[:result.size])
	return err
}

// Write writes a packet. With microseconds the rest of its time is dropped. A time before 1970 or after 2106 is BadFraction, and a packet of
// more than MaxSnap bytes is RecordTooLong; nothing is written then.
func (w *Writer) Write(packet Packet) error {
	seconds := packet.Time.Unix()
	if seconds < 0 || seconds > 1<<32-1 {
		return &Error{Fault: BadFraction, Place: w.place}
	}
	if need := len(packet.Data) + 16; len(w.room) < need {
		w.room = make([]byte, need)
	}
	record := C.struct_bpftap_record{place: C.uint64_t(w.place), seconds: C.uint32_t(seconds), nanos: C.uint32_t(packet.Time.Nanosecond()),
		wire: C.uint32_t(packet.Wire)}
	err := w.put(C.bpftap_put(bit(w.form.BigEndian), bit(w.form.Nanoseconds), &record, bytesOf(packet.Data), C.size_t(len(packet.Data)), bytesOf(w.room),
		C.size_t(len(w.room))))
	if err == nil {
		w.place++
	}
	return err
}

// Cut is a capture of the packets of a capture that a filter accepts, in the same form, each with at most snap bytes; 0 stands for MaxSnap. If
// a record cannot be read, it is the cut of the packets before, and the error is that of the record.
func Cut(capture []byte, filter *Filter, snap uint32) ([]byte, error) {
	to := make([]byte, len(capture))
	result := C.bpftap_cut(bytesOf(capture), C.size_t(len(capture)), insnsOf(filter.insns), C.size_t(len(filter.insns)), C.uint32_t(snap), bytesOf(to),
		C.size_t(len(to)))
	return to[:result.size], errorOf(result.fault, uint64(result.place))
}

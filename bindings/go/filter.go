// SPDX-License-Identifier: MIT OR Apache-2.0

package bpftap

// #include "calls.h"
import "C"

import (
	"strings"
	"unsafe"
)

// An Insn is an instruction of the filter machine: struct bpf_insn of bpf(4), struct sock_filter of Linux.
type Insn struct {
	Code   uint16
	Jt, Jf uint8
	K      uint32
}

// A Verdict is what an expression answers to a packet.
type Verdict int

const (
	No Verdict = iota
	Yes
	// Abort means that a byte past the captured ones was wanted, or that a divisor was 0. A filter rejects the packet then.
	Abort
)

func (v Verdict) String() string { return [...]string{"No", "Yes", "Abort"}[v] }

// A Filter is a compiled expression, or a program. Goroutines may share it, and a copy of it answers as it does. The zero value has no
// program: it accepts no packet, and each of its calls that may return an error does.
type Filter struct {
	expression string
	compiled   bool
	insns      []Insn
	// What C prepared of insns. Nobody writes there again, so copies of the filter share it.
	program []byte
}

// Compile compiles an expression (docs/LANGUAGE.md). The filter keeps whole packets.
func Compile(expression string) (*Filter, error) { return CompileSnap(expression, MaxSnap) }

// CompileSnap compiles an expression to a filter that keeps at most snap bytes of a packet, from 1 to MaxSnap.
func CompileSnap(expression string, snap uint32) (*Filter, error) {
	insns := make([]Insn, MaxInsns)
	text, size := textOf(expression)
	result := C.calls_compile(text, size, C.uint32_t(snap), insnsOf(insns), MaxInsns)
	if err := refusalOf(result.fault, result.place, expression); err != nil {
		return nil, err
	}
	filter, err := FromInsns(insns[:result.size])
	if err != nil {
		return nil, err
	}
	filter.expression, filter.compiled = expression, true
	return filter, nil
}

// FromListing takes a program in the form of tcpdump -ddd.
func FromListing(listing string) (*Filter, error) {
	insns := make([]Insn, MaxInsns)
	text, size := textOf(listing)
	result := C.bpftap_read_listing(text, size, insnsOf(insns), MaxInsns)
	if err := errorOf(result.fault, uint64(result.place)); err != nil {
		return nil, err
	}
	return FromInsns(insns[:result.size])
}

// FromInsns takes a program as instructions, which it copies.
func FromInsns(insns []Insn) (*Filter, error) {
	filter := &Filter{insns: append([]Insn(nil), insns...)}
	if err := Check(filter.insns); err != nil {
		return nil, err
	}
	filter.program = programRoom()
	return filter, errorOf(C.calls_prepare(bytesOf(filter.program), insnsOf(filter.insns), C.size_t(len(filter.insns))), 0)
}

// programRoom is memory for a prepared program, aligned as malloc aligns. It stays where it is, since Go does not move what is on its heap.
func programRoom() []byte {
	const align = 16
	memory := make([]byte, C.bpftap_program_size()+align)
	return memory[align-uintptr(unsafe.Pointer(&memory[0]))%align:]
}

// Check says whether instructions are a program, and if not why.
func Check(insns []Insn) error {
	result := C.bpftap_check(insnsOf(insns), C.size_t(len(insns)))
	return errorOf(result.fault, uint64(result.place))
}

func insnsOf(insns []Insn) *C.struct_bpftap_insn {
	if len(insns) == 0 {
		return (*C.struct_bpftap_insn)(unsafe.Pointer(&nothing))
	}
	return (*C.struct_bpftap_insn)(unsafe.Pointer(&insns[0]))
}

// Run is how many bytes of a packet the filter keeps, 0 if it rejects it. wire is the packet's length on the wire. To call C takes longer than
// most programs do: of many packets ask RunEach or RunSpans.
func (f *Filter) Run(packet []byte, wire uint32) uint32 {
	if f.program == nil {
		return 0
	}
	return uint32(C.calls_run(bytesOf(f.program), bytesOf(packet), C.size_t(len(packet)), C.uint32_t(wire)))
}

// Matches is whether the filter accepts a packet.
func (f *Filter) Matches(packet []byte, wire uint32) bool { return f.Run(packet, wire) != 0 }

// A Span is a packet that lies in a memory: its captured bytes begin at Offset. Bytes past the memory are not captured.
type Span struct {
	Offset         uint64
	Captured, Wire uint32
}

// RunSpans is what the filter answers to each packet of a memory, in one call.
func (f *Filter) RunSpans(memory []byte, spans []Span) []uint32 {
	answers := make([]uint32, len(spans))
	if len(spans) > 0 && f.program != nil {
		C.calls_run_spans(bytesOf(f.program), bytesOf(memory), C.size_t(len(memory)), (*C.struct_bpftap_span)(unsafe.Pointer(&spans[0])),
			(*C.uint32_t)(unsafe.Pointer(&answers[0])), C.size_t(len(spans)))
	}
	return answers
}

// RunEach is what the filter answers to each packet. Nothing is copied. C is called once for eight packets; RunSpans calls it once for all.
func (f *Filter) RunEach(packets []Packet) []uint32 {
	answers := make([]uint32, (len(packets)+7)/8*8)
	for at := 0; at < len(packets) && f.program != nil; at += 8 {
		var p [8]Packet // the last ones may be fewer
		copy(p[:], packets[at:])
		C.calls_run_eight(bytesOf(f.program), (*C.uint32_t)(unsafe.Pointer(&answers[at])),
			bytesOf(p[0].Data), C.size_t(len(p[0].Data)), C.uint32_t(p[0].Wire),
			bytesOf(p[1].Data), C.size_t(len(p[1].Data)), C.uint32_t(p[1].Wire),
			bytesOf(p[2].Data), C.size_t(len(p[2].Data)), C.uint32_t(p[2].Wire),
			bytesOf(p[3].Data), C.size_t(len(p[3].Data)), C.uint32_t(p[3].Wire),
			bytesOf(p[4].Data), C.size_t(len(p[4].Data)), C.uint32_t(p[4].Wire),
			bytesOf(p[5].Data), C.size_t(len(p[5].Data)), C.uint32_t(p[5].Wire),
			bytesOf(p[6].Data), C.size_t(len(p[6].Data)), C.uint32_t(p[6].Wire),
			bytesOf(p[7].Data), C.size_t(len(p[7].Data)), C.uint32_t(p[7].Wire))
	}
	return answers[:len(packets)]
}

// Why is what an expression answers to a packet, and the primitive or relation that decides: No and "tcp port 80". Of a program without an
// expression it is NotText.
func (f *Filter) Why(packet []byte, wire uint32) (Verdict, string, error) {
	if !f.compiled {
		return No, "", &Error{Fault: NotText}
	}
	verdict := No
	expression, size := textOf(f.expression)
	line, err := text(256, func(to *C.char, room C.size_t) C.struct_bpftap_result {
		reason := C.calls_why(expression, size, bytesOf(packet), C.size_t(len(packet)), C.uint32_t(wire), to, room)
		verdict = Verdict(reason.verdict)
		return C.struct_bpftap_result{fault: reason.fault, size: reason.size, place: reason.place}
	})
	_, part, _ := strings.Cut(line, " ")
	return verdict, part, err
}

// An Executed is an instruction that was executed, and what the machine holds after it.
type Executed struct {
	Place              int
	Accumulator, Index uint32
	// Stored says whether it stored Value into Cell of scratch memory.
	Stored      bool
	Cell, Value uint32
}

// Trace is which instructions a run over a packet executes, in order.
func (f *Filter) Trace(packet []byte, wire uint32) ([]Executed, error) {
	to := make([]C.struct_bpftap_executed, MaxInsns)
	traced := C.bpftap_trace(insnsOf(f.insns), C.size_t(len(f.insns)), bytesOf(packet), C.size_t(len(packet)), C.uint32_t(wire), &to[0], MaxInsns)
	if err := errorOf(traced.fault, uint64(traced.place)); err != nil {
		return nil, err
	}
	made := make([]Executed, traced.size)
	for at := range made {
		made[at] = Executed{Place: int(to[at].place), Accumulator: uint32(to[at].accumulator), Index: uint32(to[at].index)}
		if to[at].cell != C.BPFTAP_NO_CELL {
			made[at].Stored, made[at].Cell, made[at].Value = true, uint32(to[at].cell), uint32(to[at].value)
		}
	}
	return made, nil
}

// A Look is what a test looked at: Size bytes of the frame from byte Offset on, captured or not; or, if both are 0, the length on the wire.
type Look struct{ Offset, Size int }

// Looks is what the expression looks at of a packet: what each primitive or relation does that is asked, from left to right. Of a program
// without an expression it is NotText.
func (f *Filter) Looks(packet []byte, wire uint32) ([]Look, error) {
	if !f.compiled {
		return nil, &Error{Fault: NotText}
	}
	expression, size := textOf(f.expression)
	for room := 64; ; {
		to := make([]C.struct_bpftap_look, room)
		result := C.calls_looks(expression, size, bytesOf(packet), C.size_t(len(packet)), C.uint32_t(wire), &to[0], C.size_t(room))
		if result.fault == C.BPFTAP_NO_ROOM {
			room = int(result.size)
			continue
		}
		if err := errorOf(result.fault, uint64(result.place)); err != nil {
			return nil, err
		}
		made := make([]Look, result.size)
		for at := range made {
			made[at] = Look{int(to[at].offset), int(to[at].size)}
		}
		return made, nil
	}
}

// Expression is the one that was compiled, or "" of a program.
func (f *Filter) Expression() string { return f.expression }

// Canonical is the expression in its canonical form, which shows how it was read. Of a program without an expression it is NotText.
func (f *Filter) Canonical() (string, error) {
	if !f.compiled {
		return "", &Error{Fault: NotText}
	}
	expression, size := textOf(f.expression)
	return text(1024, func(to *C.char, room C.size_t) C.struct_bpftap_result {
		return C.calls_print(expression, size, to, room)
	})
}

// Insns are the instructions; the caller may change them.
func (f *Filter) Insns() []Insn { return append([]Insn(nil), f.insns...) }

// Listing is the program in the form of tcpdump -ddd.
func (f *Filter) Listing() (string, error) {
	return text(1024, func(to *C.char, room C.size_t) C.struct_bpftap_result {
		return C.bpftap_write_listing(insnsOf(f.insns), C.size_t(len(f.insns)), to, room)
	})
}

// Image is the program by the names of its instructions, as tcpdump -d prints it.
func (f *Filter) Image() (string, error) {
	return text(1024, func(to *C.char, room C.size_t) C.struct_bpftap_result {
		return C.bpftap_image(insnsOf(f.insns), C.size_t(len(f.insns)), to, room)
	})
}

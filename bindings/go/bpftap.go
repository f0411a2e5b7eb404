// SPDX-License-Identifier: MIT OR Apache-2.0

// Package bpftap has the proved filter compiler, filter machine and capture cutter of bpftap, by cgo over its C library.
//
// A Filter is a filter expression as of pcap-filter(7), compiled, or a program that was handed in. A Reader goes through the packets of a
// capture, a Writer makes one, and Cut filters one. Compare decides whether two expressions accept the same packets.
//
// What goes wrong is an *Error: errors.Is(err, bpftap.BadWord) asks which Fault it is.
//
// The library needs Linux and an x86-64-v2 or aarch64 processor.
package bpftap

// #cgo CFLAGS: -I${SRCDIR}/native -I${SRCDIR}/../../include
// #cgo LDFLAGS: -L${SRCDIR}/native -L${SRCDIR}/../../out/lib -l:libbpftap.a -pthread
// #include "calls.h"
import "C"

import (
	"strings"
	"unsafe"
)

const (
	// MaxSnap is the most captured bytes of a packet.
	MaxSnap = C.BPFTAP_MAX_SNAP
	// MaxInsns is the most instructions of a program.
	MaxInsns = C.BPFTAP_MAX_INSNS
)

// A Fault says what is wrong. Its numbers are those of bpftap.h, and docs/FAULTS.md explains them.
type Fault uint32

const (
	NoMemory      Fault = C.BPFTAP_NO_MEMORY
	NotText       Fault = C.BPFTAP_NOT_TEXT
	Empty         Fault = C.BPFTAP_EMPTY
	TooMany       Fault = C.BPFTAP_TOO_MANY
	UnknownCode   Fault = C.BPFTAP_UNKNOWN_CODE
	JumpOut       Fault = C.BPFTAP_JUMP_OUT
	Cell          Fault = C.BPFTAP_CELL
	ZeroDivisor   Fault = C.BPFTAP_ZERO_DIVISOR
	NoReturn      Fault = C.BPFTAP_NO_RETURN
	BadLine       Fault = C.BPFTAP_BAD_LINE
	Count         Fault = C.BPFTAP_COUNT
	TextTooLong   Fault = C.BPFTAP_TEXT_TOO_LONG
	BadByte       Fault = C.BPFTAP_BAD_BYTE
	BadWord       Fault = C.BPFTAP_BAD_WORD
	BadNumber     Fault = C.BPFTAP_BAD_NUMBER
	Syntax        Fault = C.BPFTAP_SYNTAX
	NoQualifier   Fault = C.BPFTAP_NO_QUALIFIER
	BadQualifier  Fault = C.BPFTAP_BAD_QUALIFIER
	BadIdentifier Fault = C.BPFTAP_BAD_IDENTIFIER
	NetBits       Fault = C.BPFTAP_NET_BITS
	OutOfRange    Fault = C.BPFTAP_OUT_OF_RANGE
	DivideByZero  Fault = C.BPFTAP_DIVIDE_BY_ZERO
	TooNested     Fault = C.BPFTAP_TOO_NESTED
	TooLong       Fault = C.BPFTAP_TOO_LONG
	TooDeep       Fault = C.BPFTAP_TOO_DEEP
	BadSnap       Fault = C.BPFTAP_BAD_SNAP
	ShortHeader   Fault = C.BPFTAP_SHORT_HEADER
	NotSavefile   Fault = C.BPFTAP_NOT_SAVEFILE
	BadVersion    Fault = C.BPFTAP_VERSION
	LinkType      Fault = C.BPFTAP_LINK_TYPE
	TornRecord    Fault = C.BPFTAP_TORN_RECORD
	BadFraction   Fault = C.BPFTAP_BAD_FRACTION
	RecordTooLong Fault = C.BPFTAP_RECORD_TOO_LONG
	CountFull     Fault = C.BPFTAP_COUNT_FULL
)

// Error is the name of the fault. It is the one that the program prints, but for RecordTooLong, where the program prints TooLong.
func (f Fault) Error() string {
	text, _ := text(64, func(to *C.char, room C.size_t) C.struct_bpftap_result {
		return C.bpftap_fault_text(C.uint32_t(f), 0, to, room)
	})
	name, _, _ := strings.Cut(text, " ")
	return name
}

// An Error is a fault and its place: a byte of an expression, an instruction, a line of a listing, or a record, as docs/FAULTS.md says of
// each fault.
type Error struct {
	Fault Fault
	Place uint64
	// Number says which expression Compare refused, 1 or 2; else it is 0.
	Number int
	// Hint is what helps to fix an expression, a line or two, as the program prints them below the fault; "" if there is nothing to say.
	Hint string
}

// Error is the name of the fault, and its place if it has one, as "BadWord 5". It is what the program prints, but for RecordTooLong, where the
// program prints TooLong.
func (e *Error) Error() string {
	line, _ := text(64, func(to *C.char, room C.size_t) C.struct_bpftap_result {
		return C.bpftap_fault_text(C.uint32_t(e.Fault), C.size_t(e.Place), to, room)
	})
	return line
}

// Unwrap is the fault, so that errors.Is finds it.
func (e *Error) Unwrap() error { return e.Fault }

// errorOf is the error of a call, or nil.
func errorOf(fault C.uint32_t, place uint64) error {
	if fault == C.BPFTAP_OK {
		return nil
	}
	return &Error{Fault: Fault(fault), Place: place}
}

// refusalOf is the error of a call that read an expression, with its hint, or nil.
func refusalOf(fault C.uint32_t, place C.size_t, expression string) error {
	if fault == C.BPFTAP_OK {
		return nil
	}
	code, size := textOf(expression)
	hint, _ := text(1024, func(to *C.char, room C.size_t) C.struct_bpftap_result {
		return C.calls_hint(code, size, fault, place, to, room)
	})
	return &Error{Fault: Fault(fault), Place: uint64(place), Hint: hint}
}

// text is what a call writes; it is called again where the room was too small.
func text(room int, call func(to *C.char, room C.size_t) C.struct_bpftap_result) (string, error) {
	for {
		to := make([]byte, room)
		result := call((*C.char)(unsafe.Pointer(&to[0])), C.size_t(room))
		if result.fault == C.BPFTAP_NO_ROOM {
			room = int(result.size) + 1
			continue
		}
		if err := errorOf(result.fault, uint64(result.place)); err != nil {
			return "", err
		}
		return string(to[:result.size]), nil
	}
}

// nothing stands for the bytes of what has none: a pointer for C that is not nil.
var nothing [8]byte

func bytesOf(bytes []byte) *C.uint8_t {
	if len(bytes) == 0 {
		bytes = nothing[:]
	}
	return (*C.uint8_t)(unsafe.Pointer(&bytes[0]))
}

// textOf is the text in memory that C may read, and its length.
func textOf(text string) (*C.char, C.size_t) {
	return (*C.char)(unsafe.Pointer(bytesOf([]byte(text)))), C.size_t(len(text))
}

// Version is the version of the C library: three numbers with dots between them.
func Version() string {
	line, _ := text(64, func(to *C.char, room C.size_t) C.struct_bpftap_result { return C.bpftap_version(to, room) })
	version, _, _ := strings.Cut(line, " ")
	return version
}

// SPDX-License-Identifier: MIT OR Apache-2.0

package bpftap

// #include "calls.h"
import "C"

// A Sameness is what is decided of two expressions, over all packets that there can be.
type Sameness int

const (
	// Same: both accept the same packets, of every captured length and every length on the wire.
	Same Sameness = C.BPFTAP_SAME
	// SameAsCaptured: so it is of packets of which no more bytes were captured than were on the wire.
	SameAsCaptured Sameness = C.BPFTAP_SAME_AS_CAPTURED
	// Short: they differ only where one aborts: one accepts the packet, which is too short for the other; of packets of which no more bytes
	// were captured than were on the wire, none gets Yes from one and No from the other.
	Short Sameness = C.BPFTAP_SHORT
	// Differ: one answers Yes to a packet, and the other No.
	Differ Sameness = C.BPFTAP_DIFFER
	// NotDecided: nothing is claimed.
	NotDecided Sameness = C.BPFTAP_NOT_DECIDED
)

func (s Sameness) String() string {
	return [...]string{"Same", "SameAsCaptured", "Short", "Differ", "NotDecided"}[s]
}

// A Cause is why nothing is claimed.
type Cause int

const (
	// Graphs: the decision graphs differ, and no packet was found that shows how the expressions do.
	Graphs Cause = C.BPFTAP_GRAPHS
	// Budget: the budget is spent, and nothing of Product, Quotient and Load stands in the expressions.
	Budget Cause = C.BPFTAP_BUDGET
	// Relation: no call returns it since 2.3.0.
	Relation Cause = C.BPFTAP_RELATION
	// Product: the budget is spent, and an expression has a product of two values that are no constants.
	Product Cause = C.BPFTAP_PRODUCT
	// Quotient: the budget is spent, and an expression has a quotient or a remainder by a value that is no constant.
	Quotient Cause = C.BPFTAP_QUOTIENT
	// Load: the budget is spent, and an expression has bytes at an index that is no constant.
	Load Cause = C.BPFTAP_LOAD
	// Far: a byte may be looked at that is 131,072 bytes or more from the first one.
	Far Cause = C.BPFTAP_FAR
	// Levels: an expression has too many levels.
	Levels Cause = C.BPFTAP_LEVELS
)

// A Comparison is what is decided of two expressions. Of Short and Differ it has a packet that shows the difference, of NotDecided a cause.
type Comparison struct {
	Answer Sameness
	Cause  Cause
	Packet []byte
	Wire   uint32
}

// DefaultBudget is what bpftap compare takes.
const DefaultBudget = 2000000

// Compare decides for every packet that there can be whether two expressions accept it alike. The budget bounds the decision graphs, and so
// the memory and the time. An Error has the number of the expression that is refused.
func Compare(first, second string, budget uint64) (Comparison, error) {
	one, oneSize := textOf(first)
	other, otherSize := textOf(second)
	for room := 1514; ; {
		to := make([]byte, room)
		found := C.calls_compare(one, oneSize, other, otherSize, C.size_t(budget), bytesOf(to), C.size_t(room))
		if found.fault == C.BPFTAP_NO_ROOM {
			room = int(found.size)
			continue
		}
		if found.fault != C.BPFTAP_OK {
			failed := refusalOf(found.fault, found.place, [2]string{first, second}[found.number]).(*Error)
			if failed.Fault != NoMemory {
				failed.Number = int(found.number) + 1
			}
			return Comparison{Answer: NotDecided}, failed
		}
		made := Comparison{Answer: Sameness(found.answer), Cause: Cause(found.cause)}
		if made.Answer == Short || made.Answer == Differ {
			made.Packet, made.Wire = to[:found.size], uint32(found.wire)
		}
		return made, nil
	}
}

// SPDX-License-Identifier: MIT OR Apache-2.0
//! What `bpftap.h` declares, as far as it is used.
use crate::{Look, Span};

pub const NO_ROOM: u32 = 2;
pub const END: u32 = 4;
pub const NO_CELL: u32 = 16;

/// An instruction: `struct bpf_insn` of bpf(4), `struct sock_filter` of Linux.
///
/// ```
/// let filter = bpftap::Filter::from_listing("1\n6 0 0 96\n")?;
/// assert_eq!(filter.program(), [bpftap::Insn { code: 6, jt: 0, jf: 0, k: 96 }]);
/// # Ok::<(), bpftap::Error>(())
/// ```
#[repr(C)]
#[derive(Clone, Copy, Debug, Default, PartialEq, Eq)]
pub struct Insn {
    /// What it does.
    pub code: u16,
    /// How many instructions a jump skips if its condition holds.
    pub jt: u8,
    /// How many it skips else.
    pub jf: u8,
    /// Its number.
    pub k: u32,
}

#[repr(C)]
pub struct Packet {
    pub bytes: *const u8,
    pub captured: usize,
    pub wire: u32,
}

#[repr(C)]
pub struct Capture {
    pub bytes: *const u8,
    pub size: usize,
}

#[repr(C)]
pub struct Replay {
    pub fault: u32,
    pub number: u32,
    pub size: usize,
    pub place: usize,
}

#[repr(C)]
pub struct Result {
    pub fault: u32,
    pub size: usize,
    pub place: usize,
}

#[repr(C)]
pub struct Reason {
    pub fault: u32,
    pub verdict: u32,
    pub size: usize,
    pub place: usize,
}

#[repr(C)]
pub struct Traced {
    pub fault: u32,
    pub answer: u32,
    pub size: usize,
    pub place: usize,
}

#[repr(C)]
#[derive(Clone, Copy, Default)]
pub struct Executed {
    pub place: usize,
    pub accumulator: u32,
    pub index: u32,
    pub cell: u32,
    pub value: u32,
}

#[repr(C)]
pub struct Comparison {
    pub fault: u32,
    pub number: u32,
    pub answer: u32,
    pub cause: u32,
    pub wire: u32,
    pub size: usize,
    pub place: usize,
}

#[repr(C)]
#[derive(Clone, Debug)]
pub struct Reader {
    pub offset: usize,
    pub place: u64,
    pub fault: u32,
    pub order: u32,
    pub unit: u32,
    pub snap: u32,
}

#[repr(C)]
#[derive(Default)]
pub struct Record {
    pub offset: usize,
    pub place: u64,
    pub fault: u32,
    pub seconds: u32,
    pub nanos: u32,
    pub captured: u32,
    pub wire: u32,
}

#[repr(C)]
pub struct Buffer {
    pub bytes: *mut u8,
    pub room: usize,
    pub size: usize,
}

#[repr(C)]
pub struct Listener {
    pub store: Buffer,
    pub hold: Buffer,
    pub received: u64,
    pub matched: u64,
    pub dropped: u64,
    pub snap: u32,
    pub mode: u32,
    pub closed: u32,
}

#[repr(C)]
pub struct Message {
    pub offset: usize,
    pub place: u64,
    pub fault: u32,
    pub capture: u32,
    pub seconds: u32,
    pub nanos: u32,
    pub captured: u32,
    pub wire: u32,
}

extern "C" {
    pub fn bpftap_compile(text: *const u8, text_size: usize, snap: u32, insns: *mut Insn, room: usize) -> Result;
    pub fn bpftap_check(insns: *const Insn, size: usize) -> Result;
    pub fn bpftap_read_listing(text: *const u8, text_size: usize, insns: *mut Insn, room: usize) -> Result;
    pub fn bpftap_write_listing(insns: *const Insn, size: usize, to: *mut u8, room: usize) -> Result;
    pub fn bpftap_print(text: *const u8, text_size: usize, to: *mut u8, room: usize) -> Result;
    pub fn bpftap_image(insns: *const Insn, size: usize, to: *mut u8, room: usize) -> Result;
    pub fn bpftap_program_size() -> usize;
    pub fn bpftap_program_init(program: *mut u8, insns: *const Insn, size: usize) -> u32;
    pub fn bpftap_program_run(program: *const u8, packet: *const u8, captured: usize, wire: u32) -> u32;
    pub fn bpftap_program_run_each(program: *const u8, packets: *const Packet, count: usize, answers: *mut u32, room: usize) -> Result;
    pub fn bpftap_program_run_spans(
        program: *const u8, memory: *const u8, memory_size: usize, spans: *const Span, count: usize, answers: *mut u32, room: usize,
    ) -> Result;
    pub fn bpftap_trace(
        insns: *const Insn, size: usize, packet: *const u8, captured: usize, wire: u32, to: *mut Executed, room: usize,
    ) -> Traced;
    pub fn bpftap_looks(text: *const u8, text_size: usize, packet: *const u8, captured: usize, wire: u32, to: *mut Look, room: usize) -> Result;
    pub fn bpftap_why(text: *const u8, text_size: usize, packet: *const u8, captured: usize, wire: u32, to: *mut u8, room: usize) -> Reason;
    pub fn bpftap_compare(
        first: *const u8, first_size: usize, second: *const u8, second_size: usize, budget: usize, to: *mut u8, room: usize,
    ) -> Comparison;
    pub fn bpftap_open(memory: *const u8, size: usize) -> Reader;
    pub fn bpftap_next(memory: *const u8, size: usize, reader: &mut Reader) -> Record;
    pub fn bpftap_spans(memory: *const u8, memory_size: usize, reader: &mut Reader, spans: *mut Span, room: usize) -> Result;
    pub fn bpftap_put_header(order: u32, unit: u32, snap: u32, to: *mut u8, room: usize) -> Result;
    pub fn bpftap_put(order: u32, unit: u32, packet: &Record, bytes: *const u8, captured: usize, to: *mut u8, room: usize) -> Result;
    pub fn bpftap_cut(capture: *const u8, capture_size: usize, insns: *const Insn, size: usize, snap: u32, to: *mut u8, room: usize) -> Result;
    pub fn bpftap_steps(
        listeners: *const u8, listeners_size: usize, script: *const u8, script_size: usize, captures: *const Capture, count: usize, to: *mut u8,
        room: usize,
    ) -> Replay;
    pub fn bpftap_steps_json(
        listeners: *const u8, listeners_size: usize, script: *const u8, script_size: usize, captures: *const Capture, count: usize, to: *mut u8,
        room: usize,
    ) -> Replay;
    pub fn bpftap_steps_answers(
        listeners: *const u8, listeners_size: usize, script: *const u8, script_size: usize, captures: *const Capture, count: usize, to: *mut u8,
        room: usize,
    ) -> Replay;
    pub fn bpftap_steps_answers_json(
        listeners: *const u8, listeners_size: usize, script: *const u8, script_size: usize, captures: *const Capture, count: usize, to: *mut u8,
        room: usize,
    ) -> Replay;
    pub fn bpftap_picture(
        listeners: *const u8, listeners_size: usize, script: *const u8, script_size: usize, captures: *const Capture, count: usize, to: *mut u8,
        room: usize,
    ) -> Replay;
    pub fn bpftap_version(to: *mut u8, room: usize) -> Result;
    pub fn bpftap_listener_open(listener: &mut Listener) -> u32;
    pub fn bpftap_listener_arrive(listener: &mut Listener, answer: u32, capture: u32, packet: &Record, bytes: *const u8, captured: usize) -> u32;
    pub fn bpftap_listener_flush(listener: &mut Listener) -> bool;
    pub fn bpftap_listener_read(listener: &mut Listener, batch: &mut Buffer) -> Result;
    pub fn bpftap_listener_close(listener: &mut Listener);
    pub fn bpftap_listener_next(batch: &Buffer, at: &mut usize) -> Message;
    pub fn bpftap_hint(text: *const u8, text_size: usize, fault: u32, place: usize, to: *mut u8, room: usize) -> Result;
    pub fn bpftap_fault_text(fault: u32, place: usize, to: *mut u8, room: usize) -> Result;
}

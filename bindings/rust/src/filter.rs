// SPDX-License-Identifier: MIT OR Apache-2.0
//! Filters.
use std::fmt;

use crate::stack::reading;
use crate::{ffi, text, Error, Fault, Insn, Packet, MAX_SNAP};

/// The most instructions of a program.
const MAX_INSNS: usize = 512;

/// What an expression answers to a packet.
///
/// ```
/// use bpftap::{Filter, Verdict};
///
/// let (verdict, part) = Filter::new("ip and tcp port 80")?.decide(&[0; 60], 60)?;
/// assert_eq!((verdict, part.as_str()), (Verdict::No, "ip"));
/// # Ok::<(), bpftap::Error>(())
/// ```
#[derive(Clone, Copy, Debug, PartialEq, Eq, Hash)]
pub enum Verdict {
    /// It rejects the packet.
    No,
    /// It accepts the packet.
    Yes,
    /// A byte past the captured ones was wanted, or a divisor was 0. A filter rejects the packet then.
    Abort,
}

/// A packet that lies in a memory: `captured` bytes from byte `offset` on. Bytes past the memory are not captured.
///
/// ```
/// use bpftap::{Filter, Span};
///
/// let spans = [Span { offset: 0, captured: 60, wire: 60 }, Span { offset: 60, captured: 60, wire: 1500 }];
/// assert_eq!(Filter::with_snap("len > 1000", 96)?.run_spans(&[0; 120], &spans), [0, 96]);
/// # Ok::<(), bpftap::Error>(())
/// ```
#[repr(C)]
#[derive(Clone, Copy, Debug, Default, PartialEq, Eq)]
pub struct Span {
    /// Where its captured bytes begin.
    pub offset: u64,
    /// How many there are.
    pub captured: u32,
    /// Its length on the wire.
    pub wire: u32,
}

/// An instruction that was executed, and what the machine holds after it. [`Filter::trace`] has an example.
#[derive(Clone, Copy, Debug, PartialEq, Eq)]
pub struct Executed {
    /// The instruction, counted from 0.
    pub place: usize,
    /// The accumulator.
    pub accumulator: u32,
    /// The index register.
    pub index: u32,
    /// The cell of scratch memory that it stored into, and what, if it stored.
    pub stored: Option<(u32, u32)>,
}

/// What a test looked at: `size` bytes of the frame from byte `offset` on, captured or not; or, if both are 0, the length on the wire.
/// [`Filter::looks`] has an example.
#[repr(C)]
#[derive(Clone, Copy, Debug, Default, PartialEq, Eq)]
pub struct Look {
    /// Where the bytes begin.
    pub offset: usize,
    /// How many there are.
    pub size: usize,
}

/// A part of a program's memory, which is aligned as the library wants it.
#[repr(align(16))]
#[derive(Clone, Copy)]
struct Block(#[allow(dead_code)] [u8; 16]);

/// A filter: an expression that was compiled, or a program that was handed in.
///
/// Threads may share a filter, since a run only reads it: it is `Send` and `Sync`. A clone has memory of its own.
///
/// ```
/// let tcp = bpftap::Filter::new("tcp port 80")?;
/// assert!(!tcp.matches(&[0; 60], 60));
/// assert_eq!(tcp.why(&[0; 60], 60)?, "No tcp port 80");
/// # Ok::<(), bpftap::Error>(())
/// ```
pub struct Filter {
    expression: Option<String>,
    insns: Vec<Insn>,
    // What the library puts there stays where it is: the memory of a box does not move.
    program: Box<[Block]>,
}

/// Instructions that a call writes.
fn insns_of(call: impl FnOnce(*mut Insn, usize) -> ffi::Result) -> Result<Vec<Insn>, Error> {
    let mut insns = vec![Insn::default(); MAX_INSNS];
    let made = call(insns.as_mut_ptr(), MAX_INSNS);
    Error::check(made.fault, made.place as u64)?;
    insns.truncate(made.size);
    Ok(insns)
}

/// Whether instructions are a program.
///
/// ```
/// use bpftap::{Fault, Insn};
///
/// assert!(bpftap::check(&[Insn { code: 6, jt: 0, jf: 0, k: 96 }]).is_ok());
/// assert_eq!(bpftap::check(&[]).unwrap_err().fault, Fault::Empty);
/// ```
pub fn check(insns: &[Insn]) -> Result<(), Error> {
    let checked = unsafe { ffi::bpftap_check(insns.as_ptr(), insns.len()) };
    Error::check(checked.fault, checked.place as u64)
}

impl Filter {
    /// Compiles an expression; the filter keeps whole packets.
    ///
    /// ```
    /// assert!(bpftap::Filter::new("len < 100")?.matches(&[], 60));
    /// # Ok::<(), bpftap::Error>(())
    /// ```
    pub fn new(expression: &str) -> Result<Filter, Error> {
        Filter::with_snap(expression, MAX_SNAP)
    }

    /// Compiles an expression; the filter keeps at most `snap` bytes of a packet, from 1 to [`MAX_SNAP`].
    ///
    /// ```
    /// assert_eq!(bpftap::Filter::with_snap("len < 100", 96)?.run(&[], 60), 96);
    /// # Ok::<(), bpftap::Error>(())
    /// ```
    pub fn with_snap(expression: &str, snap: u32) -> Result<Filter, Error> {
        let insns = reading(expression, || {
            insns_of(|insns, room| unsafe { ffi::bpftap_compile(expression.as_ptr(), expression.len(), snap, insns, room) })
        })?;
        Ok(Filter { expression: Some(expression.to_owned()), ..Filter::from_insns(&insns)? })
    }

    /// Takes a program in the form of `tcpdump -ddd`.
    ///
    /// ```
    /// let filter = bpftap::Filter::from_listing("1\n6 0 0 96\n")?;
    /// assert_eq!(filter.run(&[0; 200], 200), 96);
    /// # Ok::<(), bpftap::Error>(())
    /// ```
    pub fn from_listing(listing: &str) -> Result<Filter, Error> {
        Filter::from_insns(&insns_of(|insns, room| unsafe { ffi::bpftap_read_listing(listing.as_ptr(), listing.len(), insns, room) })?)
    }

    /// Takes a program as instructions.
    ///
    /// ```
    /// use bpftap::{Filter, Insn};
    ///
    /// let filter = Filter::from_insns(&[Insn { code: 6, jt: 0, jf: 0, k: 96 }])?;
    /// assert_eq!(filter.listing()?, "1\n6 0 0 96\n");
    /// # Ok::<(), bpftap::Error>(())
    /// ```
    pub fn from_insns(insns: &[Insn]) -> Result<Filter, Error> {
        check(insns)?;
        let mut program = vec![Block([0; 16]); unsafe { ffi::bpftap_program_size() } / 16 + 1].into_boxed_slice();
        let fault = unsafe { ffi::bpftap_program_init(program.as_mut_ptr().cast(), insns.as_ptr(), insns.len()) };
        Error::check(fault, 0)?;
        Ok(Filter { expression: None, insns: insns.to_vec(), program })
    }

    /// How many bytes of a packet are kept, 0 if it is rejected. `wire` is its length on the wire.
    pub fn run(&self, packet: &[u8], wire: u32) -> u32 {
        unsafe { ffi::bpftap_program_run(self.program.as_ptr().cast(), packet.as_ptr(), packet.len(), wire) }
    }

    /// Whether a packet is accepted.
    pub fn matches(&self, packet: &[u8], wire: u32) -> bool {
        self.run(packet, wire) != 0
    }

    /// What the filter answers to each packet, in one call.
    ///
    /// ```
    /// use bpftap::{Filter, Packet};
    ///
    /// let packets = [60, 1500].map(|wire| Packet { data: &[0; 60], wire, seconds: 0, nanos: 0 });
    /// assert_eq!(Filter::with_snap("len > 1000", 96)?.run_each(&packets), [0, 96]);
    /// # Ok::<(), bpftap::Error>(())
    /// ```
    pub fn run_each(&self, packets: &[Packet<'_>]) -> Vec<u32> {
        let given: Vec<_> =
            packets.iter().map(|packet| ffi::Packet { bytes: packet.data.as_ptr(), captured: packet.data.len(), wire: packet.wire }).collect();
        let mut answers = vec![0; packets.len()];
        let (program, count) = (self.program.as_ptr().cast(), given.len());
        unsafe { ffi::bpftap_program_run_each(program, given.as_ptr(), count, answers.as_mut_ptr(), count) };
        answers
    }

    /// What the filter answers to each packet of a memory, in one call. [`Packets::spans`](crate::Packets::spans) are those of a capture.
    pub fn run_spans(&self, memory: &[u8], spans: &[Span]) -> Vec<u32> {
        let mut answers = vec![0; spans.len()];
        let (program, count) = (self.program.as_ptr().cast(), spans.len());
        unsafe { ffi::bpftap_program_run_spans(program, memory.as_ptr(), memory.len(), spans.as_ptr(), count, answers.as_mut_ptr(), count) };
        answers
    }

    /// The expression, or `NotText` of a program that has none.
    fn text(&self) -> Result<&str, Error> {
        self.expression().ok_or(Error { fault: Fault::NotText, place: 0, number: None })
    }

    /// What the expression answers to a packet and what decides, as `No tcp port 80`. Of a program without an expression it is `NotText`.
    pub fn why(&self, packet: &[u8], wire: u32) -> Result<String, Error> {
        let expression = self.text()?;
        reading(expression, || {
            text(|to, room| {
                let (data, captured) = (packet.as_ptr(), packet.len());
                let reason = unsafe { ffi::bpftap_why(expression.as_ptr(), expression.len(), data, captured, wire, to, room) };
                ffi::Result { fault: reason.fault, size: reason.size, place: reason.place }
            })
        })
    }

    /// The same as an answer, and the primitive or relation that decides.
    pub fn decide(&self, packet: &[u8], wire: u32) -> Result<(Verdict, String), Error> {
        let line = self.why(packet, wire)?;
        let (answer, part) = line.split_once(' ').unwrap_or((&line, ""));
        let verdict = match answer {
            "Yes" => Verdict::Yes,
            "Abort" => Verdict::Abort,
            _ => Verdict::No,
        };
        Ok((verdict, part.to_owned()))
    }

    /// Which instructions a run over a packet executes, in order.
    ///
    /// ```
    /// use bpftap::{Executed, Filter};
    ///
    /// let traced = Filter::from_listing("2\n0 0 0 7\n22 0 0 0\n")?.trace(&[], 0)?;
    /// assert_eq!(traced[0], Executed { place: 0, accumulator: 7, index: 0, stored: None });
    /// # Ok::<(), bpftap::Error>(())
    /// ```
    pub fn trace(&self, packet: &[u8], wire: u32) -> Result<Vec<Executed>, Error> {
        let mut to = [ffi::Executed::default(); MAX_INSNS];
        let (insns, size, data) = (self.insns.as_ptr(), self.insns.len(), packet.as_ptr());
        let traced = unsafe { ffi::bpftap_trace(insns, size, data, packet.len(), wire, to.as_mut_ptr(), MAX_INSNS) };
        Error::check(traced.fault, traced.place as u64)?;
        let stored = |one: &ffi::Executed| Some((one.cell, one.value)).filter(|_| one.cell != ffi::NO_CELL);
        let executed = |one: &ffi::Executed| Executed { place: one.place, accumulator: one.accumulator, index: one.index, stored: stored(one) };
        Ok(to[..traced.size].iter().map(executed).collect())
    }

    /// What the expression looks at of a packet: what each primitive or relation does that is asked, from left to right. Of a program without
    /// an expression it is `NotText`.
    ///
    /// ```
    /// use bpftap::{Filter, Look};
    ///
    /// assert_eq!(Filter::new("ether proto 0x800")?.looks(&[0; 60], 60)?, [Look { offset: 12, size: 2 }]);
    /// # Ok::<(), bpftap::Error>(())
    /// ```
    pub fn looks(&self, packet: &[u8], wire: u32) -> Result<Vec<Look>, Error> {
        let expression = self.text()?;
        reading(expression, || {
            let mut to = vec![Look::default(); 64];
            loop {
                let (text, size, data, captured) = (expression.as_ptr(), expression.len(), packet.as_ptr(), packet.len());
                let made = unsafe { ffi::bpftap_looks(text, size, data, captured, wire, to.as_mut_ptr(), to.len()) };
                if made.fault == ffi::NO_ROOM {
                    to.resize(made.size, Look::default());
                    continue;
                }
                Error::check(made.fault, made.place as u64)?;
                to.truncate(made.size);
                return Ok(to);
            }
        })
    }

    /// The expression that was compiled, if the filter is of one.
    pub fn expression(&self) -> Option<&str> {
        self.expression.as_deref()
    }

    /// The expression in its canonical form, which shows how it was read. Of a program without an expression it is `NotText`.
    ///
    /// ```
    /// let filter = bpftap::Filter::new("tcp dst port 80 or 443")?;
    /// assert_eq!(filter.canonical()?, "tcp dst port 80 or tcp dst port 443");
    /// # Ok::<(), bpftap::Error>(())
    /// ```
    pub fn canonical(&self) -> Result<String, Error> {
        let expression = self.text()?;
        reading(expression, || text(|to, room| unsafe { ffi::bpftap_print(expression.as_ptr(), expression.len(), to, room) }))
    }

    /// The instructions.
    pub fn program(&self) -> &[Insn] {
        &self.insns
    }

    /// The program in the form of `tcpdump -ddd`.
    pub fn listing(&self) -> Result<String, Error> {
        text(|to, room| unsafe { ffi::bpftap_write_listing(self.insns.as_ptr(), self.insns.len(), to, room) })
    }

    /// The program by the names of its instructions, as `tcpdump -d` prints it.
    ///
    /// ```
    /// assert_eq!(bpftap::Filter::with_snap("", 96)?.image()?, "(000) ret      #96\n");
    /// # Ok::<(), bpftap::Error>(())
    /// ```
    pub fn image(&self) -> Result<String, Error> {
        text(|to, room| unsafe { ffi::bpftap_image(self.insns.as_ptr(), self.insns.len(), to, room) })
    }
}

impl Clone for Filter {
    fn clone(&self) -> Filter {
        let made = Filter::from_insns(&self.insns).expect("these are the instructions of a program");
        Filter { expression: self.expression.clone(), ..made }
    }
}

impl fmt::Debug for Filter {
    fn fmt(&self, f: &mut fmt::Formatter<'_>) -> fmt::Result {
        match &self.expression {
            Some(expression) => f.debug_tuple("Filter").field(expression).finish(),
            None => f.debug_tuple("Filter").field(&self.insns).finish(),
        }
    }
}

impl std::str::FromStr for Filter {
    type Err = Error;

    fn from_str(expression: &str) -> Result<Filter, Error> {
        Filter::new(expression)
    }
}

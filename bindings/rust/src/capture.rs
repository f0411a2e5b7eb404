// SPDX-License-Identifier: MIT OR Apache-2.0
//! Captures: pcap files of Ethernet frames.
use std::{fmt, io};

use crate::{ffi, Error, Fault, Filter, Span, MAX_SNAP};

/// A packet of a capture.
///
/// ```
/// let packet = bpftap::Packet { data: &[0; 60], wire: 1500, seconds: 0, nanos: 0 };
/// assert!(bpftap::Filter::new("len > 1000")?.matches(packet.data, packet.wire));
/// # Ok::<(), bpftap::Error>(())
/// ```
#[derive(Clone, Copy, Debug, PartialEq, Eq)]
pub struct Packet<'a> {
    /// Its captured bytes.
    pub data: &'a [u8],
    /// Its length on the wire.
    pub wire: u32,
    /// When it was captured: seconds since 1970.
    pub seconds: u32,
    /// Below 1,000,000,000.
    pub nanos: u32,
}

/// How a capture is written. The default is little-endian, with microseconds, and the longest snapshot length.
///
/// ```
/// let form = bpftap::Form { nanoseconds: true, ..Default::default() };
/// assert_eq!((form.big_endian, form.snap), (false, bpftap::MAX_SNAP));
/// ```
#[derive(Clone, Copy, Debug, PartialEq, Eq)]
pub struct Form {
    /// Whether its numbers are big-endian.
    pub big_endian: bool,
    /// Whether times are in nanoseconds, and not in microseconds.
    pub nanoseconds: bool,
    /// The snapshot length of the header.
    pub snap: u32,
}

impl Default for Form {
    fn default() -> Form {
        Form { big_endian: false, nanoseconds: false, snap: MAX_SNAP }
    }
}

/// The packets of a capture in memory. A torn or bad record is the last item, an error.
///
/// ```
/// use bpftap::{Form, Packet, Packets, Writer};
///
/// let mut capture = Writer::new(Vec::new(), Form::default())?;
/// capture.write(&Packet { data: &[0; 60], wire: 60, seconds: 1, nanos: 0 })?;
/// let capture = capture.into_inner();
/// assert_eq!(Packets::new(&capture)?.count(), 1);
///
/// let mut torn = Packets::new(&capture[..50])?;
/// assert_eq!(torn.next().unwrap().unwrap_err().to_string(), "TornRecord 0");
/// assert!(torn.next().is_none());
/// # Ok::<(), std::io::Error>(())
/// ```
#[derive(Clone, Debug)]
pub struct Packets<'a> {
    memory: &'a [u8],
    reader: ffi::Reader,
    failed: bool,
}

impl<'a> Packets<'a> {
    /// Reads the header of a capture.
    pub fn new(memory: &'a [u8]) -> Result<Packets<'a>, Error> {
        let reader = unsafe { ffi::bpftap_open(memory.as_ptr(), memory.len()) };
        Error::check(reader.fault, 0)?;
        Ok(Packets { memory, reader, failed: false })
    }

    /// What the header says.
    pub fn form(&self) -> Form {
        Form { big_endian: self.reader.order != 0, nanoseconds: self.reader.unit != 0, snap: self.reader.snap }
    }

    /// The snapshot length that the header says.
    pub fn snap(&self) -> u32 {
        self.reader.snap
    }

    /// Where the packets that are left lie, for [`Filter::run_spans`] over the same memory. If a torn or bad record ends the capture, its error is
    /// returned, without the spans before it: iterate over the packets to have those.
    ///
    /// ```
    /// # let mut capture = bpftap::Writer::new(Vec::new(), Default::default())?;
    /// # capture.write(&bpftap::Packet { data: &[0; 60], wire: 60, seconds: 1, nanos: 0 })?;
    /// # let capture = capture.into_inner();
    /// let spans = bpftap::Packets::new(&capture)?.spans()?;
    /// assert_eq!(bpftap::Filter::with_snap("len = 60", 96)?.run_spans(&capture, &spans), [96]);
    /// # Ok::<(), std::io::Error>(())
    /// ```
    pub fn spans(mut self) -> Result<Vec<Span>, Error> {
        let (mut spans, mut part) = (Vec::new(), [Span::default(); 1024]);
        while !self.failed {
            let (memory, size) = (self.memory.as_ptr(), self.memory.len());
            let found = unsafe { ffi::bpftap_spans(memory, size, &mut self.reader, part.as_mut_ptr(), part.len()) };
            spans.extend_from_slice(&part[..found.size]);
            match found.fault {
                0 => (),
                ffi::END => break,
                fault => return Err(Error { fault: Fault::of(fault), place: found.place as u64, number: None }),
            }
        }
        Ok(spans)
    }
}

impl<'a> Iterator for Packets<'a> {
    type Item = Result<Packet<'a>, Error>;

    fn next(&mut self) -> Option<Self::Item> {
        if self.failed {
            return None;
        }
        let record = unsafe { ffi::bpftap_next(self.memory.as_ptr(), self.memory.len(), &mut self.reader) };
        match record.fault {
            0 => Some(Ok(Packet {
                data: &self.memory[record.offset..record.offset + record.captured as usize],
                wire: record.wire,
                seconds: record.seconds,
                nanos: record.nanos,
            })),
            ffi::END => None,
            fault => {
                self.failed = true;
                Some(Err(Error { fault: Fault::of(fault), place: record.place, number: None }))
            }
        }
    }
}

impl std::iter::FusedIterator for Packets<'_> {}

/// Writes a capture. An `io::Error` of the kind `InvalidData` has the [`Error`] of a packet that cannot be written.
///
/// ```
/// use bpftap::{Packet, Writer};
///
/// let mut capture = Writer::new(Vec::new(), Default::default())?;
/// capture.write(&Packet { data: &[0; 60], wire: 60, seconds: 1, nanos: 5000 })?;
/// assert_eq!(capture.into_inner().len(), 24 + 16 + 60);
/// # Ok::<(), std::io::Error>(())
/// ```
#[derive(Debug)]
pub struct Writer<W> {
    to: W,
    form: Form,
    place: u64,
    room: Vec<u8>,
}

impl<W: io::Write> Writer<W> {
    /// Writes the header.
    pub fn new(to: W, form: Form) -> io::Result<Writer<W>> {
        let mut made = Writer { to, form, place: 0, room: vec![0; 24] };
        let (order, unit) = made.numbers();
        let put = unsafe { ffi::bpftap_put_header(order, unit, form.snap, made.room.as_mut_ptr(), 24) };
        made.put(put)?;
        Ok(made)
    }

    fn numbers(&self) -> (u32, u32) {
        (self.form.big_endian as u32, self.form.nanoseconds as u32)
    }

    /// Writes what a call has put.
    fn put(&mut self, put: ffi::Result) -> io::Result<()> {
        Error::check(put.fault, put.place as u64)?;
        self.to.write_all(&self.room[..put.size])
    }

    /// Writes a packet. With microseconds the rest of its nanoseconds is dropped. If they are a second or more it is `BadFraction`, and of more
    /// than [`MAX_SNAP`] bytes `RecordTooLong`; nothing is written then.
    pub fn write(&mut self, packet: &Packet<'_>) -> io::Result<()> {
        let (data, size) = (packet.data.as_ptr(), packet.data.len());
        self.room.resize(self.room.len().max(size + 16), 0);
        let record = ffi::Record { place: self.place, seconds: packet.seconds, nanos: packet.nanos, wire: packet.wire, ..Default::default() };
        let (order, unit) = self.numbers();
        let put = unsafe { ffi::bpftap_put(order, unit, &record, data, size, self.room.as_mut_ptr(), self.room.len()) };
        self.put(put)?;
        self.place += 1;
        Ok(())
    }

    /// What the capture was written to.
    pub fn into_inner(self) -> W {
        self.to
    }
}

/// A capture was not cut to its end.
#[derive(Clone, Debug, PartialEq, Eq)]
pub struct CutError {
    /// Why it was not.
    pub error: Error,
    /// The cut of the packets before a torn or bad record; empty if the header is refused.
    pub written: Vec<u8>,
}

impl fmt::Display for CutError {
    fn fmt(&self, f: &mut fmt::Formatter<'_>) -> fmt::Result {
        self.error.fmt(f)
    }
}

impl std::error::Error for CutError {}

/// The packets of a capture that a filter accepts, each with at most `snap` bytes (0: all that the filter keeps), as a capture in the same
/// form.
///
/// ```
/// # let mut capture = bpftap::Writer::new(Vec::new(), Default::default())?;
/// # for wire in [60, 1500] {
/// #     capture.write(&bpftap::Packet { data: &[0; 60], wire, seconds: 1, nanos: 0 })?;
/// # }
/// # let capture = capture.into_inner();
/// let long = bpftap::Filter::new("len > 1000").unwrap();
/// let written = bpftap::cut(&capture, &long, 20).unwrap();
/// assert_eq!(written.len(), 24 + 16 + 20);
/// assert_eq!(bpftap::cut(&capture[..170], &long, 20).unwrap_err().error.to_string(), "TornRecord 1");
/// # Ok::<(), std::io::Error>(())
/// ```
pub fn cut(capture: &[u8], filter: &Filter, snap: u32) -> Result<Vec<u8>, CutError> {
    let mut written = vec![0; capture.len()];
    let (insns, room) = (filter.program(), written.len());
    let made = unsafe {
        ffi::bpftap_cut(capture.as_ptr(), capture.len(), insns.as_ptr(), insns.len(), snap, written.as_mut_ptr(), room)
    };
    written.truncate(made.size);
    match Error::check(made.fault, made.place as u64) {
        Ok(()) => Ok(written),
        Err(error) => Err(CutError { error, written }),
    }
}

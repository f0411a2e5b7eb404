// SPDX-License-Identifier: MIT OR Apache-2.0
//! Listeners of a packet tap.
use std::fmt;

use crate::{ffi, Error, Filter, Packet};

/// The most bytes of a listener's buffer.
pub const MAX_CAPACITY: usize = 1_048_576;

/// When the store becomes the hold.
#[derive(Clone, Copy, Debug, Default, PartialEq, Eq)]
pub enum Mode {
    /// If a packet finds no room in the store, and by a flush.
    #[default]
    Buffered = 0,
    /// Also after each packet that is stored while the hold is empty.
    Immediate = 1,
}

/// What became of a packet that arrived.
#[derive(Clone, Copy, Debug, PartialEq, Eq)]
pub enum Fed {
    /// The filter rejected it.
    Passed,
    /// It is in the store.
    Stored,
    /// It is in the store, which became the hold: only with [`Mode::Immediate`].
    Held,
    /// The store became the hold, and it is in the new store.
    Rotated,
    /// It found no room.
    Dropped,
    /// The listener is closed.
    Closed,
}

/// A listener of a packet tap: it keeps the packets that a filter accepts in two buffers until they are read.
///
/// The store takes packets as they arrive, and the hold waits for its reader. If a packet finds no room in the store, the store becomes
/// the hold; if the hold still waits, the packet is dropped. It is `Send` and `Sync`: what changes it wants it alone.
///
/// ```
/// use bpftap::{Fed, Filter, Listener, Mode, Packet};
///
/// let mut tap = Listener::open(Filter::new("len < 100")?, 96, 128, Mode::Buffered)?;
/// let packet = Packet { data: &[0; 60], wire: 60, seconds: 0, nanos: 0 };
/// assert_eq!([0, 1, 2].map(|place| tap.arrive(0, place, &packet)), [Fed::Stored, Fed::Rotated, Fed::Dropped]);
/// assert_eq!(tap.read().map(|message| message.place).collect::<Vec<_>>(), [0]);
/// # Ok::<(), bpftap::Error>(())
/// ```
pub struct Listener {
    filter: Filter,
    tap: ffi::Listener,
    batch: ffi::Buffer,
    // The three buffers, which only the library reads and writes.
    _memory: Vec<u8>,
}

// The buffers belong to the listener alone, and what does not want it alone only reads numbers.
unsafe impl Send for Listener {}
unsafe impl Sync for Listener {}

impl Listener {
    /// Opens a listener. `snap` is the most bytes that are kept of a packet, and `capacity` the room of each buffer in bytes: a packet
    /// takes 32 and those that are kept of it, rounded up to a multiple of 8.
    pub fn open(filter: Filter, snap: u32, capacity: usize, mode: Mode) -> Result<Listener, Error> {
        let room = capacity.min(MAX_CAPACITY + 1);
        let mut memory = vec![0; 3 * room];
        let begin = memory.as_mut_ptr();
        let buffer = |number: usize| ffi::Buffer { bytes: begin.wrapping_add(number * room), room, size: 0 };
        let (store, hold, batch) = (buffer(0), buffer(1), buffer(2));
        let mut tap = ffi::Listener { store, hold, received: 0, matched: 0, dropped: 0, snap, mode: mode as u32, closed: 0 };
        Error::check(unsafe { ffi::bpftap_listener_open(&mut tap) }, 0)?;
        Ok(Listener { filter, tap, batch, _memory: memory })
    }

    /// A packet arrives. The number of its capture and its place there stay with it.
    pub fn arrive(&mut self, capture: u32, place: u64, packet: &Packet<'_>) -> Fed {
        let answer = self.filter.run(packet.data, packet.wire);
        let record = ffi::Record { place, seconds: packet.seconds, nanos: packet.nanos, wire: packet.wire, ..Default::default() };
        let (bytes, captured) = (packet.data.as_ptr(), packet.data.len());
        match unsafe { ffi::bpftap_listener_arrive(&mut self.tap, answer, capture, &record, bytes, captured) } {
            0 => Fed::Passed,
            1 => Fed::Stored,
            2 => Fed::Held,
            3 => Fed::Rotated,
            4 => Fed::Dropped,
            _ => Fed::Closed,
        }
    }

    /// Makes the store the hold if it has messages and the hold has none, and returns whether it did.
    pub fn flush(&mut self) -> bool {
        unsafe { ffi::bpftap_listener_flush(&mut self.tap) }
    }

    /// Takes the messages of the hold, oldest first. Nothing is copied.
    pub fn read(&mut self) -> Messages<'_> {
        unsafe { ffi::bpftap_listener_read(&mut self.tap, &mut self.batch) };
        Messages { batch: &self.batch, at: 0 }
    }

    /// From now on nothing changes, nothing is read, and packets that arrive are not counted.
    pub fn close(&mut self) {
        unsafe { ffi::bpftap_listener_close(&mut self.tap) }
    }

    /// The packets that arrived before it was closed.
    pub fn received(&self) -> u64 {
        self.tap.received
    }

    /// Those that the filter accepted.
    pub fn matched(&self) -> u64 {
        self.tap.matched
    }

    /// Those that the filter accepted and that found no room.
    pub fn dropped(&self) -> u64 {
        self.tap.dropped
    }
}

impl fmt::Debug for Listener {
    fn fmt(&self, f: &mut fmt::Formatter<'_>) -> fmt::Result {
        let mut shown = f.debug_struct("Listener");
        shown.field("filter", &self.filter).field("received", &self.received());
        shown.field("matched", &self.matched()).field("dropped", &self.dropped()).finish()
    }
}

/// What a listener kept of a packet.
#[derive(Clone, Copy, Debug, PartialEq, Eq)]
pub struct Message<'a> {
    /// Its first bytes, and its time and length on the wire.
    pub packet: Packet<'a>,
    /// The number of its capture.
    pub capture: u32,
    /// Its place there.
    pub place: u64,
}

/// The messages that were read.
#[derive(Clone)]
pub struct Messages<'a> {
    batch: &'a ffi::Buffer,
    at: usize,
}

impl<'a> Iterator for Messages<'a> {
    type Item = Message<'a>;

    fn next(&mut self) -> Option<Message<'a>> {
        let found = unsafe { ffi::bpftap_listener_next(self.batch, &mut self.at) };
        if found.fault != 0 {
            return None;
        }
        let data = unsafe { std::slice::from_raw_parts(self.batch.bytes.add(found.offset), found.captured as usize) };
        let packet = Packet { data, wire: found.wire, seconds: found.seconds, nanos: found.nanos };
        Some(Message { packet, capture: found.capture, place: found.place })
    }
}

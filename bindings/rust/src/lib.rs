#![doc = include_str!("../README.md")]
// SPDX-License-Identifier: MIT OR Apache-2.0
#![warn(missing_docs)]

mod capture;
mod comparison;
mod error;
mod ffi;
mod filter;
mod listener;
mod stack;
mod steps;

pub use capture::{cut, CutError, Form, Packet, Packets, Writer};
pub use comparison::{compare, Cause, Sameness, Witness};
pub use error::{Error, Fault};
pub use ffi::Insn;
pub use filter::{check, Executed, Filter, Look, Span, Verdict};
pub use listener::{Fed, Listener, Message, Messages, Mode, MAX_CAPACITY};
pub use steps::{picture, steps, steps_answers, steps_answers_json, steps_json, Replay};

/// The most captured bytes of a packet.
pub const MAX_SNAP: u32 = 262_144;

/// The text that a call writes; it is called again if the first room is too small.
fn text(call: impl Fn(*mut u8, usize) -> ffi::Result) -> Result<String, Error> {
    let mut text = vec![0; 256];
    loop {
        let result = call(text.as_mut_ptr(), text.len());
        if result.fault == ffi::NO_ROOM {
            text.resize(result.size + 1, 0);
            continue;
        }
        Error::check(result.fault, result.place as u64)?;
        text.truncate(result.size);
        return Ok(String::from_utf8_lossy(&text).into_owned());
    }
}

/// The version of the C library.
///
/// ```
/// assert_eq!(bpftap::version(), env!("CARGO_PKG_VERSION"));
/// ```
pub fn version() -> String {
    let line = text(|to, room| unsafe { ffi::bpftap_version(to, room) }).unwrap_or_default();
    line.split(' ').next().unwrap_or_default().to_owned()
}

// SPDX-License-Identifier: MIT OR Apache-2.0
//! Steps that are played to listeners over captures.
use crate::stack::deeply;
use crate::{ffi, Error, Fault};

/// The reports of steps. If a capture ended in a torn or bad record, the packets before it were played, and `fault` is its error.
#[derive(Clone, Debug, PartialEq, Eq)]
pub struct Replay {
    /// What `bpftap steps` prints.
    pub reports: String,
    /// The error of a torn or bad record, with the number of its capture.
    pub fault: Option<Error>,
}

type Call = unsafe extern "C" fn(*const u8, usize, *const u8, usize, *const ffi::Capture, usize, *mut u8, usize) -> ffi::Replay;

/// What a call writes, which is made again if the first room is too small.
fn play(call: Call, listeners: &str, script: &str, captures: &[&[u8]]) -> Result<Replay, Error> {
    deeply(|| {
        let given: Vec<_> = captures.iter().map(|capture| ffi::Capture { bytes: capture.as_ptr(), size: capture.len() }).collect();
        let (one, other) = ((listeners.as_ptr(), listeners.len()), (script.as_ptr(), script.len()));
        let mut text = vec![0; 4096];
        loop {
            let made = unsafe { call(one.0, one.1, other.0, other.1, given.as_ptr(), given.len(), text.as_mut_ptr(), text.len()) };
            if made.fault == ffi::NO_ROOM {
                text.resize(made.size + 1, 0);
                continue;
            }
            text.truncate(made.size);
            let reports = String::from_utf8_lossy(&text).into_owned();
            return match Error::check(made.fault, made.place as u64) {
                Ok(()) => Ok(Replay { reports, fault: None }),
                Err(error) => refused(Error { number: Some(made.number), ..error }, reports),
            };
        }
    })
}

/// The error of a record beside the reports, or the one that refuses all.
fn refused(error: Error, reports: String) -> Result<Replay, Error> {
    match error.fault {
        Fault::TornRecord | Fault::BadFraction | Fault::RecordTooLong => Ok(Replay { reports, fault: Some(error) }),
        Fault::NoMemory | Fault::Listeners | Fault::Script | Fault::StepsTooMany | Fault::NoListener => Err(Error { number: None, ..error }),
        _ => Err(error),
    }
}

/// Plays a script to listeners over captures, and returns the reports that `bpftap steps` prints. `listeners` and `script` are the contents of
/// the files LISTENERS and SCRIPT of bpftap-steps(1).
///
/// ```
/// # let mut capture = bpftap::Writer::new(Vec::new(), Default::default())?;
/// # capture.write(&bpftap::Packet { data: &[0; 60], wire: 60, seconds: 1, nanos: 0 })?;
/// # let capture = capture.into_inner();
/// let replay = bpftap::steps("96 4096 len > 50\n", "arrive\nflush 0\nread 0\n", &[&capture])?;
/// assert!(replay.reports.starts_with("listener 0 received 1 matched 1 dropped 0\nbatch 0\n"));
/// # Ok::<(), std::io::Error>(())
/// ```
pub fn steps(listeners: &str, script: &str, captures: &[&[u8]]) -> Result<Replay, Error> {
    play(ffi::bpftap_steps, listeners, script, captures)
}

/// Does the same, and returns what `bpftap steps -v` prints before its reports: a line for each step, and below it one for each listener
/// that the step reaches, with what it answered, and why.
///
/// ```
/// let replay = bpftap::steps_answers("96 4096\n", "flush 0\n", &[])?;
/// assert_eq!(replay.reports, "step 1 flush 0\n  listener 0 not flushed, nothing is stored\n");
/// # Ok::<(), bpftap::Error>(())
/// ```
pub fn steps_answers(listeners: &str, script: &str, captures: &[&[u8]]) -> Result<Replay, Error> {
    play(ffi::bpftap_steps_answers, listeners, script, captures)
}

/// Does the same, and returns the answers as JSON Lines: an object for each line of [`steps_answers`].
///
/// ```
/// let replay = bpftap::steps_answers_json("96 4096\n", "flush 0\n", &[])?;
/// assert_eq!(replay.reports.lines().next(), Some("{\"step\":1,\"action\":\"flush\",\"listener\":0}"));
/// # Ok::<(), bpftap::Error>(())
/// ```
pub fn steps_answers_json(listeners: &str, script: &str, captures: &[&[u8]]) -> Result<Replay, Error> {
    play(ffi::bpftap_steps_answers_json, listeners, script, captures)
}

/// Does the same, and returns the picture that `bpftap steps -p` draws, as SVG.
///
/// ```
/// let replay = bpftap::picture("96 4096\n", "flush 0\n", &[])?;
/// assert!(replay.reports.starts_with("<svg"));
/// # Ok::<(), bpftap::Error>(())
/// ```
pub fn picture(listeners: &str, script: &str, captures: &[&[u8]]) -> Result<Replay, Error> {
    play(ffi::bpftap_picture, listeners, script, captures)
}

/// Does the same, and returns the reports as JSON Lines, as `bpftap steps --json` prints them.
///
/// ```
/// let replay = bpftap::steps_json("96 4096\n", "", &[])?;
/// assert!(replay.reports.starts_with("{\""));
/// # Ok::<(), bpftap::Error>(())
/// ```
pub fn steps_json(listeners: &str, script: &str, captures: &[&[u8]]) -> Result<Replay, Error> {
    play(ffi::bpftap_steps_json, listeners, script, captures)
}

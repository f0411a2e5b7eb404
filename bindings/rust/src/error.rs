// SPDX-License-Identifier: MIT OR Apache-2.0
//! Why a call failed.
use std::fmt;

use crate::stack::reading;
use crate::{ffi, text};

macro_rules! faults {
    ($($name:ident = $number:literal, $what:literal;)*) => {
        /// What is wrong, by the numbers of `bpftap.h`. `docs/FAULTS.md` explains each of them.
        ///
        /// ```
        /// use bpftap::{Fault, Filter};
        ///
        /// let error = Filter::new("port http").unwrap_err();
        /// assert_eq!((error.fault, error.fault.to_string()), (Fault::BadWord, "BadWord".to_owned()));
        /// ```
        #[derive(Clone, Copy, Debug, PartialEq, Eq, Hash)]
        #[non_exhaustive]
        pub enum Fault {
            $(#[doc = $what] $name = $number,)*
            /// A fault of a newer library.
            Unknown = 0,
        }

        impl Fault {
            pub(crate) fn of(number: u32) -> Fault {
                match number {
                    $($number => Fault::$name,)*
                    _ => Fault::Unknown,
                }
            }
        }
    };
}

faults! {
    NoMemory = 1, "There is no memory.";
    NotText = 3, "The text is not UTF-8; of a program, there is no expression.";
    Empty = 16, "There is no instruction.";
    TooMany = 17, "There are more than 512 instructions.";
    UnknownCode = 18, "An instruction has a code that is not known.";
    JumpOut = 19, "An instruction jumps out of the program.";
    Cell = 20, "An instruction names a cell beyond the 16 of scratch memory.";
    ZeroDivisor = 21, "An instruction divides by the constant 0.";
    NoReturn = 22, "The last instruction is not a return.";
    BadLine = 24, "A line of a listing is not `code jt jf k`.";
    Count = 25, "The first line of a listing is not the number of the others.";
    TextTooLong = 32, "The expression has more than 8,192 bytes.";
    BadByte = 33, "A byte begins no word.";
    BadWord = 34, "A word is not of the language.";
    BadNumber = 35, "A number is none.";
    Syntax = 36, "A word does not fit here.";
    NoQualifier = 37, "A value has no qualifier.";
    BadQualifier = 38, "Qualifiers do not fit together.";
    BadIdentifier = 39, "A value does not fit its qualifiers.";
    NetBits = 40, "A net has bits outside its mask.";
    OutOfRange = 41, "A number is out of its range.";
    DivideByZero = 42, "A constant is divided by 0.";
    TooNested = 43, "There are more than 64 levels.";
    TooLong = 48, "The program may not fit into 512 instructions.";
    TooDeep = 49, "A relation needs more than 16 words of scratch memory.";
    BadSnap = 50, "The snapshot length is 0 or above `MAX_SNAP`.";
    ShortHeader = 64, "The capture ends in its header.";
    NotSavefile = 65, "The bytes are no pcap file.";
    Version = 66, "The version of the pcap file is another one.";
    LinkType = 67, "The frames are not of Ethernet.";
    TornRecord = 68, "The capture ends in a record.";
    BadFraction = 69, "A fraction of a second is a second or more.";
    RecordTooLong = 70, "A record has more than `MAX_SNAP` captured bytes.";
    CountFull = 73, "As many records were read as can be counted.";
    BadCapacity = 80, "A buffer of a listener lacks room, or has too much.";
    Listeners = 88, "A line of LISTENERS is not `SNAP CAPACITY EXPRESSION`.";
    Script = 89, "A line of SCRIPT is no step.";
    StepsTooMany = 90, "There are more than 64 listeners, or more than 65,536 captures.";
    NoListener = 91, "A step names a listener that does not exist.";
}

/// The line of a fault, as `bpftap_fault_text` writes it.
fn line(fault: Fault, place: u64) -> String {
    text(|to, room| unsafe { ffi::bpftap_fault_text(fault as u32, place as usize, to, room) }).unwrap_or_default()
}

impl fmt::Display for Fault {
    fn fmt(&self, f: &mut fmt::Formatter<'_>) -> fmt::Result {
        f.write_str(line(*self, 0).split(' ').next().unwrap_or_default())
    }
}

/// Why a call failed: the fault, and its place. It is printed as `BadWord 5`, the line that the program prints, but for [`Fault::RecordTooLong`] and
/// [`Fault::StepsTooMany`]: the program prints `TooLong` and `TooMany`, which are also names of other faults.
///
/// ```
/// let error = bpftap::Filter::new("port http").unwrap_err();
/// assert_eq!((error.place, error.to_string()), (5, "BadWord 5".to_owned()));
/// ```
#[derive(Clone, Copy, Debug, PartialEq, Eq)]
pub struct Error {
    /// What is wrong.
    pub fault: Fault,
    /// A byte of an expression, an instruction, a line of a listing, or a record, as `docs/FAULTS.md` says of each fault; else 0.
    pub place: u64,
    /// Which expression [`compare`](crate::compare) refused, 1 or 2; of which listener or capture a fault of [`steps`](crate::steps()) is, from
    /// 0. `None` if another call failed.
    pub number: Option<u32>,
}

impl Error {
    pub(crate) const NO_MEMORY: Error = Error { fault: Fault::NoMemory, place: 0, number: None };

    /// What helps to fix the expression that a call refused with this error, a line or two, as the program prints it below the fault. `None` if there
    /// is nothing to say.
    ///
    /// ```
    /// let expression = "icmp and proot 17";
    /// let error = bpftap::Filter::new(expression).unwrap_err();
    /// assert_eq!(error.hint(expression).unwrap(), "did you mean `proto`?");
    /// ```
    pub fn hint(&self, expression: &str) -> Option<String> {
        let (fault, place) = (self.fault as u32, self.place as usize);
        let hint = reading(expression, || {
            text(|to, room| unsafe { ffi::bpftap_hint(expression.as_ptr(), expression.len(), fault, place, to, room) })
        });
        hint.ok().filter(|hint| !hint.is_empty())
    }

    /// What a call returned: `Ok`, or its fault.
    pub(crate) fn check(fault: u32, place: u64) -> Result<(), Error> {
        match fault {
            0 => Ok(()),
            _ => Err(Error { fault: Fault::of(fault), place, number: None }),
        }
    }
}

impl fmt::Display for Error {
    fn fmt(&self, f: &mut fmt::Formatter<'_>) -> fmt::Result {
        f.write_str(&line(self.fault, self.place))
    }
}

impl std::error::Error for Error {}

impl From<Error> for std::io::Error {
    /// An error of the kind `InvalidData`, for what is written to a file.
    fn from(error: Error) -> std::io::Error {
        std::io::Error::new(std::io::ErrorKind::InvalidData, error)
    }
}

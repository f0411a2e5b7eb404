// SPDX-License-Identifier: MIT OR Apache-2.0
//! Whether two expressions accept the same packets.
use crate::stack::deeply;
use crate::{ffi, Error, Fault};

/// Why nothing is claimed.
#[derive(Clone, Copy, Debug, PartialEq, Eq)]
pub enum Cause {
    /// The decision graphs differ, and no packet was found that shows how the expressions do.
    Graphs,
    /// The budget is spent, and nothing of `Product`, `Quotient` and `Load` stands in the expressions.
    Budget,
    /// No call returns it since 2.3.0.
    Relation,
    /// The budget is spent, and an expression has a product of two values that are no constants.
    Product,
    /// The budget is spent, and an expression has a quotient or a remainder by a value that is no constant.
    Quotient,
    /// The budget is spent, and an expression has bytes at an index that is no constant.
    Load,
    /// A byte may be looked at that is 131,072 bytes or more from the first one.
    Far,
    /// An expression has too many levels.
    Levels,
}

/// A packet that shows a difference: its captured bytes, and its length on the wire.
#[derive(Clone, Debug, PartialEq, Eq)]
pub struct Witness {
    /// Its captured bytes.
    pub data: Vec<u8>,
    /// Its length on the wire.
    pub wire: u32,
}

/// What is decided of two expressions.
#[derive(Clone, Debug, PartialEq, Eq)]
pub enum Sameness {
    /// Both accept the same packets, of every captured length and every length on the wire.
    Same,
    /// So it is of packets of which no more bytes were captured than were on the wire.
    SameAsCaptured,
    /// They differ only where one aborts: one accepts this packet, which is too short for the other. Of packets of which no more bytes were
    /// captured than were on the wire, none gets Yes from one and No from the other.
    Short(Witness),
    /// One answers Yes to this packet, and the other No.
    Differ(Witness),
    /// Nothing is claimed.
    NotDecided(Cause),
}

/// Decides for every packet that there can be whether two expressions accept it alike. `budget` bounds the decision graphs, and so the memory
/// and the time; `bpftap compare` takes 2,000,000. If an expression is refused, the error's `number` says which one.
///
/// ```
/// use bpftap::{compare, Filter, Sameness};
///
/// assert_eq!(compare("port 80", "src port 80 or dst port 80", 2_000_000)?, Sameness::Same);
/// if let Sameness::Differ(packet) = compare("tcp", "udp", 2_000_000)? {
///     assert!(Filter::new("tcp")?.matches(&packet.data, packet.wire) != Filter::new("udp")?.matches(&packet.data, packet.wire));
/// }
/// # Ok::<(), bpftap::Error>(())
/// ```
pub fn compare(first: &str, second: &str, budget: usize) -> Result<Sameness, Error> {
    deeply(|| {
        let mut data = vec![0; 2048];
        loop {
            let found = unsafe {
                ffi::bpftap_compare(first.as_ptr(), first.len(), second.as_ptr(), second.len(), budget, data.as_mut_ptr(), data.len())
            };
            if found.fault == ffi::NO_ROOM {
                data.resize(found.size, 0);
                continue;
            }
            data.truncate(found.size);
            return answer(found, data);
        }
    })
}

/// The answer of the library, with the packet that it wrote.
fn answer(found: ffi::Comparison, data: Vec<u8>) -> Result<Sameness, Error> {
    if let Err(error) = Error::check(found.fault, found.place as u64) {
        let number = Some(found.number + 1).filter(|_| error.fault != Fault::NoMemory);
        return Err(Error { number, ..error });
    }
    let witness = Witness { data, wire: found.wire };
    Ok(match (found.answer, found.cause) {
        (0, _) => Sameness::Same,
        (1, _) => Sameness::SameAsCaptured,
        (2, _) => Sameness::Short(witness),
        (3, _) => Sameness::Differ(witness),
        (_, 1) => Sameness::NotDecided(Cause::Graphs),
        (_, 2) => Sameness::NotDecided(Cause::Budget),
        (_, 4) => Sameness::NotDecided(Cause::Product),
        (_, 5) => Sameness::NotDecided(Cause::Quotient),
        (_, 6) => Sameness::NotDecided(Cause::Load),
        (_, 7) => Sameness::NotDecided(Cause::Far),
        (_, 8) => Sameness::NotDecided(Cause::Levels),
        (_, _) => Sameness::NotDecided(Cause::Relation),
    })
}

// SPDX-License-Identifier: MIT OR Apache-2.0
//! Calls that may need much stack.
use std::thread;

use crate::Error;

/// `bpftap.h` says how much stack a call needs that reads expressions: up to this many bytes an expression needs 512 KiB, and a thread of Rust
/// has 2 MiB.
const SHORT: usize = 1000;
/// Any two expressions need 2 MiB, and there is room for more.
const STACK: usize = 17 << 20;

/// What a call returns, on a thread of its own that has all the stack that it may need.
pub fn deeply<T: Send>(call: impl FnOnce() -> Result<T, Error> + Send) -> Result<T, Error> {
    thread::scope(|scope| {
        let started = thread::Builder::new().stack_size(STACK).spawn_scoped(scope, call).map_err(|_| Error::NO_MEMORY)?;
        started.join().unwrap_or_else(|panic| std::panic::resume_unwind(panic))
    })
}

/// What a call returns that reads an expression: on a thread of its own if that is long.
pub fn reading<T: Send>(expression: &str, call: impl FnOnce() -> Result<T, Error> + Send) -> Result<T, Error> {
    if expression.len() <= SHORT {
        call()
    } else {
        deeply(call)
    }
}

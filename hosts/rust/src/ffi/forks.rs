// SPDX-License-Identifier: Apache-2.0
//! Whether this process is still the one in which a thing was made: what a fork copied is the parent's.

use crate::Error;
use std::ffi::c_int;
use std::sync::atomic::{AtomicU32, Ordering};
use std::sync::OnceLock;

type Handler = Option<extern "C" fn()>;

extern "C" {
    /// Of the C library, which the standard library is linked to.
    fn pthread_atfork(prepare: Handler, parent: Handler, child: Handler) -> c_int;
}

static FORKS: AtomicU32 = AtomicU32::new(0);

extern "C" fn count() {
    FORKS.fetch_add(1, Ordering::Relaxed);
}

/// The process in which a thing was made.
#[derive(Clone, Copy, Debug, PartialEq, Eq)]
pub struct Process(u32);

/// The process that a thing is of, which one that was made by a fork may become.
#[derive(Debug)]
pub struct OfProcess(AtomicU32);

impl OfProcess {
    pub fn new(process: Process) -> Self {
        Self(AtomicU32::new(process.0))
    }

    pub fn process(&self) -> Process {
        Process(self.0.load(Ordering::Acquire))
    }

    /// From now on it is of this process.
    pub fn become_this(&self) {
        self.0.store(Process::this().0, Ordering::Release);
    }
}

impl Process {
    /// This process. An error where there is no memory to hear of forks.
    pub fn watched() -> Result<Self, Error> {
        static WATCHED: OnceLock<bool> = OnceLock::new();
        // SAFETY: the handler is a function that stays, and does no more than add to an atomic number.
        match WATCHED.get_or_init(|| unsafe { pthread_atfork(None, None, Some(count)) } == 0) {
            true => Ok(Self::this()),
            false => Err(Error::OutOfMemory),
        }
    }

    fn this() -> Self {
        Self(FORKS.load(Ordering::Relaxed))
    }

    /// Whether this process is another one, made by a fork since.
    pub fn is_another(self) -> bool {
        self != Self::this()
    }
}

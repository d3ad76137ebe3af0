// SPDX-License-Identifier: Apache-2.0
//! What pipelines, tracers and spans of one pipeline share: its handle after a lock, a count of calls that failed, and
//! who is told of what.

use crate::ffi::{Counts, Handle, OfProcess, Process};
use crate::moment::Moment;
use crate::notices::{About, Callback, Notices};
use crate::Error;
use std::fmt;
use std::sync::atomic::{AtomicU64, Ordering};
use std::sync::{Mutex, MutexGuard, PoisonError, TryLockError, Weak};
use std::time::Instant;

/// After so many ends whoever takes the lines is woken.
const ENDS_TO_WAKE: u64 = 256;

/// What takes the lines of a pipeline.
pub(crate) trait Follower: Send + Sync {
    /// Is told that some hundred spans have ended. It is called in the middle of the work, and does little.
    fn wake(&self);
}

pub(crate) struct Shared {
    inner: Mutex<Inner>,
    /// Whose it is. Where this is another process all else stays as it is: locks may have been held at the fork.
    owner: OfProcess,
    /// How many calls failed since it is that of another process.
    foreign_calls: AtomicU64,
    followers: Mutex<Vec<Weak<dyn Follower>>>,
    ends: AtomicU64,
    returned_spans: AtomicU64,
    /// From which moment on time is counted that becomes due.
    opened: Instant,
    notices: Notices,
}

struct Inner {
    handle: Handle,
    failures: Failures,
    /// What was lost when it was looked last.
    seen: Lost,
}

/// Calls that failed and answered no error.
#[derive(Clone, Debug, Default)]
pub(crate) struct Failures {
    pub count: u64,
    pub last: Option<Error>,
}

/// How many spans a pipeline lost.
#[derive(Clone, Copy, Default)]
struct Lost {
    /// Before their export.
    dropped: u64,
    /// After it.
    undrained: u64,
}

/// What was drained: lines, and an error where some are left.
pub(crate) type Drained = (Vec<u8>, Result<(), Error>);

impl Shared {
    pub fn new(handle: Handle, process: Process) -> Self {
        Self {
            inner: Mutex::new(Inner { handle, failures: Failures::default(), seen: Lost::default() }),
            owner: OfProcess::new(process),
            foreign_calls: AtomicU64::new(0),
            followers: Mutex::default(),
            ends: AtomicU64::new(0),
            returned_spans: AtomicU64::new(0),
            opened: Instant::now(),
            notices: Notices::default(),
        }
    }

    /// A thread that panicked left the handle between two calls, so it is as good as before.
    fn lock(&self) -> MutexGuard<'_, Inner> {
        self.inner.lock().unwrap_or_else(PoisonError::into_inner)
    }

    fn is_foreign(&self) -> bool {
        self.process().is_another()
    }

    /// Carries out calls that no other thread comes between.
    pub fn call<T>(&self, calls: impl FnOnce(&mut Handle) -> Result<T, Error>) -> Result<T, Error> {
        if self.is_foreign() {
            return Err(Error::OtherProcess);
        }
        calls(&mut self.lock().handle)
    }

    /// Carries out calls whose error is counted, and not answered.
    pub fn attempt<T>(&self, calls: impl FnOnce(&mut Handle) -> Result<T, Error>) -> Option<T> {
        if self.is_foreign() {
            self.note(Error::OtherProcess);
            return None;
        }
        let mut inner = self.lock();
        let answer = calls(&mut inner.handle);
        answer.map_err(|error| inner.failures.note(error)).ok()
    }

    pub fn note(&self, error: Error) {
        if self.is_foreign() {
            self.foreign_calls.fetch_add(1, Ordering::Relaxed);
        } else {
            self.lock().failures.note(error);
        }
    }

    pub fn failures(&self) -> Failures {
        if self.is_foreign() {
            let count = self.foreign_calls.load(Ordering::Relaxed);
            return Failures { count, last: (count > 0).then_some(Error::OtherProcess) };
        }
        self.lock().failures.clone()
    }

    /// Exports what is due at a moment, by a clock that never goes back.
    pub fn run(&self, now: Instant) -> Result<(), Error> {
        let since = now.saturating_duration_since(self.opened).as_nanos();
        let moment = Moment::of_nanoseconds(u64::try_from(since).unwrap_or(u64::MAX));
        self.look_after(|handle| handle.run(moment))
    }

    /// Carries out calls that export, and says so where spans were lost since it looked last.
    pub fn look_after(&self, calls: impl FnOnce(&mut Handle) -> Result<(), Error>) -> Result<(), Error> {
        if self.is_foreign() {
            return Err(Error::OtherProcess);
        }
        let mut inner = self.lock();
        let answer = calls(&mut inner.handle);
        let lost = inner.newly_lost();
        drop(inner);
        self.say(lost);
        answer
    }

    fn say(&self, lost: Lost) {
        let Lost { dropped, undrained } = lost;
        if dropped > 0 {
            let why = "the queue was full or memory ran out";
            self.tell(About::Drops, format_args!("spans that are lost, since {why}: {dropped}"));
        }
        if undrained > 0 {
            let why = "too many were not drained or memory ran out";
            self.tell(
                About::Undrained,
                format_args!("spans that are lost after their export, since {why}: {undrained}"),
            );
        }
    }

    /// Hands out what was exported.
    pub fn drain(&self) -> Drained {
        self.call(|handle| Ok(handle.drain())).unwrap_or_else(|error| (Vec::new(), Err(error)))
    }

    /// Closes the pipeline, and answers its last lines, and how many spans were open and are lost.
    pub fn close(&self) -> (Vec<u8>, u64, Result<(), Error>) {
        if self.is_foreign() {
            return (Vec::new(), 0, Err(Error::OtherProcess));
        }
        let mut inner = self.lock();
        let handle = &mut inner.handle;
        let exported = if handle.is_shut_down() { Ok(()) } else { handle.shutdown() };
        let open_spans = handle.count().map_or(0, |it| it.open_spans);
        let (lines, drained) = handle.drain();
        let lost = inner.newly_lost();
        let closed = inner.handle.close();
        drop(inner);
        self.say(lost);
        (lines, open_spans, exported.and(drained).and(closed))
    }

    pub fn process(&self) -> Process {
        self.owner.process()
    }

    /// Has the pipeline go on in a process that was made by a fork, without what the parent has. An error where another
    /// thread was in the middle of a call at the fork: what it held is held for ever, and may be half changed.
    pub fn go_on_after_fork(&self, seed: u64) -> Result<(), Error> {
        if !self.is_foreign() {
            return Ok(());
        }
        let (mut inner, mut followers) = (free(&self.inner)?, free(&self.followers)?);
        if !self.notices.are_free() {
            return Err(Error::OtherProcess);
        }
        inner.handle.go_on_after_fork(seed)?;
        (inner.failures, inner.seen) = (Failures::default(), Lost::default());
        followers.clear();
        self.returned_spans.store(0, Ordering::Relaxed);
        self.owner.become_this();
        Ok(())
    }

    pub fn set_notice(&self, callback: Callback) {
        if !self.is_foreign() {
            self.notices.set(callback);
        }
    }

    pub fn tell(&self, about: About, what: fmt::Arguments<'_>) {
        if !self.is_foreign() {
            self.notices.say(about, what);
        }
    }

    pub fn follow(&self, follower: Weak<dyn Follower>) {
        if self.is_foreign() {
            return;
        }
        let mut followers = self.followers.lock().unwrap_or_else(PoisonError::into_inner);
        followers.retain(|it| it.strong_count() > 0);
        followers.push(follower);
    }

    /// A span has ended.
    pub fn ended(&self) {
        if (self.ends.fetch_add(1, Ordering::Relaxed) + 1) % ENDS_TO_WAKE == 0 && !self.is_foreign() {
            let followers = self.followers.lock().unwrap_or_else(PoisonError::into_inner);
            followers.iter().filter_map(Weak::upgrade).for_each(|it| it.wake());
        }
    }

    /// Spans were handed back.
    pub fn returned(&self, spans: u64) {
        self.returned_spans.fetch_add(spans, Ordering::Relaxed);
    }

    pub fn returned_spans(&self) -> u64 {
        self.returned_spans.load(Ordering::Relaxed)
    }
}

impl Drop for Shared {
    fn drop(&mut self) {
        if self.is_foreign() {
            self.inner.get_mut().unwrap_or_else(PoisonError::into_inner).handle.disown();
        }
    }
}

impl Inner {
    /// All that was lost, where it is more than when it was looked last.
    fn newly_lost(&mut self) -> Lost {
        let Ok(counts) = self.handle.count() else {
            return Lost::default();
        };
        let Counts { dropped_spans, refused_spans, lost_spans, .. } = counts;
        let lost = Lost { dropped: dropped_spans.saturating_add(refused_spans), undrained: lost_spans };
        let seen = std::mem::replace(&mut self.seen, lost);
        let if_more = |now, before| if now > before { now } else { 0 };
        Lost { dropped: if_more(lost.dropped, seen.dropped), undrained: if_more(lost.undrained, seen.undrained) }
    }
}

/// What a mutex has, where nobody has it.
fn free<T>(mutex: &Mutex<T>) -> Result<MutexGuard<'_, T>, Error> {
    match mutex.try_lock() {
        Ok(guard) => Ok(guard),
        Err(TryLockError::Poisoned(guard)) => Ok(guard.into_inner()),
        Err(TryLockError::WouldBlock) => Err(Error::OtherProcess),
    }
}

impl Failures {
    fn note(&mut self, error: Error) {
        self.count = self.count.saturating_add(1);
        self.last = Some(error);
    }
}

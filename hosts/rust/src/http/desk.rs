// SPDX-License-Identifier: Apache-2.0
//! Where a sender leaves orders for its two threads, one leaves lines for the other, and both say what they did.

use crate::lines::spans_in;
use crate::shared::Follower;
use std::collections::VecDeque;
use std::sync::{Arc, Condvar, Mutex, MutexGuard, PoisonError};
use std::time::{Duration, Instant};

/// What became of lines and of the spans in them.
#[derive(Clone, Copy, Debug, Default, PartialEq, Eq)]
pub struct SenderCounts {
    /// Taken by the collector.
    pub sent_lines: u64,
    pub sent_spans: u64,
    /// Spans that the collector did not take out of lines that it took.
    pub rejected_spans: u64,
    /// Given up: refused by the collector, tried as often as may be, over the limit of spans that are kept, or left
    /// when the time for closing was over.
    pub lost_lines: u64,
    pub lost_spans: u64,
    /// To be sent.
    pub waiting_lines: u64,
    pub waiting_spans: u64,
}

/// What the threads were asked so far.
#[derive(Clone, Copy, Debug, Default, PartialEq, Eq)]
pub(super) struct Orders {
    /// How many times they were asked to send all.
    pub flushes: u64,
    /// How many times they were told that spans have ended.
    wakes: u64,
    /// When they are to end at the latest, where they are to end.
    pub closing_by: Option<Instant>,
}

impl Orders {
    /// Whether all is to be exported, and not what is due alone.
    pub fn ask_for_more_than(&self, before: &Self) -> bool {
        (self.flushes, self.closing_by) != (before.flushes, before.closing_by)
    }
}

/// A line that waits.
#[derive(Debug)]
pub(super) struct Line {
    pub bytes: Vec<u8>,
    pub spans: u64,
}

impl Line {
    pub fn new(bytes: &[u8]) -> Self {
        Self { bytes: bytes.to_owned(), spans: spans_in(bytes) }
    }
}

#[derive(Debug, Default)]
pub(super) struct Desk {
    state: Mutex<State>,
    changed: Condvar,
}

#[derive(Debug, Default)]
struct State {
    orders: Orders,
    lines: VecDeque<Arc<Line>>,
    /// How many lines were put here, and how many of them are sent or given up.
    put: u64,
    done: u64,
    /// For which flush lines were put, and how many there were then.
    flushed: VecDeque<(u64, u64)>,
    /// How many flushes are done.
    settled: u64,
    /// Whether no more lines come.
    is_last: bool,
    counts: SenderCounts,
    last_fault: Option<String>,
}

impl State {
    fn settle(&mut self) {
        while let Some((flushes, _)) = self.flushed.front().copied().filter(|(_, put)| *put <= self.done) {
            self.settled = self.settled.max(flushes);
            self.flushed.pop_front();
        }
    }
}

impl Desk {
    fn lock(&self) -> MutexGuard<'_, State> {
        self.state.lock().unwrap_or_else(PoisonError::into_inner)
    }

    /// Changes the state, and has all look at it who wait.
    fn change<T>(&self, change: impl FnOnce(&mut State) -> T) -> T {
        let mut state = self.lock();
        let answer = change(&mut state);
        self.changed.notify_all();
        answer
    }

    fn wait_while(&self, until: Instant, waits: impl Fn(&State) -> bool) -> MutexGuard<'_, State> {
        let (state, limit) = (self.lock(), until.saturating_duration_since(Instant::now()));
        let waited = self.changed.wait_timeout_while(state, limit, |it| waits(it));
        waited.unwrap_or_else(PoisonError::into_inner).0
    }

    /// Orders a flush, and waits until it is done. False where the time ran out before.
    pub fn flush(&self, limit: Duration) -> bool {
        let until = super::moment_after(limit);
        let wanted = self.change(|it| {
            it.orders.flushes += 1;
            it.orders.flushes
        });
        self.wait_while(until, |it| it.settled < wanted).settled >= wanted
    }

    pub fn close_by(&self, deadline: Instant) {
        self.change(|it| it.orders.closing_by = Some(deadline));
    }

    /// Waits until there are orders other than those that were seen, or until a moment.
    pub fn wait(&self, seen: Orders, until: Instant) -> Orders {
        self.wait_while(until, |it| it.orders == seen).orders
    }

    /// Leaves lines for the collector, for orders up to a flush, and answers how many spans are given up: those of a
    /// line that would make more spans wait than may, unless no other waits.
    pub fn put(&self, lines: Vec<Line>, kept_spans: u64, flushes: u64) -> u64 {
        self.change(|it| {
            let before = it.counts.lost_spans;
            for line in lines {
                if !it.lines.is_empty() && it.counts.waiting_spans + line.spans > kept_spans {
                    it.counts.lost_lines += 1;
                    it.counts.lost_spans += line.spans;
                    continue;
                }
                it.counts.waiting_lines += 1;
                it.counts.waiting_spans += line.spans;
                it.put += 1;
                it.lines.push_back(Arc::new(line));
            }
            if flushes > it.flushed.back().map_or(it.settled, |(flushes, _)| *flushes) {
                it.flushed.push_back((flushes, it.put));
            }
            it.settle();
            it.counts.lost_spans - before
        })
    }

    /// No more lines come.
    pub fn end_lines(&self) {
        self.change(|it| it.is_last = true);
    }

    /// Waits until the first line may be tried, and answers it, and when it must be done with where the sender is to
    /// end. None where no line comes, or none may be tried before that.
    pub fn first_line(&self, next_try: Instant) -> Option<(Arc<Line>, Option<Instant>)> {
        let mut state = self.lock();
        loop {
            let (now, closing_by) = (Instant::now(), state.orders.closing_by);
            let is_late = closing_by.is_some_and(|by| next_try.max(now) >= by);
            if state.is_last && (is_late || state.lines.is_empty()) {
                return None;
            }
            match state.lines.front() {
                Some(line) if next_try <= now && !is_late => return Some((Arc::clone(line), closing_by)),
                Some(_) if !is_late => state = self.wait_once(state, next_try),
                _ => state = self.wait_once(state, super::moment_after(Duration::MAX)),
            }
        }
    }

    fn wait_once<'d>(&'d self, state: MutexGuard<'d, State>, until: Instant) -> MutexGuard<'d, State> {
        let limit = until.saturating_duration_since(Instant::now());
        self.changed.wait_timeout(state, limit).unwrap_or_else(PoisonError::into_inner).0
    }

    /// The first line is done with: how that is counted, with how many spans it has.
    pub fn finish_first(&self, change: impl FnOnce(&mut SenderCounts, u64)) {
        self.change(|it| {
            let Some(line) = it.lines.pop_front() else {
                return;
            };
            it.done += 1;
            it.counts.waiting_lines -= 1;
            it.counts.waiting_spans -= line.spans;
            change(&mut it.counts, line.spans);
            it.settle();
        });
    }

    /// Gives up all lines, and answers how many spans they had. Nobody waits for a flush any more.
    pub fn give_up(&self) -> u64 {
        self.change(|it| {
            it.settled = u64::MAX;
            let (lines, spans) = (it.counts.waiting_lines, it.counts.waiting_spans);
            it.lines.clear();
            (it.counts.waiting_lines, it.counts.waiting_spans) = (0, 0);
            it.counts.lost_lines += lines;
            it.counts.lost_spans += spans;
            spans
        })
    }

    pub fn fault(&self, why: String) {
        self.lock().last_fault = Some(why);
    }

    pub fn counts(&self) -> SenderCounts {
        self.lock().counts
    }

    pub fn last_fault(&self) -> Option<String> {
        self.lock().last_fault.clone()
    }
}

impl Follower for Desk {
    fn wake(&self) {
        self.change(|it| it.orders.wakes += 1);
    }
}

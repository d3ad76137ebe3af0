// SPDX-License-Identifier: Apache-2.0
//! The thread of a sender that takes lines out of the pipeline: every so often, and when many spans have ended, also
//! while a line is being posted.

use super::desk::{Desk, Line, Orders};
use super::moment_after;
use crate::notices::About;
use crate::{Error, Pipeline};
use std::sync::Arc;
use std::time::{Duration, Instant};

pub(super) struct Taking {
    pub pipeline: Pipeline,
    pub interval: Duration,
    pub kept_spans: u64,
    /// Where the lines go, for a notice.
    pub goal: String,
    pub desk: Arc<Desk>,
}

impl Taking {
    /// Works until it is told to end.
    pub fn run(self) {
        let (mut orders, mut taken_for) = (Orders::default(), Orders::default());
        while orders.closing_by.is_none() {
            orders = self.desk.wait(orders, moment_after(self.interval));
            // A flush for which the lines could not be taken is tried again.
            if self.take(orders.ask_for_more_than(&taken_for), orders.flushes) {
                taken_for = orders;
            }
        }
    }

    /// Has the pipeline export, all or what is due, and takes the lines. False where that failed.
    fn take(&self, is_asked: bool, flushes: u64) -> bool {
        let pipeline = &self.pipeline;
        self.note(if is_asked { pipeline.flush() } else { pipeline.run_due(Instant::now()) });
        let (lines, drained) = pipeline.drain_all();
        let is_all = matches!(drained, Ok(()) | Err(Error::Closed));
        self.note(drained);
        // The flush is not over where lines are left.
        let flushes = if is_all { flushes } else { 0 };
        let each = lines.split_inclusive(|it| *it == b'\n').map(|it| it.strip_suffix(b"\n").unwrap_or(it));
        let lost = self.desk.put(each.map(Line::new).collect(), self.kept_spans, flushes);
        if lost > 0 {
            self.desk.fault("more spans wait than are kept".to_owned());
            let goal = &self.goal;
            let what = format_args!("more spans wait for {goal} than are kept, and the newest are lost: {lost}");
            pipeline.say(About::Full, what);
        }
        is_all
    }

    /// Counts an error, but for those that the pipeline's own counts tell, or that say that it is closed.
    fn note(&self, done: Result<(), Error>) {
        match done {
            Ok(()) | Err(Error::Failed | Error::Closed) => {}
            Err(error) => self.pipeline.note(error),
        }
    }
}

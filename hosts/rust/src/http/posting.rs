// SPDX-License-Identifier: Apache-2.0
//! The thread of a sender that posts one line after another.

use super::desk::{Desk, Line};
use super::endpoint::Endpoint;
use super::moment_after;
use super::post::{post, Outcome};
use super::sender::Limits;
use crate::notices::About;
use crate::Pipeline;
use std::sync::Arc;
use std::time::{Duration, Instant};

pub(super) struct Posting {
    /// Whose notices it has.
    pub pipeline: Pipeline,
    pub endpoint: Endpoint,
    pub limits: Limits,
    pub desk: Arc<Desk>,
}

/// How the first line fared.
struct Tries {
    tried: u32,
    pause: Duration,
    next: Instant,
}

impl Tries {
    fn new(limits: &Limits) -> Self {
        Self { tried: 0, pause: limits.first_wait, next: Instant::now() }
    }
}

impl Posting {
    /// Works until no line comes any more, or the time for closing is over.
    pub fn run(self) {
        let mut first = Tries::new(&self.limits);
        while let Some((line, closing_by)) = self.desk.first_line(first.next) {
            let longest = self.limits.request_limit;
            let limit = closing_by.map_or(longest, |by| longest.min(by.saturating_duration_since(Instant::now())));
            match post(&self.endpoint, &line.bytes, limit) {
                Outcome::Taken { rejected_spans } => self.taken(&line, rejected_spans),
                Outcome::Later { why, after } if first.tried + 1 < self.limits.tries => {
                    self.try_later(&mut first, &line, why, after);
                    continue;
                }
                Outcome::Later { why, .. } | Outcome::Refused { why } => self.lost(&line, why),
            }
            first = Tries::new(&self.limits);
        }
        let lost = self.desk.give_up();
        if lost > 0 {
            self.desk.fault("the time for closing was over".to_owned());
            let what =
                format_args!("spans that were not sent to {} before the end, and are lost: {lost}", self.endpoint);
            self.pipeline.say(About::EndOfSender, what);
        }
    }

    fn taken(&self, line: &Line, rejected_spans: u64) {
        let rejected = rejected_spans.min(line.spans);
        if rejected > 0 {
            let why = format!("the collector took a line without {rejected} of its spans");
            self.say_refused(rejected, &why);
            self.desk.fault(why);
        }
        self.desk.finish_first(|it, spans| {
            it.sent_lines += 1;
            it.sent_spans += spans - rejected;
            it.rejected_spans += rejected;
        });
    }

    fn try_later(&self, first: &mut Tries, line: &Line, why: String, after: Option<Duration>) {
        first.tried += 1;
        first.next = moment_after(after.unwrap_or(first.pause));
        first.pause = first.pause.saturating_mul(2).min(self.limits.longest_wait);
        let (spans, goal) = (line.spans, &self.endpoint);
        let what = format_args!("spans that were not sent to {goal}, which is tried again: {spans} ({why})");
        self.pipeline.say(About::Later, what);
        self.desk.fault(why);
    }

    /// The first line is given up.
    fn lost(&self, line: &Line, why: String) {
        self.say_refused(line.spans, &why);
        self.desk.fault(why);
        self.desk.finish_first(|it, spans| {
            it.lost_lines += 1;
            it.lost_spans += spans;
        });
    }

    fn say_refused(&self, spans: u64, why: &str) {
        let goal = &self.endpoint;
        let what = format_args!("spans that {goal} did not take, and that are lost: {spans} ({why})");
        self.pipeline.say(About::Refused, what);
    }
}

// SPDX-License-Identifier: Apache-2.0
//! A word when it matters: not often, and never in the way.

use std::fmt;
use std::io::{self, Write};
use std::panic::{self, AssertUnwindSafe};
use std::sync::{Arc, Mutex, PoisonError, TryLockError};
use std::time::{Duration, Instant};

const PAUSE: Duration = Duration::from_secs(60);

/// What a notice may be about.
#[derive(Clone, Copy, Debug, PartialEq, Eq)]
pub(crate) enum About {
    /// Spans that the pipeline dropped.
    Drops,
    /// Spans that it exported and did not keep.
    Undrained,
    /// What was lost when it was closed.
    End,
    /// Lines that could not be sent and are tried again.
    Later,
    /// Spans that a collector did not take.
    Refused,
    /// Spans beyond those that a sender keeps.
    Full,
    /// What was lost when a sender was closed.
    EndOfSender,
}

pub(crate) type Callback = Arc<dyn Fn(&str) + Send + Sync>;

/// Says what matters, about each thing at most once a minute: to a callback, or else on standard error.
#[derive(Default)]
pub(crate) struct Notices {
    state: Mutex<State>,
}

#[derive(Default)]
struct State {
    callback: Option<Callback>,
    said: Vec<(About, Instant)>,
}

impl Notices {
    pub fn set(&self, callback: Callback) {
        self.state.lock().unwrap_or_else(PoisonError::into_inner).callback = Some(callback);
    }

    /// Whether no thread is in the middle of a call.
    pub fn are_free(&self) -> bool {
        !matches!(self.state.try_lock(), Err(TryLockError::WouldBlock))
    }

    pub fn say(&self, about: About, what: fmt::Arguments<'_>) {
        let Some(callback) = self.due(about, Instant::now()) else {
            return;
        };
        let text = what.to_string();
        // Nobody is told where that fails or panics.
        let _told = panic::catch_unwind(AssertUnwindSafe(|| match callback {
            Some(callback) => callback(&text),
            None => drop(writeln!(io::stderr(), "otel_proved: {text}")),
        }));
    }

    /// The callback, or that there is none, where the last notice about this was a minute ago.
    fn due(&self, about: About, now: Instant) -> Option<Option<Callback>> {
        let mut state = self.state.lock().unwrap_or_else(PoisonError::into_inner);
        match state.said.iter_mut().find(|(it, _)| *it == about) {
            Some((_, said)) if now.saturating_duration_since(*said) < PAUSE => return None,
            Some((_, said)) => *said = now,
            None => state.said.push((about, now)),
        }
        Some(state.callback.clone())
    }
}

#[cfg(test)]
mod tests {
    use super::*;

    #[test]
    fn there_is_one_a_minute_about_each_thing() {
        let (notices, now) = (Notices::default(), Instant::now());
        assert!(notices.due(About::Drops, now).is_some());
        assert!(notices.due(About::Drops, now + PAUSE / 2).is_none());
        assert!(notices.due(About::End, now).is_some());
        assert!(notices.due(About::Drops, now + PAUSE).is_some());
    }

    #[test]
    fn what_a_callback_panics_with_goes_no_further() {
        let notices = Notices::default();
        notices.set(Arc::new(|text| panic!("{text}")));
        notices.say(About::Drops, format_args!("a notice"));
    }
}

// SPDX-License-Identifier: Apache-2.0
//! A sender: a thread that takes lines out of a pipeline and posts them.

use super::desk::{Desk, SenderCounts};
use super::endpoint::{Endpoint, EndpointError, OF_ALL, OF_TRACES};
use super::header_list;
use super::moment_after;
use super::posting::Posting;
use super::taking::Taking;
use crate::ffi::Process;
use crate::notices::About;
use crate::shared::Follower;
use crate::Pipeline;
use std::env;
use std::error;
use std::fmt;
use std::io;
use std::mem;
use std::sync::{Arc, Weak};
use std::thread::{self, JoinHandle};
use std::time::{Duration, Instant};

const OF_EXPORTERS: &str = "OTEL_EXPORTER_";

/// How long a thread may take to say that it has ended, and how often it is asked.
const GRACE: Duration = Duration::from_secs(1);
const A_WHILE: Duration = Duration::from_millis(2);

/// How patient a sender is.
#[derive(Clone, Debug)]
pub struct Limits {
    /// How often the pipeline is drained: each second, and when some hundred spans have ended.
    pub interval: Duration,
    /// How long a request may take: 10 seconds.
    pub request_limit: Duration,
    /// How often a line is tried: 8 times.
    pub tries: u32,
    /// How long it waits after the first try, and twice as long after each further one: 1 second. Where an answer says
    /// by `Retry-After` how many seconds to wait, it waits so long, a day at most.
    pub first_wait: Duration,
    /// How long it waits at most, where the answer does not say: 60 seconds.
    pub longest_wait: Duration,
    /// How many spans may wait. A line that would make them more is given up, unless no other waits: 50,000.
    pub kept_spans: u64,
    /// How long it goes on after it was told to end, but for a request that began before, for as long as that may take:
    /// 10 seconds.
    pub closing_limit: Duration,
}

impl Default for Limits {
    fn default() -> Self {
        Self {
            interval: Duration::from_secs(1),
            request_limit: Duration::from_secs(10),
            tries: 8,
            first_wait: Duration::from_secs(1),
            longest_wait: Duration::from_secs(60),
            kept_spans: 50_000,
            closing_limit: Duration::from_secs(10),
        }
    }
}

/// Sends a pipeline's lines to a collector, from two threads of its own: one has the pipeline export what is due, by a
/// clock that never goes back, and drains it, also while the other one posts a line.
///
/// A line is tried again where there is no answer, and at the statuses 429, 502, 503 and 504. The head of an answer
/// decides, also where its body is cut. A line whose answer was lost may have been taken, and then comes twice. What is
/// given up is counted, and has a [notice](Pipeline::on_notice).
///
/// A process made by a fork has no such threads: there flushes answer false, counts are 0, and nothing is sent.
///
/// A close waits no longer than these limits say, and a second: where a thread is then still looking for the address of
/// the collector's host, what it has is lost, and counted.
///
/// It keeps its pipeline open. When it is dropped it sends what waits, as long as its limits allow; spans that end
/// afterwards it does not send.
///
/// ```no_run
/// use otel_proved::http::HttpSender;
/// use otel_proved::Pipeline;
///
/// # fn main() -> Result<(), Box<dyn std::error::Error>> {
/// let pipeline = Pipeline::builder().from_env().open()?;
/// let sender = HttpSender::from_env(&pipeline)?;
/// pipeline.tracer("shop").span("GET").start().end();
/// assert_eq!(sender.close().lost_lines, 0);
/// # Ok(())
/// # }
/// ```
#[derive(Debug)]
pub struct HttpSender {
    pipeline: Pipeline,
    desk: Arc<Desk>,
    /// That which takes lines and that which posts them, until they have ended.
    threads: Vec<JoinHandle<()>>,
    /// Whose threads they are.
    process: Process,
    closing_limit: Duration,
    /// How long a request may take that began before.
    request_limit: Duration,
    ignored_settings: Vec<String>,
}

impl HttpSender {
    /// Starts a sender to [`Endpoint::from_env`], with the headers of `OTEL_EXPORTER_OTLP_TRACES_HEADERS` or
    /// `OTEL_EXPORTER_OTLP_HEADERS`, lists such as `authorization=Bearer%20abc,x-team=shop`. A list that does not read
    /// is ignored.
    pub fn from_env(pipeline: &Pipeline) -> Result<Self, StartError> {
        let endpoint = Endpoint::from_env().map_err(StartError::Endpoint)?;
        let (headers, unread) = header_list::of_environment().map_or_else(|it| (Vec::new(), Some(it)), |it| (it, None));
        let mut sender = Self::start(pipeline, endpoint.with_headers(headers), Limits::default())?;
        sender.ignored_settings = ignored(env::vars_os().map(|(name, _)| name.to_string_lossy().into_owned()));
        sender.ignored_settings.extend(unread.map(str::to_owned));
        Ok(sender)
    }

    /// Starts a sender.
    pub fn start(pipeline: &Pipeline, endpoint: Endpoint, limits: Limits) -> Result<Self, StartError> {
        let desk = Arc::new(Desk::default());
        let mut sender = Self {
            pipeline: pipeline.clone(),
            desk: Arc::clone(&desk),
            threads: Vec::new(),
            process: pipeline.process(),
            closing_limit: limits.closing_limit,
            request_limit: limits.request_limit,
            ignored_settings: Vec::new(),
        };
        let taking = Taking {
            pipeline: pipeline.clone(),
            interval: limits.interval,
            kept_spans: limits.kept_spans,
            goal: endpoint.to_string(),
            desk: Arc::clone(&desk),
        };
        let posting = Posting { pipeline: pipeline.clone(), endpoint, limits, desk: Arc::clone(&desk) };
        // Where the second one does not start the sender is dropped, and the first one ends.
        sender.spawn(move || taking.run())?;
        sender.spawn(move || posting.run())?;
        let follower: Weak<dyn Follower> = Arc::downgrade(&(desk as Arc<dyn Follower>));
        pipeline.follow(follower);
        Ok(sender)
    }

    fn spawn(&mut self, work: impl FnOnce() + Send + 'static) -> Result<(), StartError> {
        let named = thread::Builder::new().name("otel_proved".to_owned());
        self.threads.push(named.spawn(work).map_err(StartError::Thread)?);
        Ok(())
    }

    /// The names of variables `OTEL_EXPORTER_*` that a sender made by [`HttpSender::from_env`] did not read.
    pub fn ignored_settings(&self) -> &[String] {
        &self.ignored_settings
    }

    /// Exports what waits in the pipeline, drains it, and waits until all lines are sent or given up. False where the
    /// time ran out before.
    pub fn flush(&self, limit: Duration) -> bool {
        !self.process.is_another() && self.desk.flush(limit)
    }

    pub fn counts(&self) -> SenderCounts {
        // In another process the desk may be locked by a thread that is not there.
        if self.process.is_another() {
            SenderCounts::default()
        } else {
            self.desk.counts()
        }
    }

    /// How many lines were given up.
    pub fn lost_lines(&self) -> u64 {
        self.counts().lost_lines
    }

    /// What went wrong last.
    pub fn last_fault(&self) -> Option<String> {
        if self.process.is_another() {
            None
        } else {
            self.desk.last_fault()
        }
    }

    /// Does what a drop does, and answers what became of all.
    pub fn close(mut self) -> SenderCounts {
        self.finish();
        self.counts()
    }

    /// Gives up what a thread has that hangs; it ends once it goes on.
    fn leave_behind(&self) {
        let lost = self.desk.give_up();
        self.desk.fault("a thread of the sender hangs".to_owned());
        if lost > 0 {
            let what =
                format_args!("spans that were not sent before the end, since a thread hangs, and are lost: {lost}");
            self.pipeline.say(About::EndOfSender, what);
        }
    }

    fn finish(&mut self) {
        if self.process.is_another() {
            // The threads are not there, and what they had is the parent's.
            return self.threads.drain(..).for_each(mem::forget);
        }
        self.desk.close_by(moment_after(self.closing_limit));
        let last = moment_after(self.closing_limit.saturating_add(self.request_limit).saturating_add(GRACE));
        for thread in mem::take(&mut self.threads) {
            if !has_ended(&thread, last) {
                self.leave_behind();
            } else if thread.join().is_err() {
                self.desk.fault("a thread of the sender panicked".to_owned());
            }
            // After the first one no lines come.
            self.desk.end_lines();
        }
    }
}

/// Waits until a thread has ended. False where it has not by the last moment, since it hangs in a call of the system.
fn has_ended(thread: &JoinHandle<()>, last: Instant) -> bool {
    while !thread.is_finished() && Instant::now() < last {
        thread::sleep(A_WHILE);
    }
    thread.is_finished()
}

impl Drop for HttpSender {
    fn drop(&mut self) {
        self.finish();
    }
}

fn ignored(names: impl Iterator<Item = String>) -> Vec<String> {
    let read = [OF_TRACES, OF_ALL, header_list::OF_TRACES, header_list::OF_ALL];
    names.filter(|it| it.starts_with(OF_EXPORTERS) && !read.contains(&&**it)).collect()
}

/// Why a sender did not start.
#[derive(Debug)]
#[non_exhaustive]
pub enum StartError {
    Endpoint(EndpointError),
    /// The system gave no thread.
    Thread(io::Error),
}

impl fmt::Display for StartError {
    fn fmt(&self, out: &mut fmt::Formatter<'_>) -> fmt::Result {
        match self {
            Self::Endpoint(error) => error.fmt(out),
            Self::Thread(error) => write!(out, "no thread for the sender: {error}"),
        }
    }
}

impl error::Error for StartError {}

#[cfg(test)]
mod tests {
    use super::*;

    #[test]
    fn what_the_sender_does_not_read_is_named() {
        let read = ["OTEL_EXPORTER_OTLP_ENDPOINT", "OTEL_EXPORTER_OTLP_HEADERS", "OTEL_SERVICE_NAME"];
        let names = read.into_iter().chain(["OTEL_EXPORTER_OTLP_TIMEOUT"]);
        assert_eq!(ignored(names.map(str::to_owned)), ["OTEL_EXPORTER_OTLP_TIMEOUT"]);
    }
}

// SPDX-License-Identifier: Apache-2.0
//! What a fork copies is the parent's: the child exports none of it, draws no id of it, and hangs nowhere, also where
//! it goes on with the pipeline.

use otel_proved::http::{Endpoint, HttpSender, Limits};
use otel_proved::{Error, Pipeline, TraceId, Tracer};
use std::ffi::c_int;
use std::panic::{self, AssertUnwindSafe};
use std::ptr::null_mut;
use std::sync::atomic::{AtomicBool, Ordering};
use std::thread;
use std::time::{Duration, Instant};

const LONG: Duration = Duration::from_secs(20);
const SPAN: &str = "\"startTimeUnixNano\":";
const WITHOUT_WAITING: c_int = 1;
const KILL: c_int = 9;

extern "C" {
    fn fork() -> c_int;
    fn waitpid(process: c_int, status: *mut c_int, options: c_int) -> c_int;
    fn kill(process: c_int, signal: c_int) -> c_int;
    fn _exit(status: c_int) -> !;
}

/// Whether work holds in a child process, which ends with it. One that hangs is ended.
fn holds_in_child(work: impl FnOnce() -> bool) -> bool {
    // SAFETY: the child does its work, and ends without what this process runs at its end.
    let child = unsafe { fork() };
    if child == 0 {
        let held = panic::catch_unwind(AssertUnwindSafe(work)).unwrap_or(false);
        // SAFETY: it takes any number.
        unsafe { _exit(c_int::from(!held)) }
    }
    assert!(child > 0);
    let (begin, mut status) = (Instant::now(), -1);
    loop {
        // SAFETY: the child is this process's own, and the status a variable of its type.
        if unsafe { waitpid(child, &mut status, WITHOUT_WAITING) } == child {
            return status == 0;
        }
        if begin.elapsed() > LONG {
            // SAFETY: the child has not been waited for, so no other process has its number.
            unsafe { (kill(child, KILL), waitpid(child, null_mut(), 0)) };
            return false;
        }
        thread::sleep(Duration::from_millis(5));
    }
}

fn opened() -> (Pipeline, Tracer) {
    let pipeline = Pipeline::builder().setting("OTEL_SPAN_PROCESSOR", "batch").open().unwrap();
    let tracer = pipeline.tracer("shop");
    (pipeline, tracer)
}

fn seeded() -> (Pipeline, Tracer) {
    let pipeline = Pipeline::builder().setting("OTEL_SPAN_PROCESSOR", "batch").seed(7).open().unwrap();
    let tracer = pipeline.tracer("shop");
    (pipeline, tracer)
}

/// What a pipeline of the same seed draws after three spans.
fn fourth_trace_id() -> TraceId {
    let (_pipeline, tracer) = seeded();
    let ids: Vec<_> = (0..4).map(|_| tracer.span("same").start().context().trace_id).collect();
    ids[3]
}

#[test]
fn a_child_leaves_the_pipeline_of_its_parent() {
    let (pipeline, tracer) = opened();
    tracer.span("waits").start().end();
    let open = tracer.span("open").start();
    assert!(holds_in_child(|| {
        let span = tracer.span("twice").start();
        span.set_attribute("size", 3);
        open.set_attribute("size", 3);
        let is_refused = pipeline.flush() == Err(Error::OtherProcess) && pipeline.drain() == Err(Error::OtherProcess);
        let is_counted = pipeline.failed_calls() == 2 && pipeline.last_failure() == Some(Error::OtherProcess);
        let is_none = !span.context().is_valid() && !span.is_recording();
        let (own, own_tracer) = opened();
        own_tracer.span("own").start().end();
        let lines = String::from_utf8(own.close().unwrap()).unwrap();
        let is_own = lines.contains(r#""name":"own""#) && !lines.contains(r#""name":"waits""#);
        let closed = pipeline.clone().close().unwrap_err();
        drop(span);
        is_refused && is_counted && is_none && is_own && closed.lines.is_empty() && closed.error == Error::OtherProcess
    }));
    drop(open);
    assert_eq!(pipeline.failed_calls(), 0);
    let lines = String::from_utf8(pipeline.close().unwrap()).unwrap();
    assert!(lines.contains(r#""name":"waits""#) && lines.contains(r#""name":"open""#) && !lines.contains("twice"));
}

#[test]
fn a_child_goes_on_with_other_ids() {
    let (pipeline, tracer) = seeded();
    assert_eq!(pipeline.after_fork(), Ok(()));
    tracer.span("exported").start().end();
    pipeline.flush().unwrap();
    tracer.span("waits").start().end();
    let open = tracer.span("open").start();
    let (of_child, next) = (pipeline.clone(), fourth_trace_id());
    assert!(holds_in_child(|| {
        assert_eq!(of_child.drain(), Err(Error::OtherProcess));
        assert_eq!((of_child.after_fork(), of_child.after_fork()), (Ok(()), Ok(())));
        assert_eq!((of_child.failed_calls(), of_child.counts().unwrap().open_spans), (0, 0));
        open.set_attribute("size", 3);
        assert_eq!(of_child.last_failure(), Some(Error::NoSuchSpan));
        let span = tracer.span("of the child").attribute("size", 4).start();
        assert!(span.is_recording() && span.context().trace_id != next);
        span.end();
        let lines = String::from_utf8(of_child.close().unwrap()).unwrap();
        lines.matches(SPAN).count() == 1 && lines.contains(r#""name":"of the child""#)
    }));
    drop(open);
    let lines = String::from_utf8(pipeline.close().unwrap()).unwrap();
    assert_eq!((lines.matches(SPAN).count(), lines.contains("of the child")), (3, false));
}

#[test]
fn what_was_closed_or_shut_down_stays_so_in_a_child() {
    let ((shut, tracer), (closed, _)) = (opened(), opened());
    shut.shutdown().unwrap();
    let other = closed.clone();
    closed.close().unwrap();
    assert!(holds_in_child(|| {
        assert_eq!(other.after_fork(), Err(Error::Closed));
        assert_eq!(shut.after_fork(), Ok(()));
        tracer.span("late").start().end();
        shut.drain() == Ok(Vec::new()) && shut.shutdown() == Err(Error::Failed)
    }));
}

#[test]
fn a_child_sends_by_a_sender_of_its_own() {
    let (pipeline, tracer) = opened();
    let endpoint = || Endpoint::parse("http://127.0.0.1:1").unwrap();
    let limits = || Limits { closing_limit: Duration::from_millis(20), ..Limits::default() };
    pipeline.on_notice(|_| ());
    assert!(holds_in_child(|| {
        pipeline.after_fork().unwrap();
        let sender = HttpSender::start(&pipeline, endpoint(), limits()).unwrap();
        tracer.span("of the child").start().end();
        sender.close().lost_spans == 1
    }));
}

#[test]
fn a_child_hangs_nowhere() {
    let (pipeline, tracer) = opened();
    let endpoint = Endpoint::parse("http://127.0.0.1:1").unwrap();
    let limits =
        Limits { interval: Duration::from_millis(1), first_wait: Duration::from_millis(1), ..Limits::default() };
    let mut sender =
        Some(HttpSender::start(&pipeline, endpoint, Limits { closing_limit: LONG / 100, ..limits }).unwrap());
    pipeline.on_notice(|_| ());
    let (tracer, is_over) = (&tracer, &AtomicBool::new(false));
    let held = thread::scope(|scope| {
        for _thread in 0..4 {
            // Threads that hold the lock at nearly every moment.
            scope.spawn(|| {
                while !is_over.load(Ordering::Relaxed) {
                    tracer.span("busy").start().end();
                }
            });
        }
        let held = (0..20).all(|_| {
            let (of_child, other) = (&mut sender, pipeline.clone());
            holds_in_child(move || {
                tracer.span("child").start().end();
                // It goes on, or another thread was in the middle of a call.
                let gone_on = other.after_fork();
                tracer.span("child").start().end();
                assert!(gone_on == Err(Error::OtherProcess) || gone_on.is_ok() && other.flush().is_ok());
                let sender = of_child.take().unwrap();
                !sender.flush(LONG) && sender.counts().sent_lines == 0 && {
                    drop((sender, other));
                    true
                }
            })
        });
        is_over.store(true, Ordering::Relaxed);
        held
    });
    assert!(held);
    sender.take().unwrap().close();
}

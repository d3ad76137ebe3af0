// SPDX-License-Identifier: Apache-2.0
//! What a fork copies is the parent's, and the child hangs nowhere.

use otel_proved::{Error, Pipeline};
use otel_proved_tracing::{ProvedLayer, SpanHeaders};
use std::ffi::c_int;
use std::panic::{self, AssertUnwindSafe};
use std::ptr::null_mut;
use std::sync::atomic::{AtomicBool, Ordering};
use std::sync::Barrier;
use std::thread;
use std::time::{Duration, Instant};
use tracing::{dispatcher, info, info_span, Dispatch};
use tracing_subscriber::layer::SubscriberExt;

const LONG: Duration = Duration::from_secs(20);
const WITHOUT_WAITING: c_int = 1;
const KILL: c_int = 9;

extern "C" {
    fn fork() -> c_int;
    fn waitpid(process: c_int, status: *mut c_int, options: c_int) -> c_int;
    fn kill(process: c_int, signal: c_int) -> c_int;
    fn _exit(status: c_int) -> !;
}

/// Whether work holds in a child process, which ends with it. One that hangs is ended.
fn holds_in_child(work: impl FnOnce() -> bool) -> bool {
    // SAFETY: the child does its work, and ends without what this process runs at its end.
    let child = unsafe { fork() };
    if child == 0 {
        let held = panic::catch_unwind(AssertUnwindSafe(work)).unwrap_or(false);
        // SAFETY: it takes any number.
        unsafe { _exit(c_int::from(!held)) }
    }
    assert!(child > 0);
    let (begin, mut status) = (Instant::now(), -1);
    loop {
        // SAFETY: the child is this process's own, and the status a variable of its type.
        if unsafe { waitpid(child, &mut status, WITHOUT_WAITING) } == child {
            return status == 0;
        }
        if begin.elapsed() > LONG {
            // SAFETY: the child has not been waited for, so no other process has its number.
            unsafe { (kill(child, KILL), waitpid(child, null_mut(), 0)) };
            return false;
        }
        thread::sleep(Duration::from_millis(5));
    }
}

fn opened() -> (Pipeline, Dispatch) {
    let pipeline = Pipeline::builder().setting("OTEL_SPAN_PROCESSOR", "batch").open().unwrap();
    let layer = ProvedLayer::new(pipeline.tracer("shop"));
    (pipeline, Dispatch::new(tracing_subscriber::registry().with(layer)))
}

#[test]
fn a_child_traces_its_own_spans() {
    let (pipeline, dispatch) = opened();
    dispatcher::with_default(&dispatch, || {
        info_span!("of the parent").in_scope(|| {
            let of_child = pipeline.clone();
            assert!(holds_in_child(move || {
                drop(info_span!("refused"));
                assert_eq!(of_child.last_failure(), Some(Error::OtherProcess));
                of_child.after_fork().unwrap();
                info!("in the span of the parent");
                let span = info_span!("of the child").entered();
                assert!(span.context().is_valid());
                drop(span);
                let lines = String::from_utf8(of_child.close().unwrap()).unwrap();
                lines.matches("parentSpanId").count() == 1 && lines.contains("of the child")
            }));
        });
    });
    let lines = String::from_utf8(pipeline.close().unwrap()).unwrap();
    assert!(lines.contains("of the parent") && !lines.contains("of the child"));
}

fn trace(dispatch: &Dispatch) {
    dispatcher::with_default(dispatch, || info_span!("busy").in_scope(|| info!("event")));
}

#[test]
fn a_child_hangs_nowhere() {
    let (pipeline, dispatch) = opened();
    pipeline.on_notice(|_| ());
    // The first calls of a thread, and of a place in the sources, take locks of `tracing` that a fork may not meet.
    let (is_over, have_begun, dispatch) = (&AtomicBool::new(false), &Barrier::new(5), &dispatch);
    trace(dispatch);
    let child_holds = || {
        trace(dispatch);
        let gone_on = pipeline.after_fork();
        trace(dispatch);
        gone_on == Err(Error::OtherProcess) || gone_on.is_ok() && pipeline.flush().is_ok()
    };
    let held = thread::scope(|scope| {
        for _thread in 0..4 {
            scope.spawn(move || {
                trace(dispatch);
                have_begun.wait();
                while !is_over.load(Ordering::Relaxed) {
                    trace(dispatch);
                }
            });
        }
        have_begun.wait();
        let held = (0..20).all(|_| holds_in_child(child_holds));
        is_over.store(true, Ordering::Relaxed);
        held
    });
    assert!(held);
}

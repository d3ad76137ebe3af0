// SPDX-License-Identifier: Apache-2.0
//! A look for the address of a host that does not end holds nobody up. The C library's `getaddrinfo` is this one here.

use otel_proved::http::{Endpoint, HttpSender, Limits};
use otel_proved::Pipeline;
use std::ffi::{c_char, c_int, c_void};
use std::sync::atomic::{AtomicBool, Ordering};
use std::sync::{Arc, Mutex};
use std::thread;
use std::time::{Duration, Instant};

const LONG: Duration = Duration::from_secs(20);
const TRY_AGAIN: c_int = -3;

static IS_ASKED: AtomicBool = AtomicBool::new(false);

/// Looks for long, and finds nothing.
#[no_mangle]
extern "C" fn getaddrinfo(_: *const c_char, _: *const c_char, _: *const c_void, _: *mut *mut c_void) -> c_int {
    IS_ASKED.store(true, Ordering::SeqCst);
    thread::sleep(2 * LONG);
    TRY_AGAIN
}

#[test]
fn a_close_does_not_wait_for_it() {
    let (pipeline, heard) = (Pipeline::builder().open().unwrap(), Arc::<Mutex<Vec<_>>>::default());
    let list = Arc::clone(&heard);
    pipeline.on_notice(move |text| list.lock().unwrap().push(text.to_owned()));
    let millis = Duration::from_millis;
    let limits =
        Limits { interval: millis(5), request_limit: millis(50), closing_limit: millis(50), ..Limits::default() };
    let sender = HttpSender::start(&pipeline, Endpoint::below("http://collector.test:4318").unwrap(), limits).unwrap();
    let tracer = pipeline.tracer("shop");
    (0..3).for_each(|_| tracer.span("GET").start().end());
    let begin = Instant::now();
    assert!(!sender.flush(millis(100)));
    while !IS_ASKED.load(Ordering::SeqCst) {
        assert!(begin.elapsed() < LONG);
        thread::sleep(millis(5));
    }
    let counts = sender.close();
    assert!(begin.elapsed() < LONG);
    assert_eq!((counts.lost_spans, counts.waiting_spans, counts.sent_spans), (3, 0, 0));
    let said = "spans that were not sent before the end, since a thread hangs, and are lost: 3";
    assert_eq!(*heard.lock().unwrap(), [said]);
}

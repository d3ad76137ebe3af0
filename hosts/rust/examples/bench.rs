// SPDX-License-Identifier: Apache-2.0
//! Says in one line how long a span takes: its start, two attributes and its end, at a batch processor, and its export:
//! `bench [COUNT]`, of a million spans where nothing is said. The spans are drained by the thousand.

use otel_proved::{Error, Pipeline, Tracer};
use std::env;
use std::error;
use std::time::{Duration, Instant};

const SPANS: u64 = 1_000_000;
const SPANS_OF_A_ROUND: u64 = 1000;

/// How long all rounds took.
#[derive(Default)]
struct Times {
    spans: Duration,
    export: Duration,
    bytes: usize,
}

fn main() -> Result<(), Box<dyn error::Error>> {
    let count = env::args().nth(1).map_or(Ok(SPANS), |it| it.parse())?;
    let pipeline = Pipeline::builder().setting("OTEL_SPAN_PROCESSOR", "batch").seed(0).open()?;
    let tracer = pipeline.tracer("otel");
    let mut times = Times::default();
    for _round in 0..count.div_ceil(SPANS_OF_A_ROUND) {
        time_round(&pipeline, &tracer, &mut times)?;
    }
    let counts = pipeline.counts()?;
    if counts.dropped_spans + counts.refused_spans + counts.lost_batches + pipeline.failed_calls() > 0 {
        return Err(format!("not all was exported: {counts:?}, {} failed calls", pipeline.failed_calls()).into());
    }
    let spans = count.div_ceil(SPANS_OF_A_ROUND) * SPANS_OF_A_ROUND;
    let of_a_span = |time: Duration| time.as_nanos() / u128::from(spans).max(1);
    let (work, export) = (of_a_span(times.spans), of_a_span(times.export));
    println!("{spans} spans: {work} ns for start, two attributes and end, {export} ns for export and drain");
    Ok(())
}

fn time_round(pipeline: &Pipeline, tracer: &Tracer, times: &mut Times) -> Result<(), Error> {
    let begin = Instant::now();
    for number in 0..SPANS_OF_A_ROUND as i64 {
        tracer.span("GET /cart").attribute("http.route", "/cart").attribute("cart.size", number).start().end();
    }
    let ended = Instant::now();
    pipeline.flush()?;
    times.bytes += pipeline.drain()?.len();
    times.spans += ended - begin;
    times.export += ended.elapsed();
    Ok(())
}

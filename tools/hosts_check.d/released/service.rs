// SPDX-License-Identifier: Apache-2.0
//! The same in Rust.
use otel_proved::{Kind, Pipeline};
use std::error::Error;
use std::io::{stdout, Write};

fn main() -> Result<(), Box<dyn Error>> {
    let pipeline = Pipeline::builder().setting("OTEL_SERVICE_NAME", "released").open()?;
    pipeline.tracer("shop").span("GET /cart").kind(Kind::Server).attribute("size", 3).start().end();
    stdout().write_all(&pipeline.close()?)?;
    Ok(())
}

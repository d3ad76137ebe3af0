// SPDX-License-Identifier: Apache-2.0
//! Sends a pipeline's lines to a collector by plain HTTP. There is no encryption: a collector on the same machine, or
//! in the same network, sends them on.

mod connection;
mod desk;
mod endpoint;
mod header_list;
mod message;
mod post;
mod posting;
mod sender;
mod taking;

use std::time::{Duration, Instant};

pub use connection::Connection;
pub use desk::SenderCounts;
pub use endpoint::{Endpoint, EndpointError};
pub use message::Message;
pub use sender::{HttpSender, Limits, StartError};

/// The moment after so long, or after a century where that is longer.
fn moment_after(wait: Duration) -> Instant {
    const CENTURY: Duration = Duration::from_secs(100 * 365 * 24 * 60 * 60);
    Instant::now() + wait.min(CENTURY)
}

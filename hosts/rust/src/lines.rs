// SPDX-License-Identifier: Apache-2.0
//! Lines of the OpenTelemetry protocol's JSON, as far as it matters here.

/// Each span of a line has this member once, and nothing else has it.
const MEMBER_OF_A_SPAN: &[u8] = b"\"startTimeUnixNano\":";

/// How many spans lines have.
pub(crate) fn spans_in(lines: &[u8]) -> u64 {
    lines.windows(MEMBER_OF_A_SPAN.len()).filter(|it| *it == MEMBER_OF_A_SPAN).count() as u64
}

// SPDX-License-Identifier: Apache-2.0
/* What the tests of otel.hpp share. */
#ifndef HOLD_HPP
#define HOLD_HPP

#include "otel.hpp"

#include <cstdlib>
#include <iostream>

namespace {

void hold(bool is_so, const char *what) {
  if (!is_so) {
    std::cerr << "it is not so that " << what << "\n";
    std::exit(1);
  }
}

/* Whether a call throws an error of this status. */
template <typename Call> bool throws(std::uint32_t status, Call call) {
  try {
    call();
  } catch (const otel::Error &error) {
    return error.status() == status;
  }
  return false;
}

[[maybe_unused]] bool has(const std::string &lines, const char *text) { return lines.find(text) != std::string::npos; }

[[maybe_unused]] otel::Pipeline pipeline_of_a_queue() { return otel::Pipeline("OTEL_SPAN_PROCESSOR=batch", 1); }

/* Whether the last call of a span that failed did so with this status, and no call before it. */
[[maybe_unused]] bool failed_once(const otel::Pipeline &pipeline, std::uint32_t status) {
  return pipeline.failed_calls() == 1 && pipeline.last_failure()->status() == status;
}

} // namespace

#endif

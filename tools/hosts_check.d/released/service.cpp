// SPDX-License-Identifier: Apache-2.0
// The same in C++.
#include <otel.hpp>

#include <iostream>

int main() {
  otel::Pipeline pipeline("OTEL_SERVICE_NAME=released");
  {
    otel::Span span = pipeline.start("GET /cart", {otel::Kind::server});
    span.set("size", 3);
  }
  pipeline.shutdown();
  std::cout << pipeline.drain() << std::flush;
  return pipeline.failed_calls() == 0 && std::cout ? 0 : 1;
}

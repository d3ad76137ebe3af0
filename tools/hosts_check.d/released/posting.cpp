// SPDX-License-Identifier: Apache-2.0
// The same in C++.
#include <otel_service.hpp>

int main() {
  otel::Service service = otel::Service::from_environment();
  service.start("GET /cart", {otel::Kind::server, {{"size", 3}}});
  return service.close(otel::Milliseconds(10000)) && service.failed_calls() == 0 ? 0 : 1;
}

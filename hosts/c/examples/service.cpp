// SPDX-License-Identifier: Apache-2.0
/* A service of a shop, as examples/service.c has it: a span is the current one of its scope, and ends with it. */
#include "otel_service.hpp"

#include <iostream>

namespace {

/* The work of the stock, which would be another process: the headers say whose child its span is. */
void answer_stock(otel::Service &service, const otel::Headers &headers) {
  otel::Span span = service.start_remote(headers, "GET /stock", {otel::Kind::server});
  throw std::runtime_error("sold out");
}

void ask_stock(otel::Service &service) {
  otel::Span span = service.start("ask stock", {otel::Kind::client});
  try {
    answer_stock(service, span.inject());
  } catch (const std::exception &error) {
    span.add_event("sold out", {{"article", "teapot"}, {"left", 0}});
    span.set_status(otel::StatusCode::error, error.what());
  }
}

void answer_request(otel::Service &service) {
  otel::Scope scope(service.start("GET /cart", {otel::Kind::server, {{"http.route", "/cart"}}}));
  ask_stock(service);
  scope->set("cart.size", 3);
}

} // namespace

int main() {
  try {
    otel::Service service = otel::Service::from_environment();
    answer_request(service);
    bool is_posted = service.close(std::chrono::seconds(5));
    otel::ServiceNumbers numbers = service.count();
    std::cerr << numbers.posted_spans << " of " << numbers.ended_spans << " spans were posted\n";
    return is_posted ? 0 : 1;
  } catch (const std::exception &error) {
    std::cerr << error.what() << "\n";
    return 1;
  }
}

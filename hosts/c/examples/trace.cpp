// SPDX-License-Identifier: Apache-2.0
/* A request to a shop, which calls its stock, as examples/trace.c has it: spans end where their blocks do, also where
   an exception leaves them. The lines go to standard output, as `tools/send` takes them. */
#include "otel.hpp"

#include <iostream>

namespace {

/* The work of the stock, a service of its own: its span is the child of the one that the headers name. */
void answer_stock(otel::Pipeline &pipeline, otel::Tracer tracer, const otel::Headers &headers) {
  otel::Span span = pipeline.start_remote(headers, "GET /stock", {otel::Kind::server, {}, tracer});
  span.set("shelves", otel::Attribute::Texts{"left", "right"});
  throw std::runtime_error("sold out");
}

void ask_stock(otel::Pipeline &pipeline, otel::Tracer tracer, const otel::Span &parent) {
  otel::Span span = parent.child("ask stock", {otel::Kind::client, {}, tracer});
  try {
    answer_stock(pipeline, tracer, span.inject());
  } catch (const std::exception &error) {
    span.add_event("sold out", {{"article", "teapot"}, {"left", 0}});
    span.add_link(parent, {{"is_parent", true}});
    span.record_exception("std::runtime_error", error.what());
    span.set_status(otel::StatusCode::error, error.what());
  }
}

void answer_request(otel::Pipeline &pipeline, otel::Tracer tracer) {
  otel::Attributes attributes{{"http.route", "/cart"}, {"sizes", otel::Attribute::Integers{3, 5}}};
  otel::Span span = pipeline.start("GET", {otel::Kind::server, attributes, tracer});
  span.update_name("GET /cart");
  ask_stock(pipeline, tracer, span);
  span.set("cart.is_complete", false);
  span.child("not wanted").abandon();
  span.end_at(otel::Clock::now() + std::chrono::milliseconds(1));
}

void print_numbers(const otel::Pipeline &pipeline) {
  otel::Numbers numbers = pipeline.count();
  std::cerr << "spans: " << numbers.open_spans << " open, " << numbers.waiting_spans << " waiting, "
            << numbers.dropped_spans << " dropped, " << numbers.lost_spans << " lost\n";
}

void trace() {
  otel::Pipeline pipeline("OTEL_SERVICE_NAME=shop\nOTEL_SPAN_PROCESSOR=batch\nOTEL_BSP_SCHEDULE_DELAY=soon");
  for (const std::string &name : pipeline.ignored_settings()) {
    std::cerr << "ignored setting: " << name << "\n";
  }
  answer_request(pipeline, pipeline.tracer("shop.http", "1.2"));
  print_numbers(pipeline);
  pipeline.flush();
  std::cout << pipeline.drain();
  print_numbers(pipeline);
  pipeline.shutdown();
  pipeline.close();
}

} // namespace

int main() {
  try {
    trace();
  } catch (const std::exception &error) {
    std::cerr << error.what() << "\n";
    return 1;
  }
  return 0;
}

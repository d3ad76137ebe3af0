// SPDX-License-Identifier: Apache-2.0
/* Makes calls of otel.hpp in which tests/refused_memory refuses a request for memory: a call of a span throws nothing
   then and is counted, one of the pipeline throws, and no span stays open. It ends with 1 where that is not so. */
#include "hold.hpp"

namespace {

/* Nothing here takes memory outside of the calls. */
void call_spans(otel::Span &span, const otel::Start &start, const otel::Headers &caller) noexcept {
  for (int round = 0; round < 3; round++) {
    otel::Span child = span.child("child", start);
    child.set("a key that is long", "a text that is so long that it takes memory of its own");
    child.set("greatest", UINT64_MAX);
    child.set("texts", {"a", "b"});
    child.set(start.attributes);
    child.add_event("event", start.attributes);
    child.record_exception("type", "message", "stacktrace");
    child.add_link(span, start.attributes);
    child.add_link(caller, start.attributes);
    child.set_status(otel::StatusCode::error, "description");
    child.update_name("a name that is so long that it takes memory of its own");
    child.inject();
    child.end();
    child.child("late", start).add_link(child);
    child.inject();
  }
  span.abandon();
}

/* How many calls of spans failed. */
std::uint64_t call_all() {
  otel::Pipeline pipeline = pipeline_of_a_queue();
  pipeline.on_notice([](const std::string &) {});
  otel::Headers caller{{"traceparent", "00-0af7651916cd43dd8448eb211c80319c-b7ad6b7169203331-01"},
                       {"tracestate", "a=a state that is so long that it takes memory of its own"},
                       {"baggage", "user=7"}};
  otel::Start start{otel::Kind::client, {{"key", "value"}, {"texts", otel::Attribute::Texts{"a", "b"}}}};
  otel::Span span = pipeline.start_remote(caller, "root", start);
  call_spans(span, start, caller);
  std::uint64_t failed = pipeline.failed_calls();
  hold(pipeline.count().open_spans == 0, "no span stays open");
  pipeline.flush();
  pipeline.drain();
  return failed;
}

} // namespace

int main() {
  std::uint64_t failed = 0;
  try {
    failed = call_all();
  } catch (const std::bad_alloc &) {
    failed = 1;
  } catch (const otel::Error &error) {
    hold(error.status() == OTEL_OUT_OF_MEMORY || error.status() == OTEL_FAILED,
         "a refused call says that memory ran out, or that not all was exported");
    failed = 1;
  }
  std::cout << "refused: OUT_OF_MEMORY " << failed << " times\n";
  return 0;
}

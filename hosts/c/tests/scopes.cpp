// SPDX-License-Identifier: Apache-2.0
/* Looks at what otel.hpp adds to otel.h: which spans end where scopes do, what moves, what is thrown, and that nothing
   of a refused call is left for the next. It ends with 1 where something is not so, and names it. */
#include "hold.hpp"

#include <limits>
#include <thread>

namespace {

void spans_end_with_their_scopes() {
  otel::Pipeline pipeline = pipeline_of_a_queue();
  {
    otel::Span span = pipeline.start("outer");
    otel::Span child = span.child("inner");
    hold(pipeline.count().open_spans == 2, "two spans are open in their scope");
  }
  hold(pipeline.count().open_spans == 0, "no span is open after its scope");
  hold(pipeline.count().waiting_spans == 2, "both spans wait after their scope");
  try {
    otel::Span span = pipeline.start("left");
    throw std::runtime_error("the scope is left");
  } catch (const std::runtime_error &) {
  }
  hold(pipeline.count().waiting_spans == 3, "a span ends where an exception leaves its scope");
  pipeline.start("abandoned").abandon();
  hold(pipeline.count().waiting_spans == 3, "an abandoned span does not wait");
}

void spans_move() {
  otel::Pipeline first = pipeline_of_a_queue();
  otel::Span span = first.start("one");
  otel::Pipeline pipeline = std::move(first);
  otel::Span moved = std::move(span);
  hold(pipeline.count().open_spans == 1, "a span that moved is open");
  span.end();
  hold(span.key() == 0 && span.inject().empty() && pipeline.failed_calls() == 0,
       "a span that was moved away is no span");
  hold(throws(OTEL_CLOSED, [&first] { first.flush(); }), "a pipeline that was moved away is closed");
  moved = pipeline.start("two");
  hold(pipeline.count().open_spans == 1, "a span ends where another takes its place");
  hold(pipeline.count().waiting_spans == 1, "a span is handed on where another takes its place");
  moved.end();
  moved.end();
  hold(failed_once(pipeline, OTEL_NO_SUCH_SPAN), "a span ends once");
}

void spans_may_outlive_the_pipeline() {
  std::vector<otel::Span> spans;
  {
    otel::Pipeline pipeline = pipeline_of_a_queue();
    pipeline.on_notice([](const std::string &) {});
    spans.push_back(pipeline.start("late"));
  }
  spans[0].set("late", true);
  hold(spans[0].child("later").key() == 0, "the span of a closed pipeline has no children");
}

void attributes_come_as_they_are() {
  otel::Pipeline pipeline = pipeline_of_a_queue();
  std::string key = "text";
  std::vector<std::string> owned{"own", "ed"};
  otel::Span span = pipeline.start("all", {otel::Kind::client, {{key, key}, {"number", 42}}});
  span.set("literal", "lit");
  span.set("truth", true);
  span.set("least", INT64_MIN);
  span.set("owned", owned);
  span.set("no texts", otel::Attribute::Texts{});
  span.set({{"integers", otel::Attribute::Integers{1, -2}}, {"bools", otel::Attribute::Bools{true, false}}});
  span.set("no integers", otel::Attribute::Integers{});
  span.set("no bools", otel::Attribute::Bools{});
  span.end_at(otel::Moment(std::chrono::seconds(1700000000)));
  pipeline.flush();
  std::string lines = pipeline.drain();
  for (const char *wanted :
       {R"({"key":"text","value":{"stringValue":"text"}})", R"({"key":"number","value":{"intValue":"42"}})",
        R"({"stringValue":"lit"})", R"({"key":"truth","value":{"boolValue":true}})", R"("-9223372036854775808")",
        R"([{"stringValue":"own"},{"stringValue":"ed"}])", R"([{"intValue":"1"},{"intValue":"-2"}])",
        R"([{"boolValue":true},{"boolValue":false}])", R"("kind":3)", R"("endTimeUnixNano":"1700000000000000000")"}) {
    hold(has(lines, wanted), wanted);
  }
}

void floats_come_as_they_are() {
  constexpr double infinity = std::numeric_limits<double>::infinity();
  otel::Pipeline pipeline = pipeline_of_a_queue();
  otel::Span span = pipeline.start("floats", {otel::Kind::client, {{"tenth", 0.1}, {"single", 0.5f}}});
  span.set("whole", 1.0);
  span.set("zero", -0.0);
  span.set("least", std::numeric_limits<double>::denorm_min());
  span.set("nan", std::numeric_limits<double>::quiet_NaN());
  span.set({{"infinite", infinity}, {"floats", otel::Attribute::Floats{2.5, 1e300, -infinity}}});
  span.set("no floats", otel::Attribute::Floats{});
  span.end();
  pipeline.flush();
  std::string lines = pipeline.drain();
  for (const char *wanted :
       {R"({"key":"tenth","value":{"doubleValue":0.1}})", R"({"key":"single","value":{"doubleValue":0.5}})",
        R"({"key":"whole","value":{"doubleValue":1.0}})", R"({"key":"zero","value":{"doubleValue":-0.0}})",
        R"({"key":"least","value":{"doubleValue":5e-324}})", R"({"key":"nan","value":{"doubleValue":"NaN"}})",
        R"({"key":"infinite","value":{"doubleValue":"Infinity"}})",
        R"([{"doubleValue":2.5},{"doubleValue":1e300},{"doubleValue":"-Infinity"}])",
        R"({"key":"no floats","value":{"arrayValue":{"values":[]}}})"}) {
    hold(has(lines, wanted), wanted);
  }
}

/* What has no place in 64 bits is no value, and `nullptr` is none. */
static_assert(std::is_constructible_v<otel::Attribute, const char *, float>);
static_assert(!std::is_constructible_v<otel::Attribute, const char *, long double>);
static_assert(!std::is_constructible_v<otel::Attribute, const char *, std::nullptr_t>);
template <typename Value, typename = void> struct IsSettable : std::false_type {};
template <typename Value>
struct IsSettable<Value, std::void_t<decltype(std::declval<otel::Span &>().set("key", std::declval<Value>()))>>
    : std::true_type {};
static_assert(IsSettable<std::size_t>::value && IsSettable<const char *>::value);
static_assert(!IsSettable<std::nullptr_t>::value && !IsSettable<void *>::value);

void sizes_and_lists_in_braces_are_values() {
  otel::Pipeline pipeline = pipeline_of_a_queue();
  std::string text = "owned";
  otel::Span span = pipeline.start("all", {otel::Kind::client, {{"starts", {"x", "y"}}, {"size", text.size()}}});
  span.set("size too", text.size());
  span.set("greatest", UINT64_MAX);
  span.set("texts", {"a", "b"});
  span.set("own texts", {text, std::string("temporary")});
  span.set("integers", {1, -2});
  span.set("floats", {0.5, 2.5});
  span.set("bools", {true, false});
  const char *no_text = nullptr;
  span.set("no text", no_text);
  span.end();
  hold(pipeline.failed_calls() == 0, "no value was refused");
  pipeline.flush();
  std::string lines = pipeline.drain();
  for (const char *wanted :
       {R"({"key":"starts","value":{"arrayValue":{"values":[{"stringValue":"x"},{"stringValue":"y"}]}}})",
        R"({"key":"size","value":{"intValue":"5"}})", R"({"key":"size too","value":{"intValue":"5"}})",
        R"({"key":"greatest","value":{"stringValue":"18446744073709551615"}})",
        R"({"key":"texts","value":{"arrayValue":{"values":[{"stringValue":"a"},{"stringValue":"b"}]}}})",
        R"([{"stringValue":"owned"},{"stringValue":"temporary"}])", R"([{"intValue":"1"},{"intValue":"-2"}])",
        R"([{"doubleValue":0.5},{"doubleValue":2.5}])", R"([{"boolValue":true},{"boolValue":false}])",
        R"({"key":"no text","value":{"stringValue":""}})"}) {
    hold(has(lines, wanted), wanted);
  }
}

void refusals_leave_nothing() {
  otel::Pipeline pipeline = pipeline_of_a_queue();
  otel::Span bad = pipeline.start("bad", {otel::Kind::server, {{"stale", 1}, {"\xff", 2}}});
  hold(bad.key() == 0 && failed_once(pipeline, OTEL_NOT_UTF8), "an attribute that is not UTF-8 is refused");
  otel::Span none = pipeline.start("none", {otel::Kind::server, {}, {77}});
  hold(none.key() == 0 && pipeline.failed_calls() == 2 && pipeline.last_failure()->status() == OTEL_NO_SUCH_TRACER,
       "a tracer that was not given is refused");
  otel::Span old = pipeline.start("old", {otel::Kind::server, {}, {}, otel::Moment(std::chrono::seconds(-1))});
  hold(old.key() != 0 && pipeline.failed_calls() == 3 && pipeline.last_failure()->status() == OTEL_BAD_ARGUMENT,
       "a moment before 1970 is counted, and is now");
  otel::Headers caller{{"traceparent", "00-0af7651916cd43dd8448eb211c80319c-b7ad6b7169203331-01"}};
  otel::Span passes = pipeline.start_remote(caller, "\xff");
  hold(passes.key() == 0 && passes.inject() == caller, "a span that could not start passes the headers on");
  hold(throws(OTEL_NOT_UTF8, [] { otel::Pipeline refused("\xff"); }), "settings that are not UTF-8 are refused");
  pipeline.start("good").end();
  pipeline.flush();
  hold(!has(pipeline.drain(), "stale"), "no attribute of a refused call is left for the next");
}

void headers_carry_a_trace() {
  otel::Pipeline pipeline = pipeline_of_a_queue();
  otel::Headers headers{{"TraceParent", "00-0af7651916cd43dd8448eb211c80319c-b7ad6b7169203331-01"},
                        {"tracestate", "a=1"},
                        {"Accept", "text/plain"},
                        {"Tracestate", "b=2"}};
  otel::Span span = pipeline.start_remote(headers, "served", {otel::Kind::server});
  hold(span.identity().trace_id_high == 0x0af7651916cd43dd, "the span is of the trace that the headers name");
  otel::Headers injected = span.inject();
  hold(injected.size() == 2 && injected[0].first == "traceparent" && injected[0].second.size() == 55,
       "a traceparent is injected");
  hold(injected[1] == std::pair<std::string, std::string>("tracestate", "a=1,b=2"), "headers of a name are one list");
  span.add_link(headers, {{"linked", true}});
  hold(pipeline.failed_calls() == 0, "headers are linked");
  span.add_link(otel::Headers{});
  hold(failed_once(pipeline, OTEL_BAD_ARGUMENT), "a link to no span is refused");
  otel::Span root = pipeline.start_remote({}, "no headers");
  hold(root.identity().trace_id_high != 0x0af7651916cd43dd, "without headers a span is a root");
}

void resources_name_the_sdk() {
  for (const char *settings : {"", "OTEL_SERVICE_NAME=shop", "OTEL_RESOURCE_ATTRIBUTES=a=b\nOTEL_SERVICE_NAME=shop\n",
                               "OTEL_RESOURCE_ATTRIBUTES="}) {
    otel::Pipeline pipeline(settings, 1);
    hold(pipeline.ignored_settings().empty(), "no setting is ignored");
    pipeline.start("one").end();
    pipeline.flush();
    std::string lines = pipeline.drain();
    for (const char *wanted : {R"({"key":"telemetry.sdk.name","value":{"stringValue":"otel_proved"}})",
                               R"({"key":"telemetry.sdk.language","value":{"stringValue":"cpp"}})",
                               R"({"key":"telemetry.sdk.version","value":{"stringValue":"0.1.0"}})"}) {
      hold(has(lines, wanted), wanted);
    }
    bool has_b = std::string(settings).find("a=b") != std::string::npos;
    hold(has_b == has(lines, R"({"key":"a","value":{"stringValue":"b"}})"), "the user's attributes are there");
  }
  otel::Pipeline pipeline("OTEL_RESOURCE_ATTRIBUTES=telemetry.sdk.name=mine", 1);
  pipeline.start("one").end();
  pipeline.flush();
  hold(has(pipeline.drain(), R"({"key":"telemetry.sdk.name","value":{"stringValue":"mine"}})"),
       "the user's word counts");
}

void threads_have_a_current_span() {
  otel::Pipeline pipeline = pipeline_of_a_queue(), other("OTEL_SPAN_PROCESSOR=batch", 2);
  hold(otel::Scope::current() == nullptr, "a thread begins without a current span");
  {
    otel::Scope outer(pipeline.start("outer"));
    outer->set("outer", true);
    std::uint64_t trace = otel::Scope::current()->identity().trace_id_low;
    otel::Span child = pipeline.start("child");
    hold(child.identity().trace_id_low == trace, "a span that starts in a scope is a child of its span");
    {
      otel::Scope inner(child);
      hold(otel::Scope::current() == &child, "the inner scope counts");
      hold(pipeline.start("below").identity().trace_id_low == trace, "so does a child of a child");
      hold(other.start("other").identity().trace_id_low != trace, "the current span is that of its pipeline alone");
      hold(pipeline.start_root("root").identity().trace_id_low != trace, "a root is one in a scope too");
      std::thread([&] {
        hold(otel::Scope::current() == nullptr && pipeline.start("elsewhere").identity().trace_id_low != trace,
             "another thread has no current span");
      }).join();
    }
    hold(otel::Scope::current() != &child && child.key() != 0, "a scope leaves a span open that it was shown");
  }
  hold(otel::Scope::current() == nullptr && pipeline.count().open_spans == 0, "a scope ends a span that it was given");
  auto *first = new otel::Scope(pipeline.start("first"));
  otel::Scope second(pipeline.start("second"));
  delete first;
  hold(otel::Scope::current() != nullptr, "a scope that ends out of turn leaves the others");
}

void all_is_drained() {
  otel::Pipeline pipeline("OTEL_SPAN_PROCESSOR=simple", 1);
  for (int count = 0; count < 500; count++) {
    pipeline.start("a name that makes lines of some length");
  }
  std::string lines = pipeline.drain();
  hold(std::count(lines.begin(), lines.end(), '\n') == 500, "a drain has all lines");
  hold(pipeline.count().undrained_spans == 0 && pipeline.drain().empty(), "after a drain there are none");
}

void what_is_not_drained_is_bounded() {
  otel::Pipeline pipeline("OTEL_SPAN_PROCESSOR=simple\nOTEL_C_MAX_UNDRAINED_SPANS=3", 1);
  pipeline.on_notice([](const std::string &) {});
  for (int count = 0; count < 5; count++) {
    pipeline.start("one");
  }
  otel::Numbers numbers = pipeline.count();
  hold(numbers.undrained_spans == 3 && numbers.lost_spans == 2, "spans beyond those that are kept are lost");
}

void pipelines_close() {
  otel::Pipeline pipeline("NO_SUCH_SETTING=1\nOTEL_SPAN_PROCESSOR=batch", otel::random_seed());
  hold(pipeline.ignored_settings() == std::vector<std::string>{"NO_SUCH_SETTING"}, "an ignored setting is named");
  otel::Tracer tracer = pipeline.tracer("library", "1", "");
  pipeline.start("last", {otel::Kind::internal, {}, tracer}).end();
  pipeline.shutdown();
  hold(has(pipeline.drain(), "resourceSpans"), "what waited at the shutdown can be drained");
  hold(throws(OTEL_FAILED, [&pipeline] { pipeline.shutdown(); }), "a second shutdown fails");
  pipeline.close();
  hold(throws(OTEL_CLOSED, [&pipeline] { pipeline.count(); }), "a pipeline that was closed is closed");
}

} // namespace

int main() {
  spans_end_with_their_scopes();
  spans_move();
  spans_may_outlive_the_pipeline();
  attributes_come_as_they_are();
  floats_come_as_they_are();
  sizes_and_lists_in_braces_are_values();
  refusals_leave_nothing();
  threads_have_a_current_span();
  all_is_drained();
  what_is_not_drained_is_bounded();
  headers_carry_a_trace();
  resources_name_the_sdk();
  pipelines_close();
  std::cout << "scopes: all is so\n";
  return 0;
}

// SPDX-License-Identifier: Apache-2.0
/* Looks whether tracing stays out of the way of a service: calls of a span throw nothing and are counted where they
   fail, an ended span has children still, a span that an exception leaves says so, threads may share a pipeline, and a
   fork exports nothing twice. It ends with 1 where something is not so, and names it. */
#include "hold.hpp"

#include <sys/wait.h>
#include <thread>
#include <unistd.h>

namespace {

static_assert(noexcept(std::declval<otel::Span &>().set("key", 1)));
static_assert(noexcept(std::declval<otel::Span &>().set(std::declval<const otel::Attributes &>())));
static_assert(noexcept(std::declval<otel::Span &>().add_event("row", std::declval<const otel::Attributes &>())));
static_assert(noexcept(std::declval<otel::Span &>().add_link(std::declval<const otel::Span &>(),
                                                             std::declval<const otel::Attributes &>())));
static_assert(noexcept(std::declval<otel::Span &>().record_exception("type", "message")));
static_assert(noexcept(std::declval<otel::Span &>().set_status(otel::StatusCode::ok)));
static_assert(noexcept(std::declval<otel::Span &>().update_name("name")));
static_assert(noexcept(std::declval<otel::Span &>().child("name", std::declval<const otel::Start &>())));
static_assert(noexcept(std::declval<otel::Span &>().inject()) &&noexcept(std::declval<otel::Span &>().identity()));
static_assert(noexcept(std::declval<otel::Pipeline &>().start("name", std::declval<const otel::Start &>())));
static_assert(noexcept(std::declval<otel::Pipeline &>().start_root("name", std::declval<const otel::Start &>())));
static_assert(noexcept(std::declval<otel::Pipeline &>().start_remote(std::declval<const otel::Headers &>(), "name",
                                                                     std::declval<const otel::Start &>())));
static_assert(noexcept(std::declval<otel::Span &>().end()) &&noexcept(std::declval<otel::Span &>().abandon()));

const otel::Headers CALLER{{"traceparent", "00-0af7651916cd43dd8448eb211c80319c-b7ad6b7169203331-01"},
                           {"tracestate", "a=1"},
                           {"baggage", "user=7"}};

std::string hexadecimal(std::uint64_t id) {
  char digits[17];
  std::snprintf(digits, sizeof digits, "%016llx", static_cast<unsigned long long>(id));
  return digits;
}

/* All lines of a pipeline. */
std::string lines_of(otel::Pipeline &pipeline) {
  pipeline.flush();
  return pipeline.drain();
}

std::size_t times(const std::string &lines, const std::string &text) {
  std::size_t count = 0;
  for (std::size_t at = lines.find(text); at != lines.npos; at = lines.find(text, at + 1)) {
    count++;
  }
  return count;
}

void what_fails_is_counted() {
  otel::Pipeline pipeline = pipeline_of_a_queue();
  otel::Span span = pipeline.start("one");
  hold(pipeline.failed_calls() == 0 && !pipeline.last_failure(), "no call has failed");
  span.set("\xff", 1);
  hold(failed_once(pipeline, OTEL_NOT_UTF8), "a key that is not UTF-8 is counted");
  hold(has(pipeline.last_failure()->what(), "not UTF-8"), "a failure says why");
  span.add_event("row", {{"stale", 1}, {"\xff", 2}});
  span.set_status(static_cast<otel::StatusCode>(77));
  span.update_name("\xff");
  hold(pipeline.failed_calls() == 4, "each failure is counted");
  otel::Span refused = span.child("\xff");
  hold(refused.key() == 0 && pipeline.failed_calls() == 5, "a child that cannot start is counted");
  refused.set("nothing", 1);
  refused.end();
  hold(pipeline.failed_calls() == 5, "a span that did not start takes no edit");
  hold(refused.child("grandchild").identity().trace_id_high == span.identity().trace_id_high,
       "the children of a span that did not start are those of its parent");
  span.add_event("old", {}, otel::Moment(std::chrono::seconds(-1)));
  span.end_at(otel::Moment(std::chrono::seconds(-1)));
  hold(pipeline.failed_calls() == 7 && pipeline.count().open_spans == 0,
       "a moment that is none is counted, and is now");
  span.set("late", 1);
  hold(pipeline.failed_calls() == 8 && pipeline.last_failure()->status() == OTEL_NO_SUCH_SPAN,
       "an edit of a span that has ended is counted");
  std::string lines = lines_of(pipeline);
  hold(!has(lines, "stale") && has(lines, R"("name":"old")"), "what was refused is not there, and what was not is");
}

void ended_spans_have_children() {
  otel::Pipeline pipeline = pipeline_of_a_queue();
  otel::Span parent = pipeline.start_remote(CALLER, "served");
  otel::Headers before = parent.inject();
  otel::Identity identity = parent.identity();
  parent.end();
  hold(parent.identity().span_id == identity.span_id && parent.key() == 0, "a span that has ended is who it was");
  hold(parent.inject() == before && before.size() == 3, "a span that has ended is handed on as it was");
  otel::Span child = parent.child("late");
  hold(child.identity().trace_id_low == identity.trace_id_low, "a child of an ended span is of its trace");
  otel::Headers onward = child.inject();
  hold(onward.size() == 3 && onward[1].second == "a=1" && onward[2].second == "user=7",
       "trace state and baggage go on to the child of an ended span");
  child.add_link(parent);
  child.end();
  otel::Span dropped = pipeline.start("abandoned");
  dropped.abandon();
  hold(dropped.child("later").identity().trace_id_low == dropped.identity().trace_id_low,
       "so are those of abandoned ones");
  hold(pipeline.failed_calls() == 0, "no call has failed");
  std::string lines = lines_of(pipeline);
  hold(has(lines, (R"("parentSpanId":")" + hexadecimal(identity.span_id)).c_str()), "the child names its parent");
  hold(times(lines, R"("spanId":")" + hexadecimal(identity.span_id)) == 2, "the link names the ended span");
}

void parents_are_passed_on_after_a_shutdown() {
  otel::Pipeline pipeline = pipeline_of_a_queue();
  otel::Span open = pipeline.start_remote(CALLER, "open");
  pipeline.shutdown();
  otel::Span span = pipeline.start_remote(CALLER, "served");
  hold(span.key() == 0 && span.inject() == CALLER, "a span after a shutdown passes its parent on");
  hold(span.child("child").inject() == CALLER, "so does its child");
  hold(open.child("below").inject() == open.inject(), "so does the child of a span from before");
  hold(pipeline.start("root").inject().empty(), "a root has nothing to pass on");
  open.end();
  hold(pipeline.failed_calls() == 0 && pipeline.count().open_spans == 0, "no call has failed, and no span is left");
}

/* Work that goes on when the pipeline is closed keeps the trace together. */
void spans_hand_themselves_on_after_a_close() {
  otel::Pipeline pipeline = pipeline_of_a_queue();
  pipeline.on_notice([](const std::string &) {});
  otel::Span open = pipeline.start_remote(CALLER, "open");
  const otel::Headers before{{"traceparent", open.inject().at(0).second}};
  pipeline.close();
  hold(open.inject() == before, "a span that was open at the close hands itself on");
  hold(open.child("below").inject() == before, "so does a child that cannot start");
  hold(pipeline.start_remote(CALLER, "late").inject() == CALLER, "what cannot start passes its parent on");
  hold(pipeline.failed_calls() == 3, "what failed is counted");
}

void spans_of_other_pipelines_are_linked() {
  otel::Pipeline here = pipeline_of_a_queue(), there("OTEL_SPAN_PROCESSOR=batch", 2);
  otel::Span other = there.start("other"), mine = here.start("mine");
  mine.add_link(other);
  mine.end();
  hold(here.failed_calls() == 0 && has(lines_of(here), hexadecimal(other.identity().span_id).c_str()),
       "a link names the span of another pipeline");
}

void exceptions_that_leave_are_errors() {
  otel::Pipeline pipeline = pipeline_of_a_queue();
  try {
    otel::Span outer = pipeline.start("left");
    otel::Span moved = std::move(outer);
    throw std::runtime_error("no stock");
  } catch (const std::exception &) {
    otel::Span inside = pipeline.start("in a handler");
  }
  std::string lines = lines_of(pipeline);
  hold(times(lines, R"("name":"exception")") == 1 && times(lines, R"("code":2)") == 1,
       "a span that an exception leaves is an error, and no other is");
  hold(times(lines, R"("name":"left")") == 1, "a span that an exception leaves ends");
}

void spans_within_an_unwinding_are_no_errors() {
  otel::Pipeline pipeline = pipeline_of_a_queue();
  struct Cleaner {
    otel::Pipeline &pipeline;
    ~Cleaner() { pipeline.start("clean"); }
  };
  try {
    Cleaner cleaner{pipeline};
    throw std::runtime_error("no stock");
  } catch (const std::exception &) {
  }
  hold(times(lines_of(pipeline), R"("code":2)") == 0, "a span that begins and ends in an unwinding is no error");
}

void threads_share_a_pipeline() {
  constexpr int THREADS = 4, SPANS = 500;
  otel::Pipeline pipeline("OTEL_SPAN_PROCESSOR=batch\nOTEL_BSP_MAX_QUEUE_SIZE=10000", 1);
  otel::Span root = pipeline.start("root");
  std::vector<std::thread> threads;
  for (int number = 0; number < THREADS; number++) {
    threads.emplace_back([&, number] {
      for (int count = 0; count < SPANS; count++) {
        otel::Span span = root.child("child", {otel::Kind::internal, {{"thread", number}}});
        span.set({{"thread too", number}});
        root.set("shared", count);
      }
    });
  }
  for (std::thread &thread : threads) {
    thread.join();
  }
  hold(pipeline.failed_calls() == 0, "no call of a thread has failed");
  std::string lines = lines_of(pipeline);
  for (int number = 0; number < THREADS; number++) {
    std::string value = R"(","value":{"intValue":")" + std::to_string(number) + R"("}})";
    hold(times(lines, R"([{"key":"thread)" + value + R"(,{"key":"thread too)" + value + "]") == SPANS,
         "a span has the attributes of its own thread");
  }
}

/* Whether work holds in a child process, which ends with it, or where it hangs. */
template <typename Work> bool holds_in_child(Work work) {
  pid_t child = fork();
  if (child == 0) {
    alarm(20);
    _exit(work() ? 0 : 1);
  }
  int status = -1;
  return waitpid(child, &status, 0) == child && status == 0;
}

void children_leave_what_is_their_parents() {
  otel::Pipeline pipeline("OTEL_SPAN_PROCESSOR=batch\nOTEL_BSP_MAX_QUEUE_SIZE=1000000", 1);
  otel::Span span = pipeline.start("open");
  std::atomic<bool> is_over{false};
  std::thread busy([&] {
    while (!is_over) {
      span.set("busy", 1);
    }
  });
  for (int round = 0; round < 20; round++) {
    bool holds = holds_in_child([&] {
      otel::Span child = span.child("twice");
      bool is_refused = child.key() == 0 && pipeline.failed_calls() == 1 &&
                        throws(OTEL_CLOSED, [&] { pipeline.flush(); }) &&
                        throws(OTEL_CLOSED, [&] { pipeline.drain(); });
      otel::Span ends = std::move(span);
      otel::Pipeline closes = std::move(pipeline), own("OTEL_SPAN_PROCESSOR=batch", 2);
      own.start("own");
      std::string lines = lines_of(own);
      return is_refused && has(lines, R"("name":"own")") && !has(lines, "twice");
    });
    hold(holds, "a child process leaves the pipeline of its parent");
  }
  is_over = true;
  busy.join();
  span.end();
  hold(pipeline.failed_calls() == 0 && times(lines_of(pipeline), R"("name":"open")") == 1, "the parent goes on");
}

void notices_say_what_is_lost() {
  std::vector<std::string> notices;
  {
    otel::Pipeline pipeline("OTEL_SPAN_PROCESSOR=batch\nOTEL_BSP_MAX_QUEUE_SIZE=2\nOTEL_BSP_MAX_EXPORT_BATCH_SIZE=2",
                            1);
    pipeline.on_notice([&notices](const std::string &text) {
      notices.push_back(text);
      throw std::runtime_error("what a notice throws goes no further");
    });
    otel::Span open = pipeline.start("open");
    for (int round = 0; round < 2; round++) {
      for (int count = 0; count < 5; count++) {
        pipeline.start("dropped");
      }
      pipeline.flush();
    }
    hold(notices == std::vector<std::string>{"spans that are lost, since the queue was full or memory ran out: 3"},
         "the first drop has a notice, and the next has none within a minute");
    open.end();
  }
  hold(notices.size() == 2 && notices[1] == "spans that were open or not drained at the end, and are lost: 5",
       "what is lost at the end has a notice");
  notices.clear();
  {
    otel::Pipeline pipeline = pipeline_of_a_queue();
    pipeline.on_notice([&notices](const std::string &text) { notices.push_back(text); });
    pipeline.start("drained");
    pipeline.shutdown();
    pipeline.drain();
  }
  hold(notices.empty(), "where nothing is lost there is no notice");
}

void time_that_is_due_goes_by_the_steady_clock() {
  otel::Pipeline pipeline("OTEL_SPAN_PROCESSOR=batch\nOTEL_BSP_SCHEDULE_DELAY=1", 1);
  pipeline.run();
  pipeline.start("due");
  pipeline.run(otel::Steady::now() + std::chrono::seconds(1));
  hold(has(pipeline.drain(), R"("name":"due")"), "what is due by the steady clock is exported");
}

} // namespace

int main() {
  what_fails_is_counted();
  ended_spans_have_children();
  parents_are_passed_on_after_a_shutdown();
  spans_hand_themselves_on_after_a_close();
  spans_of_other_pipelines_are_linked();
  exceptions_that_leave_are_errors();
  spans_within_an_unwinding_are_no_errors();
  threads_share_a_pipeline();
  children_leave_what_is_their_parents();
  notices_say_what_is_lost();
  time_that_is_due_goes_by_the_steady_clock();
  std::cout << "failures: all is so\n";
  return 0;
}

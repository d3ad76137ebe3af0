// SPDX-License-Identifier: Apache-2.0
/* A service of otel_service.hpp that is tried against a stand-in for a collector: service_cpp WORK

   It prints its numbers, each with its name. tests/service_check runs it, and looks at what came. */
#include "otel_service.hpp"

#include "hold.hpp"

#include <sys/wait.h>
#include <thread>
#include <unistd.h>

namespace {

void print_numbers(const otel::Service &service, const std::string &whose = "") {
  otel::ServiceNumbers numbers = service.count();
  const std::pair<const char *, std::uint64_t> all[] = {
      {"ended", numbers.ended_spans},         {"posted", numbers.posted_spans},   {"queued", numbers.queued_spans},
      {"undrained", numbers.undrained_spans}, {"waiting", numbers.waiting_spans}, {"dropped", numbers.dropped_spans},
      {"unkept", numbers.unkept_spans},       {"crowded", numbers.crowded_spans}, {"rejected", numbers.rejected_spans},
      {"untaken", numbers.untaken_spans},     {"late", numbers.late_spans},       {"failed", numbers.failed_calls}};
  for (const auto &[name, value] : all) {
    std::cout << whose << name << " " << value << "\n";
  }
  std::cout.flush();
}

/* A request, and work in its scope: two spans. */
void trace(otel::Service &service) {
  otel::Scope scope(service.start("GET /cart", {otel::Kind::server, {{"http.route", "/cart"}}}));
  otel::Span child = service.start("ask stock", {otel::Kind::client});
  hold(child.identity().trace_id_low == scope->identity().trace_id_low, "a span in a scope is a child");
  child.set("size", 3);
}

void do_plain() {
  otel::Service service = otel::Service::from_environment();
  std::vector<std::thread> threads;
  for (int number = 0; number < 2; number++) {
    threads.emplace_back([&service] {
      for (int count = 0; count < 100; count++) {
        trace(service);
      }
    });
  }
  for (std::thread &thread : threads) {
    thread.join();
  }
  hold(service.flush(std::chrono::seconds(5)), "a flush posts all");
  print_numbers(service, "flushed_");
  trace(service);
  hold(service.close(std::chrono::seconds(5)), "a close posts the rest");
  otel::Span late = service.start("late");
  hold(late.key() == 0 && service.failed_calls() == 1 && service.last_failure()->status() == OTEL_CLOSED,
       "no span starts after the close");
  hold(!service.close(std::chrono::seconds(5)), "a service closes once");
  print_numbers(service);
}

/* The end of the scope closes. */
void do_scope() {
  otel::ServiceOptions options;
  options.settings = "OTEL_SERVICE_NAME=shop\nNO_SUCH_SETTING=1";
  options.exit_time = std::chrono::milliseconds(500);
  options.notice = [](const std::string &text) {
    std::cout << "notice " << text << std::endl;
    throw std::runtime_error("what a notice throws goes no further");
  };
  otel::Service first = otel::Service::from_environment(options);
  hold(first.ignored_settings() == std::vector<std::string>{"NO_SUCH_SETTING"}, "an ignored setting is named");
  otel::Service service = std::move(first);
  hold(first.start("moved away").key() == 0, "a service that was moved away starts nothing");
  trace(service);
}

void do_fork() {
  otel::Service service = otel::Service::from_environment();
  trace(service);
  otel::Span open = service.start("open at the fork");
  pid_t child = fork();
  if (child == 0) {
    alarm(30);
    otel::Span below = open.child("in the child");
    hold(below.key() != 0 && below.identity().trace_id_low == open.identity().trace_id_low,
         "a child of the parent's span is of its trace");
    hold(below.inject().size() == 1 && open.inject().size() == 1, "both are handed on");
    below.end();
    trace(service);
    hold(service.close(std::chrono::seconds(5)), "the child's service closes");
    print_numbers(service, "child_");
    _exit(0);
  }
  int status = -1;
  open.end();
  hold(waitpid(child, &status, 0) == child && status == 0, "the child ended well");
  hold(service.close(std::chrono::seconds(5)), "the parent's service closes");
  print_numbers(service);
}

void do_refused() {
  try {
    otel::Service::from_environment();
  } catch (const otel::ServiceError &error) {
    hold(error.status() == OTEL_SERVICE_HTTPS, "an error has its status");
    std::cout << error.what() << "\n";
  }
}

} // namespace

int main(int count, char **words) {
  std::string work = count > 1 ? words[1] : "";
  if (work == "plain") {
    do_plain();
  } else if (work == "scope") {
    do_scope();
  } else if (work == "fork") {
    do_fork();
  } else if (work == "refused") {
    do_refused();
  } else {
    std::cerr << "service_cpp: it takes the name of a work\n";
    return 2;
  }
  return 0;
}

/* SPDX-License-Identifier: Apache-2.0 */
/* A service that is tried against a stand-in for a collector: service WORK [NAME=NUMBER ..]

   It does the work, closes, and prints its numbers, each with its name. The names are those of options, and `spans`,
   `close_time`. tests/service_check runs it, and looks at what came. */
#define _DEFAULT_SOURCE
#include "otel_service.h"

#include <inttypes.h>
#include <pthread.h>
#include <stdatomic.h>
#include <stdio.h>
#include <stdlib.h>
#include <sys/wait.h>
#include <time.h>
#include <unistd.h>

typedef struct {
  otel_service_options options;
  uint64_t spans;
  uint64_t close_time;
} work_plan;

static uint64_t milliseconds(void) {
  struct timespec now;
  clock_gettime(CLOCK_MONOTONIC, &now);
  return (uint64_t)now.tv_sec * 1000 + (uint64_t)now.tv_nsec / 1000000;
}

static void pause_for(long wait) {
  nanosleep(&(struct timespec){.tv_sec = wait / 1000, .tv_nsec = wait % 1000 * 1000000}, NULL);
}

/* Ends the program where something is not so. */
static void hold(bool is_so, const char *what) {
  if (!is_so) {
    fprintf(stderr, "it is not so that %s\n", what);
    exit(1);
  }
}

static void print_numbers(otel_service *service, const char *whose) {
  otel_service_numbers it;
  hold(otel_service_count(service, &it, sizeof it) == OTEL_OK, "a service has numbers");
  hold(otel_service_count(service, &it, sizeof it - 1) == OTEL_BAD_ARGUMENT, "numbers of another size are refused");
  const struct {
    const char *name;
    uint64_t value;
  } all[] = {{"ended", it.ended_spans},         {"posted", it.posted_spans},   {"queued", it.queued_spans},
             {"undrained", it.undrained_spans}, {"waiting", it.waiting_spans}, {"dropped", it.dropped_spans},
             {"unkept", it.unkept_spans},       {"crowded", it.crowded_spans}, {"rejected", it.rejected_spans},
             {"untaken", it.untaken_spans},     {"late", it.late_spans},       {"open", it.open_spans},
             {"posted_lines", it.posted_lines}, {"lost_lines", it.lost_lines}, {"failed", it.failed_calls}};
  for (size_t i = 0; i < sizeof all / sizeof *all; i++) {
    printf("%s%s %" PRIu64 "\n", whose, all[i].name, all[i].value);
  }
}

/* A request, and work below it: two spans, one of them ended last. */
static void trace(otel_service *service, uint64_t number) {
  otel_attribute attributes[] = {otel_attribute_text("http.route", "/cart"),
                                 otel_attribute_integer("number", (int64_t)number)};
  otel_service_span span = otel_service_start(service, OTEL_SERVER, "GET /cart", attributes, 2);
  otel_service_span child = otel_service_start_child(service, span, OTEL_CLIENT, "ask stock", NULL, 0);
  otel_service_add_event(service, child, "sold out", attributes, 1);
  otel_service_end(service, child);
  otel_service_set_status(service, span, OTEL_STATUS_ERROR, "sold out");
  otel_service_end(service, span);
}

static void trace_all(otel_service *service, uint64_t spans) {
  for (uint64_t i = 0; i < spans / 2; i++) {
    trace(service, i);
  }
}

static otel_service *opened(const work_plan *plan) {
  otel_service *service;
  uint32_t status = otel_service_open(&service, &plan->options);
  if (status != OTEL_SERVICE_OK) {
    printf("status %" PRIu32 "\n%s\n", status, otel_service_status_text(status));
    exit(3);
  }
  return service;
}

static void close_and_print(otel_service *service, const work_plan *plan) {
  uint64_t began = milliseconds();
  uint32_t status = otel_service_close(service, plan->close_time);
  printf("close_status %" PRIu32 "\nclose_took %" PRIu64 "\n", status, milliseconds() - began);
  print_numbers(service, "");
  hold(otel_service_close(service, 0) == OTEL_CLOSED, "a service closes once");
  otel_service_span late = otel_service_start(service, OTEL_SERVER, "late", NULL, 0);
  hold(late.key == 0 && otel_service_end(service, late) == OTEL_OK, "no span starts after the close");
  otel_service_free(service);
}

static void do_plain(const work_plan *plan) {
  otel_service *service = opened(plan);
  trace_all(service, plan->spans);
  close_and_print(service, plan);
}

/* Flushes in the middle. */
static void do_flush(const work_plan *plan) {
  otel_service *service = opened(plan);
  trace_all(service, plan->spans);
  printf("flush_status %" PRIu32 "\n", otel_service_flush(service, plan->close_time));
  print_numbers(service, "flushed_");
  trace_all(service, plan->spans);
  close_and_print(service, plan);
}

typedef struct {
  otel_service *service;
  uint64_t spans;
} share;

static void *trace_share(void *context) {
  share *it = context;
  trace_all(it->service, it->spans);
  return NULL;
}

static void do_threads(const work_plan *plan) {
  otel_service *service = opened(plan);
  share share = {service, plan->spans / 2};
  pthread_t threads[2];
  for (int i = 0; i < 2; i++) {
    hold(pthread_create(&threads[i], NULL, trace_share, &share) == 0, "there is a thread");
  }
  for (int i = 0; i < 2; i++) {
    pthread_join(threads[i], NULL);
  }
  close_and_print(service, plan);
}

/* Makes calls while the collector does not answer, and prints how long one took at most. */
static void do_calls(const work_plan *plan) {
  otel_service *service = opened(plan);
  uint64_t longest = 0;
  for (uint64_t i = 0; i < plan->spans / 2; i++) {
    uint64_t began = milliseconds();
    trace(service, i);
    uint64_t took = milliseconds() - began;
    longest = took > longest ? took : longest;
    pause_for(10);
  }
  printf("longest_call %" PRIu64 "\n", longest);
  close_and_print(service, plan);
}

/* A child process traces and closes beside its parent, with a span of its parent as its own spans' parent. */
static void do_fork(const work_plan *plan) {
  otel_service *service = opened(plan);
  trace_all(service, plan->spans);
  otel_service_span open = otel_service_start(service, OTEL_SERVER, "open at the fork", NULL, 0);
  fflush(stdout);
  pid_t child = fork();
  if (child == 0) {
    alarm(30);
    hold(otel_service_end(service, open) == OTEL_NO_SUCH_SPAN, "a span of the parent ends there alone");
    otel_service_span below = otel_service_start_child(service, open, OTEL_CLIENT, "in the child", NULL, 0);
    hold(below.identity.trace_id_low == open.identity.trace_id_low, "a child of the parent's span is of its trace");
    otel_service_end(service, below);
    trace_all(service, plan->spans);
    hold(otel_service_close(service, plan->close_time) == OTEL_OK, "the child's service closes");
    print_numbers(service, "child_");
    otel_service_free(service);
    exit(0);
  }
  int status = -1;
  trace_all(service, plan->spans);
  otel_service_end(service, open);
  hold(waitpid(child, &status, 0) == child && status == 0, "the child ended well");
  close_and_print(service, plan);
}

typedef struct {
  otel_service *service;
  atomic_bool is_over;
} busy;

static void *trace_until_over(void *context) {
  busy *it = context;
  while (!it->is_over) {
    trace(it->service, 0);
    pause_for(1);
  }
  return NULL;
}

/* A child, and where it is told a child of that, which traces and closes; false where one did not end well. */
static bool ends_well_in_child(otel_service *service, const work_plan *plan, bool has_grandchild) {
  fflush(stdout);
  pid_t child = fork();
  if (child == 0) {
    alarm(30);
    trace_all(service, plan->spans);
    bool is_well = !has_grandchild || ends_well_in_child(service, plan, false);
    is_well = otel_service_close(service, plan->close_time) == OTEL_OK && is_well;
    otel_service_free(service);
    exit(is_well ? 0 : 1);
  }
  int status = -1;
  return waitpid(child, &status, 0) == child && status == 0;
}

/* Children trace while threads of the parent do, which may hold a lock at the fork. */
static void do_forks(const work_plan *plan) {
  busy busy = {opened(plan), false};
  pthread_t threads[2];
  for (int i = 0; i < 2; i++) {
    hold(pthread_create(&threads[i], NULL, trace_until_over, &busy) == 0, "there is a thread");
  }
  for (int i = 0; i < 20; i++) {
    hold(ends_well_in_child(busy.service, plan, i % 4 == 0), "a child ended well");
  }
  busy.is_over = true;
  for (int i = 0; i < 2; i++) {
    pthread_join(threads[i], NULL);
  }
  close_and_print(busy.service, plan);
}

/* Children that end at once, or let go of the service before, leave all to their parent. */
static void do_idle_children(const work_plan *plan) {
  otel_service *service = opened(plan);
  trace_all(service, plan->spans);
  for (int i = 0; i < 10; i++) {
    fflush(stdout);
    pid_t child = fork();
    if (child == 0) {
      alarm(30);
      if (i % 2 == 0) {
        otel_service_free(service);
      }
      exit(0);
    }
    int status = -1;
    hold(waitpid(child, &status, 0) == child && status == 0, "an idle child ended well");
  }
  close_and_print(service, plan);
}

static void note(void *context, const char *text) {
  (void)context;
  printf("notice %s\n", text);
  fflush(stdout);
}

/* Leaves the closing to the end of the program, and notices to a function. */
static void do_exit(const work_plan *plan) {
  work_plan other = *plan;
  other.options.closes_at_exit = true;
  other.options.exit_time = plan->close_time;
  other.options.notice = note;
  trace_all(opened(&other), plan->spans);
}

static void do_open(const work_plan *plan) {
  char names[512];
  otel_service *service = opened(plan);
  otel_service_ignored_settings(service, names, sizeof names);
  printf("status 0\nignored %s\n", names);
  hold(otel_service_ignored_settings(service, names, 0) > 0 || names[0] == '\0', "names without room have a length");
  otel_service_free(service);
}

/* What headers hand on, and what an ended span and one that could not start do. */
static void do_headers(const work_plan *plan) {
  otel_service *service = opened(plan);
  char headers[512], small[8];
  otel_service_headers caller = {"00-0af7651916cd43dd8448eb211c80319c-b7ad6b7169203331-01", "a=1", NULL};
  otel_service_span span = otel_service_start_remote(service, caller, OTEL_SERVER, "served", NULL, 0);
  hold(span.identity.trace_id_high == 0x0af7651916cd43dd, "a span is of the trace that the headers name");
  hold(otel_service_inject(service, span, headers, sizeof headers) == OTEL_OK && strstr(headers, "a=1\r\n") != NULL,
       "a span hands its trace state on");
  hold(otel_service_inject(service, span, small, sizeof small) == OTEL_BUFFER_TOO_SMALL && small[0] == '\0',
       "headers that do not fit are an empty text");
  otel_service_span bad = otel_service_start_child(service, span, 77, "no such kind", NULL, 0);
  hold(bad.key == 0 && otel_service_set_text(service, bad, "key", "value") == OTEL_OK, "what did not start is no span");
  otel_service_span below = otel_service_start_child(service, bad, OTEL_CLIENT, "below", NULL, 0);
  hold(below.identity.trace_id_high == span.identity.trace_id_high, "its children are those of its parent");
  otel_service_end(service, span);
  hold(otel_service_inject(service, span, headers, sizeof headers) == OTEL_OK &&
           strncmp(headers, "traceparent: 00-0af7651916cd43dd8448eb211c80319c-", 49) == 0,
       "a span that has ended is handed on");
  hold(otel_service_add_link(service, below, span, NULL, 0) == OTEL_OK, "a span that has ended is linked");
  otel_service_abandon(service, below);
  otel_handle *handle = otel_service_lock(service);
  uint64_t tracer;
  hold(otel_tracer(handle, (const uint8_t *)"library", 7, (const uint8_t *)"", 0, (const uint8_t *)"", 0, &tracer) ==
           OTEL_OK,
       "between the lock and the unlock calls of otel.h are made");
  otel_service_unlock(service);
  close_and_print(service, plan);
}

static void hold_headers(otel_service *service, otel_service_span span, const char *wanted, const char *what) {
  char headers[512];
  hold(otel_service_inject(service, span, headers, sizeof headers) == OTEL_OK && strcmp(headers, wanted) == 0, what);
}

/* Where nothing records any more, traces of others go on. */
static void hold_passing(otel_service *service) {
  static const char caller[] = "00-0af7651916cd43dd8448eb211c80319c-b7ad6b7169203331-01";
  static const char line[] = "traceparent: 00-0af7651916cd43dd8448eb211c80319c-b7ad6b7169203331-01\r\n";
  static const char *const none[] = {"", "00-", "0x-0af7651916cd43dd8448eb211c80319c-b7ad6b7169203331-01",
                                     "ff-0af7651916cd43dd8448eb211c80319c-b7ad6b7169203331-01",
                                     "00-00000000000000000000000000000000-b7ad6b7169203331-01",
                                     "00-0af7651916cd43dd8448eb211c80319c-0000000000000000-01",
                                     "00-0AF7651916cd43dd8448eb211c80319c-b7ad6b7169203331-01",
                                     "00-0af7651916cd43dd8448eb211c80319c-b7ad6b7169203331-0",
                                     "00-0af7651916cd43dd8448eb211c80319c-b7ad6b7169203331-01-"};
  otel_service_span span =
      otel_service_start_remote(service, (otel_service_headers){.traceparent = caller}, OTEL_SERVER, "late", NULL, 0);
  hold(span.key == 0, "nothing starts any more");
  hold_headers(service, span, line, "it passes on whose child it was to be");
  otel_service_span child = otel_service_start_child(service, span, OTEL_CLIENT, "below", NULL, 0);
  hold_headers(service, child, line, "so do its children");
  hold_headers(service, otel_service_start(service, OTEL_SERVER, "root", NULL, 0), "", "a root has nothing to pass on");
  for (size_t i = 0; i < sizeof none / sizeof *none; i++) {
    otel_service_headers headers = {.traceparent = none[i]};
    span = otel_service_start_remote(service, headers, OTEL_SERVER, "late", NULL, 0);
    hold_headers(service, span, "", "what names no span is not passed on");
  }
}

static void do_late(const work_plan *plan) {
  otel_service *service = opened(plan);
  char before[512];
  otel_service_span open = otel_service_start(service, OTEL_SERVER, "open", NULL, 0);
  hold(otel_service_inject(service, open, before, sizeof before) == OTEL_OK, "a span hands itself on");
  otel_shutdown(otel_service_lock(service));
  otel_service_unlock(service);
  hold_passing(service);
  print_numbers(service, "shut_");
  otel_service_close(service, plan->close_time);
  hold_passing(service);
  hold_headers(service, open, before, "a span that was open at the end hands itself on");
  print_numbers(service, "");
  otel_service_free(service);
}

/* Makes each call on a service that did not open. */
static void do_none(const work_plan *plan) {
  work_plan bad = *plan;
  otel_service *none;
  otel_service_numbers numbers;
  char names[8] = "x";
  uint64_t key;
  bad.options.endpoint = "no URL";
  hold(otel_service_open(&none, &bad.options) == OTEL_SERVICE_BAD_ENDPOINT && none == NULL, "it did not open");
  hold_passing(none);
  trace_all(none, plan->spans);
  otel_service_span span = otel_service_start(none, OTEL_SERVER, "GET", NULL, 0);
  span.key = 1;
  hold(otel_service_set_text(none, span, "key", "value") == OTEL_CLOSED, "edits do nothing");
  hold(otel_service_record_exception(none, span, "type", "message", NULL) == OTEL_CLOSED, "so do exceptions");
  hold(otel_service_add_link(none, span, span, NULL, 0) == OTEL_CLOSED, "and links");
  hold(otel_service_update_name(none, span, "POST") == OTEL_CLOSED, "and names");
  hold(otel_service_end(none, span) == OTEL_CLOSED && otel_service_abandon(none, span) == OTEL_CLOSED, "and ends");
  hold(otel_start(otel_service_lock(none), 0, 0, OTEL_SERVER, (const uint8_t *)"GET", 3, 1, &key) == OTEL_CLOSED,
       "its handle is not open");
  otel_service_unlock(none);
  hold(otel_service_flush(none, 10000) == OTEL_CLOSED, "there is nothing to flush");
  hold(otel_service_count(none, &numbers, sizeof numbers) == OTEL_CLOSED && numbers.ended_spans == 0,
       "nothing is counted");
  hold(otel_service_ignored_settings(none, names, sizeof names) == 0 && names[0] == '\0', "nothing was ignored");
  hold(otel_service_close(none, 10000) == OTEL_CLOSED, "it is closed");
  otel_service_free(none);
}

/* Works while a request for memory is refused: the service does not open and says why, or all spans are counted. */
static void do_refused(const work_plan *plan) {
  otel_service *service;
  otel_service_numbers numbers;
  uint32_t status = otel_service_open(&service, &plan->options);
  if (status != OTEL_SERVICE_OK) {
    hold(status == OTEL_SERVICE_OUT_OF_MEMORY || status == OTEL_SERVICE_NO_THREAD, "memory ran out, or no thread came");
    printf("service: OUT_OF_MEMORY 1 times\n");
    return;
  }
  trace_all(service, plan->spans);
  otel_service_flush(service, 20);
  trace_all(service, plan->spans);
  otel_service_close(service, plan->close_time);
  otel_service_count(service, &numbers, sizeof numbers);
  hold(numbers.ended_spans + numbers.failed_calls >= 2 * plan->spans && numbers.ended_spans <= 2 * plan->spans,
       "every span that has ended is counted, or a call failed");
  hold(numbers.open_spans == 0 && numbers.waiting_spans == 0, "no span is left");
  otel_service_free(service);
  printf("service: OUT_OF_MEMORY %" PRIu64 " times\n", numbers.failed_calls);
}

static bool read_word(work_plan *plan, const char *word) {
  otel_service_options *options = &plan->options;
  uint64_t tries = options->tries;
  const struct {
    const char *name;
    uint64_t *value;
  } all[] = {{"spans=", &plan->spans},
             {"close_time=", &plan->close_time},
             {"interval=", &options->interval},
             {"request_time=", &options->request_time},
             {"tries=", &tries},
             {"first_wait=", &options->first_wait},
             {"longest_wait=", &options->longest_wait},
             {"waiting_bytes=", &options->waiting_bytes},
             {"waiting_lines=", &options->waiting_lines}};
  for (size_t i = 0; i < sizeof all / sizeof *all; i++) {
    if (strncmp(word, all[i].name, strlen(all[i].name)) == 0) {
      *all[i].value = strtoull(word + strlen(all[i].name), NULL, 10);
      options->tries = (uint32_t)tries;
      return true;
    }
  }
  return false;
}

int main(int count, char **words) {
  static const struct {
    const char *name;
    void (*work)(const work_plan *plan);
  } works[] = {
      {"plain", do_plain}, {"flush", do_flush},     {"threads", do_threads}, {"calls", do_calls},
      {"fork", do_fork},   {"forks", do_forks},     {"exit", do_exit},       {"idle_children", do_idle_children},
      {"open", do_open},   {"headers", do_headers}, {"late", do_late},
      {"none", do_none},   {"refused", do_refused}};
  work_plan plan = {otel_service_options_of_defaults(), 100, 5000};
  for (int i = 2; i < count; i++) {
    hold(read_word(&plan, words[i]), "each word is known");
  }
  for (size_t i = 0; count > 1 && i < sizeof works / sizeof *works; i++) {
    if (strcmp(words[1], works[i].name) == 0) {
      works[i].work(&plan);
      return 0;
    }
  }
  fprintf(stderr, "service: it takes the name of a work\n");
  return 2;
}

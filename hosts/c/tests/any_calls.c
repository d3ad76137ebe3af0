// SPDX-License-Identifier: Apache-2.0
/* Calls any exports with any arguments, on open and closed handles, and looks after each call whether the library keeps
   what its header promises, as far as that can be seen from outside: any_calls COUNT SEED

   It ends with 1 at a fault, and names it with the call's number and the seed: the same words find it again. */
#include "driver.h"

#include <inttypes.h>
#include <signal.h>
#include <stdio.h>
#include <stdlib.h>
#include <string.h>

typedef struct {
  const char *name;
  void (*call)(driver *driver, pipeline *pipeline);
  /* How often it is called beside the others; 0 where `next_call` says when. */
  uint32_t weight;
} any_call;

static const any_call calls[] = {
    {"otel_open", call_open, 4},
    {"otel_ignored_settings", call_ignored_settings, 10},
    {"otel_tracer", call_tracer, 5},
    {"otel_with_text", call_with_text, 40},
    {"otel_with_integer", call_with_integer, 30},
    {"otel_with_float", call_with_float, 30},
    {"otel_with_bool", call_with_bool, 20},
    {"otel_with_texts", call_with_texts, 40},
    {"otel_with_integers", call_with_integers, 20},
    {"otel_with_floats", call_with_floats, 20},
    {"otel_with_bools", call_with_bools, 20},
    {"otel_start", call_start, 150},
    {"otel_start_remote", call_start_remote, 80},
    {"otel_start_with", call_start_with, 80},
    {"otel_start_remote_with", call_start_remote_with, 40},
    {"otel_identity", call_identity, 20},
    {"otel_set_text", call_set_text, 40},
    {"otel_set_integer", call_set_integer, 30},
    {"otel_set_float", call_set_float, 30},
    {"otel_set_bool", call_set_bool, 20},
    {"otel_set_attributes", call_set_attributes, 30},
    {"otel_set_attributes_with", call_set_attributes_with, 40},
    {"otel_add_event", call_add_event, 40},
    {"otel_add_event_with", call_add_event_with, 40},
    {"otel_record_exception", call_record_exception, 30},
    {"otel_add_link", call_add_link, 30},
    {"otel_add_link_with", call_add_link_with, 30},
    {"otel_add_remote_link", call_add_remote_link, 30},
    {"otel_add_remote_link_with", call_add_remote_link_with, 30},
    {"otel_set_status", call_set_status, 40},
    {"otel_update_name", call_update_name, 20},
    {"otel_inject", call_inject, 30},
    {"otel_end", call_end, 200},
    {"otel_abandon", call_abandon, 20},
    {"otel_flush", call_flush, 10},
    {"otel_run", call_run, 20},
    {"otel_drain", call_drain, 10},
    {"otel_drain_some", call_drain_some, 20},
    {"otel_count", call_count, 10},
    {"otel_version", call_version, 2},
    {"otel_after_fork", call_after_fork, 4},
    {"otel_shutdown", call_shutdown, 0},
    {"otel_close", call_close, 0},
};

enum { CALLS = sizeof calls / sizeof *calls, LIFE = 4096 };

/* What a signal's handler says where the library faults. */
static driver the_driver;

_Noreturn void fail(const driver *driver, const char *what, uint64_t number) {
  fprintf(stderr, "any_calls: call %" PRIu64 " of seed %" PRIu64 ", %s: %s %" PRIu64 "\n", driver->number, driver->seed,
          driver->name, what, number);
  exit(1);
}

/* The address sanitizer tells more of a fault than is told here. */
#ifndef __SANITIZE_ADDRESS__
static void say_fault(int signal) {
  fprintf(stderr, "any_calls: call %" PRIu64 " of seed %" PRIu64 ", %s: it faulted with signal %d\n", the_driver.number,
          the_driver.seed, the_driver.name, signal);
  _Exit(1);
}

static void catch_faults(void) {
  static const int faults[] = {SIGSEGV, SIGBUS, SIGILL, SIGFPE, SIGABRT};
  for (size_t i = 0; i < sizeof faults / sizeof *faults; i++) {
    signal(faults[i], say_fault);
  }
}
#else
static void catch_faults(void) {}
#endif

static const any_call *call_of(const char *name) {
  const any_call *call = calls;
  while (strcmp(call->name, name) != 0) {
    call++;
  }
  return call;
}

static uint64_t all_weights(void) {
  uint64_t weights = 0;
  for (size_t i = 0; i < CALLS; i++) {
    weights += calls[i].weight;
  }
  return weights;
}

static const any_call *weighted_call(driver *driver) {
  uint64_t at = any_below(driver, all_weights());
  const any_call *call = calls;
  while (at >= call->weight) {
    at -= call->weight;
    call++;
  }
  return call;
}

/* A closed pipeline is opened soon, and an open one shut down and closed after thousands of calls, or where the model
   has no room for more keys. */
static const any_call *next_call(driver *driver, const pipeline *pipeline) {
  if (!pipeline->is_open && is_one_in(driver, 8)) {
    return call_of("otel_open");
  }
  if (pipeline->given_count > KEYS / 2 || is_one_in(driver, LIFE)) {
    return call_of("otel_close");
  }
  if (is_one_in(driver, pipeline->is_shut_down ? LIFE / 16 : LIFE)) {
    return call_of("otel_shutdown");
  }
  return weighted_call(driver);
}

/* The call, or another where the model has no room for what it would give. */
static const any_call *call_with_room(const pipeline *pipeline, const any_call *call) {
  bool is_start = call->call == call_start || call->call == call_start_remote || call->call == call_start_with ||
                  call->call == call_start_remote_with;
  if (is_start && pipeline->span_count == SPANS) {
    return call_of("otel_end");
  }
  if (call->call == call_tracer && pipeline->tracer_count == TRACERS) {
    return call_of("otel_count");
  }
  return call;
}

static void drive(driver *driver, uint64_t count) {
  for (driver->number = 1; driver->number <= count; driver->number++) {
    pipeline *pipeline = &driver->pipelines[any_below(driver, PIPELINES)];
    const any_call *call = call_with_room(pipeline, next_call(driver, pipeline));
    driver->name = call->name;
    call->call(driver, pipeline);
    check_numbers(driver, pipeline);
  }
}

/* Closes what is open, so that all that the library had can be seen to be given back. */
static void close_all(driver *driver) {
  driver->name = "otel_close";
  for (size_t i = 0; i < PIPELINES; i++) {
    drain_all(driver, &driver->pipelines[i]);
    call_close(driver, &driver->pipelines[i]);
  }
}

static void print_summary(const driver *driver, uint64_t count) {
  static const char *const names[STATUSES] = {
      "OK",       "CLOSED",       "ALREADY_OPEN",     "OUT_OF_MEMORY", "NO_SUCH_SPAN", "NO_SUCH_TRACER",
      "NOT_UTF8", "BAD_ARGUMENT", "BUFFER_TOO_SMALL", "FAILED"};
  printf("%" PRIu64 " calls of seed %" PRIu64 ": %" PRIu64 " spans, %" PRIu64 " lines;", count, driver->seed,
         driver->spans, driver->lines);
  for (size_t i = 0; i < STATUSES; i++) {
    printf(" %s %" PRIu64, names[i], driver->answers[i]);
  }
  printf("\n");
}

static bool is_number(const char *word, uint64_t *number) {
  char *end;
  *number = strtoull(word, &end, 10);
  return word[0] >= '0' && word[0] <= '9' && *end == '\0';
}

int main(int count_of_words, char **words) {
  uint64_t count, seed;
  if (count_of_words != 3 || !is_number(words[1], &count) || !is_number(words[2], &seed)) {
    fprintf(stderr, "any_calls: it takes two numbers, as in: any_calls 1000000 1\n");
    return 2;
  }
  catch_faults();
  the_driver.seed = the_driver.random = seed;
  the_driver.name = "none";
  make_slots(&the_driver);
  drive(&the_driver, count);
  close_all(&the_driver);
  print_summary(&the_driver, count);
  return 0;
}

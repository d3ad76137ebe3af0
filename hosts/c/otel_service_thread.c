/* SPDX-License-Identifier: Apache-2.0 */
/* The thread of a service: it has the pipeline export what is due, takes the lines, also while one is being posted, and
   posts one after another. */
#define _DEFAULT_SOURCE
#include "otel_service_parts.h"

#include <signal.h>

/* How long no other thread is tried after the system gave none. */
enum { THREAD_PAUSE = 1000 };

static void look_after(otel_service *service) {
  if (otel_private_milliseconds() >= service->state.next_look) {
    service->state.next_look = otel_private_after(service->options.interval);
    service->state.calls = 0;
    otel_private_take(service, false);
  }
}

/* A post, and by when it must be done. */
typedef struct {
  otel_service *service;
  uint64_t deadline;
} posting;

/* Looks after the service while the network is waited for. */
static uint64_t look_while_posting(void *context) {
  posting *it = context;
  otel_service *service = it->service;
  pthread_mutex_lock(&service->mutex);
  if (service->state.is_closed) {
    it->deadline = 0;
  } else {
    look_after(service);
    otel_private_say(service);
  }
  if (service->state.is_closing && service->state.closing_by < it->deadline) {
    it->deadline = service->state.closing_by;
  }
  pthread_mutex_unlock(&service->mutex);
  return it->deadline;
}

/* Remembers the socket for a child process, which closes its copy. */
static void note_socket(void *context, int socket) {
  posting *it = context;
  pthread_mutex_lock(&it->service->mutex);
  it->service->state.socket = socket;
  pthread_mutex_unlock(&it->service->mutex);
}

static uint64_t at_most(uint64_t wait, uint64_t limit) { return wait < limit ? wait : limit; }

static void begin_tries(otel_service *service) {
  service->tries = (otel_private_tries){.pause = service->options.first_wait};
}

static void try_later(otel_service *service, const otel_private_answer *answer) {
  otel_private_tries *tries = &service->tries;
  uint64_t longest = service->options.longest_wait;
  tries->tried++;
  tries->next = otel_private_after(at_most(answer->has_wait ? answer->wait : tries->pause, longest));
  tries->pause = tries->pause < longest / 2 ? tries->pause * 2 : longest;
  memcpy(service->fault, answer->why, sizeof service->fault);
  if (!service->state.is_closing || tries->next < service->state.closing_by) {
    otel_private_note(service, OTEL_PRIVATE_AGAIN, "lines that wait, since one was not posted and is tried again",
                      service->numbers.waiting_lines, answer->why);
  }
}

/* Counts what came of the first line. */
static void settle(otel_service *service, const otel_private_answer *answer) {
  uint64_t lost = answer->outcome == OTEL_PRIVATE_TAKEN ? answer->rejected_spans : 0;
  if (answer->outcome == OTEL_PRIVATE_LATER && service->tries.tried + 1 < service->options.tries) {
    try_later(service, answer);
    return;
  }
  if (answer->outcome == OTEL_PRIVATE_TAKEN) {
    otel_private_line_posted(service, answer->rejected_spans);
  } else {
    bool is_refused = answer->outcome == OTEL_PRIVATE_REFUSED;
    otel_service_numbers *numbers = &service->numbers;
    uint64_t *counted = is_refused ? &numbers->rejected_spans : &numbers->untaken_spans;
    uint64_t before = *counted;
    otel_private_line_lost(service, counted);
    lost = *counted - before;
  }
  if (lost > 0) {
    const char *why = answer->outcome == OTEL_PRIVATE_TAKEN ? "it took the others of their line" : answer->why;
    otel_private_note(service, OTEL_PRIVATE_REJECTED, "spans that the collector did not take, and that are lost", lost,
                      why);
  }
  begin_tries(service);
  pthread_cond_broadcast(&service->changed);
}

/* Posts the first line, without the lock while it waits. */
static void post_first(otel_service *service, const char *line, size_t length) {
  posting posting = {service, otel_private_after(service->options.request_time)};
  otel_private_watch watch = {look_while_posting, &posting, note_socket};
  otel_private_answer answer;
  pthread_mutex_unlock(&service->mutex);
  otel_private_post(&service->endpoint, line, length - 1, &watch, &answer);
  pthread_mutex_lock(&service->mutex);
  /* At the end whoever closes may have given the line up. */
  if (!service->state.is_closed) {
    settle(service, &answer);
  }
}

/* Whether nothing is left to do, or no time to do it. */
static bool is_over(const otel_service *service) {
  const otel_private_state *state = &service->state;
  uint64_t now = otel_private_milliseconds(), next = service->tries.next > now ? service->tries.next : now;
  return state->is_closed || (state->is_closing && (service->first == NULL || next >= state->closing_by));
}

static void *work(void *context) {
  otel_service *service = context;
  pthread_mutex_lock(&service->mutex);
  begin_tries(service);
  while (!is_over(service)) {
    look_after(service);
    otel_private_say(service);
    size_t length = 0;
    const char *line = otel_private_first_line(service, &length);
    if (line != NULL && service->tries.next <= otel_private_milliseconds()) {
      post_first(service, line, length);
    } else {
      bool is_try = line != NULL && service->tries.next < service->state.next_look;
      otel_private_wait(service, is_try ? service->tries.next : service->state.next_look);
    }
  }
  service->state.has_thread = false;
  bool is_freed = service->state.is_freed;
  pthread_cond_broadcast(&service->changed);
  pthread_mutex_unlock(&service->mutex);
  if (is_freed) {
    otel_private_destroy(service);
  }
  return NULL;
}

bool otel_private_start_thread(otel_service *service) {
  otel_private_state *state = &service->state;
  uint64_t now = otel_private_milliseconds();
  if (state->has_thread || state->is_closed || now < state->next_thread) {
    return state->has_thread;
  }
  sigset_t all, before;
  sigfillset(&all);
  pthread_sigmask(SIG_SETMASK, &all, &before);
  state->has_thread = pthread_create(&state->thread, NULL, work, service) == 0;
  pthread_sigmask(SIG_SETMASK, &before, NULL);
  if (!state->has_thread) {
    state->next_thread = now + THREAD_PAUSE;
    otel_private_note(service, OTEL_PRIVATE_THREADS, "the system gives no thread to post lines, which wait",
                      service->numbers.waiting_lines, NULL);
  }
  return state->has_thread;
}

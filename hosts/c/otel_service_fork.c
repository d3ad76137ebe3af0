/* SPDX-License-Identifier: Apache-2.0 */
/* All services of a process: they go on in the child of a fork, and are closed at the end of the program.

   Before a fork all locks are taken, so that what they are over is whole in the child too. There a service is only
   marked: a child that goes on to another program pays nothing, and one that traces has its own service from its first
   call on. */
#define _DEFAULT_SOURCE
#include "otel_service_parts.h"

#include <stdlib.h>
#include <unistd.h>

static pthread_once_t once = PTHREAD_ONCE_INIT;
static pthread_mutex_t services_mutex = PTHREAD_MUTEX_INITIALIZER;
static otel_service *services;

static void lock_all(void) {
  pthread_mutex_lock(&services_mutex);
  for (otel_service *it = services; it != NULL; it = it->next) {
    pthread_mutex_lock(&it->mutex);
  }
}

static void unlock_all(void) {
  for (otel_service *it = services; it != NULL; it = it->next) {
    pthread_mutex_unlock(&it->mutex);
  }
  pthread_mutex_unlock(&services_mutex);
}

static void unlock_all_in_child(void) {
  for (otel_service *it = services; it != NULL; it = it->next) {
    it->state.is_forked = true;
    it->state.has_thread = it->has_condition = false;
    if (it->state.socket >= 0) {
      close(it->state.socket);
      it->state.socket = -1;
    }
  }
  unlock_all();
}

/* Which services there are changes nowhere but here, so that the end of the program closes each in turn. */
static void close_all_at_exit(void) {
  for (otel_service *it = otel_private_closes_at_exit(); it != NULL; it = otel_private_closes_at_exit()) {
    otel_service_close(it, it->options.exit_time);
  }
}

static void watch_process(void) {
  pthread_atfork(lock_all, unlock_all, unlock_all_in_child);
  atexit(close_all_at_exit);
}

void otel_private_register(otel_service *service) {
  pthread_once(&once, watch_process);
  pthread_mutex_lock(&services_mutex);
  service->next = services;
  services = service;
  pthread_mutex_unlock(&services_mutex);
}

void otel_private_unregister(otel_service *service) {
  pthread_mutex_lock(&services_mutex);
  otel_service **at = &services;
  while (*at != NULL && *at != service) {
    at = &(*at)->next;
  }
  if (*at == service) {
    *at = service->next;
  }
  pthread_mutex_unlock(&services_mutex);
}

otel_service *otel_private_closes_at_exit(void) {
  pthread_mutex_lock(&services_mutex);
  otel_service *found = NULL;
  for (otel_service *it = services; it != NULL; it = it->next) {
    pthread_mutex_lock(&it->mutex);
    bool is_open = !it->state.is_closing && !it->state.is_closed;
    pthread_mutex_unlock(&it->mutex);
    found = it->options.closes_at_exit && is_open ? it : found;
  }
  pthread_mutex_unlock(&services_mutex);
  return found;
}

void otel_private_go_on_after_fork(otel_service *service) {
  uint64_t seed;
  otel_private_state *state = &service->state;
  if (state->is_closing || state->is_closed) {
    state->is_closed = true;
    state->is_forked = false;
    otel_close(&service->handle);
    return;
  }
  /* Where that fails nothing of the parent's goes out, and the next call tries again. */
  if (!otel_private_seed(&seed) || otel_after_fork(&service->handle, seed) != OTEL_OK ||
      !otel_private_make_condition(service)) {
    return;
  }
  otel_private_forget_lines(service);
  service->numbers = (otel_service_numbers){0};
  service->fault[0] = '\0';
  service->put_lines = service->done_lines = service->seen_drops = service->seen_batches = 0;
  memset(service->notices, 0, sizeof service->notices);
  *state = (otel_private_state){.socket = -1};
}

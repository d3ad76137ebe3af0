/* SPDX-License-Identifier: Apache-2.0 */
/* Opens and closes services, and says what became of their spans. */
#define _DEFAULT_SOURCE
#include "otel_service_parts.h"

#include <errno.h>
#include <stdlib.h>
#include <time.h>

/* How often the thread is woken by calls, and how long after its deadline a closing waits for the thread. */
enum { CALLS_OF_A_LOOK = 512, GRACE = 200 };

const char *otel_service_status_text(uint32_t status) {
  static const char *const texts[] = {"ok",
                                      "the endpoint is one of https, and only http is spoken here",
                                      "the endpoint is no URL that begins with http://",
                                      "a setting is not UTF-8",
                                      "out of memory",
                                      "the system gives no seed",
                                      "the system gives no thread",
                                      "the library has another version than otel.h"};
  return status < sizeof texts / sizeof *texts ? texts[status] : "no status of a service";
}

otel_service_options otel_service_options_of_defaults(void) {
  return (otel_service_options){.language = "c",
                                .exit_time = 5000,
                                .interval = 1000,
                                .request_time = 10000,
                                .tries = 8,
                                .first_wait = 1000,
                                .longest_wait = 60000,
                                .waiting_bytes = 64 << 20,
                                .waiting_lines = 4096};
}

bool otel_private_make_condition(otel_service *service) {
  pthread_condattr_t attributes;
  if (pthread_condattr_init(&attributes) != 0) {
    return false;
  }
  bool is_made = pthread_condattr_setclock(&attributes, CLOCK_MONOTONIC) == 0 &&
                 pthread_cond_init(&service->changed, &attributes) == 0;
  pthread_condattr_destroy(&attributes);
  service->has_condition = is_made;
  return is_made;
}

void otel_private_wait(otel_service *service, uint64_t until) {
  struct timespec moment = {.tv_sec = (time_t)(until / 1000), .tv_nsec = (long)(until % 1000) * 1000000};
  pthread_cond_timedwait(&service->changed, &service->mutex, &moment);
}

void otel_private_destroy(otel_service *service) {
  otel_close(&service->handle);
  otel_private_forget_lines(service);
  otel_private_free_endpoint(&service->endpoint);
  free(service->ignored.bytes);
  if (service->has_condition) {
    pthread_cond_destroy(&service->changed);
  }
  pthread_mutex_destroy(&service->mutex);
  free(service);
}

/* Adds the names of the settings that the pipeline ignores. */
static void add_ignored(otel_service *service) {
  size_t length = 0;
  uint8_t none[1];
  otel_private_text *ignored = &service->ignored;
  if (otel_ignored_settings(&service->handle, none, 0, &length) != OTEL_BUFFER_TOO_SMALL) {
    return;
  }
  uint8_t *names = malloc(length);
  if (names == NULL || otel_ignored_settings(&service->handle, names, length, &length) != OTEL_OK) {
    ignored->is_cut = true;
  } else {
    otel_private_add(ignored, (char *)names, length);
  }
  free(names);
}

static bool is_library_of_header(void) {
  uint32_t major, minor, patch;
  return otel_version(&major, &minor, &patch) == OTEL_OK && major == OTEL_VERSION_MAJOR && minor == OTEL_VERSION_MINOR;
}

/* Opens the pipeline of a service with these settings. */
static uint32_t open_pipeline(otel_service *service) {
  uint64_t seed;
  otel_private_text settings = {0};
  if (!otel_private_seed(&seed)) {
    return OTEL_SERVICE_NO_SEED;
  }
  otel_private_settings(&service->options, &settings, &service->ignored);
  uint32_t status = settings.is_cut ? (uint32_t)OTEL_OUT_OF_MEMORY
                                    : otel_open(&service->handle, (const uint8_t *)otel_private_shown(&settings),
                                                settings.length, seed);
  free(settings.bytes);
  if (status != OTEL_OK) {
    return status == OTEL_NOT_UTF8 ? OTEL_SERVICE_BAD_SETTINGS : OTEL_SERVICE_OUT_OF_MEMORY;
  }
  add_ignored(service);
  return service->ignored.is_cut ? OTEL_SERVICE_OUT_OF_MEMORY : OTEL_SERVICE_OK;
}

static uint32_t open_parts(otel_service *service) {
  uint32_t status = otel_private_read_endpoint(&service->endpoint, service->options.endpoint, &service->ignored);
  if (status == OTEL_SERVICE_OK) {
    status = open_pipeline(service);
  }
  if (status != OTEL_SERVICE_OK) {
    return status;
  }
  pthread_mutex_lock(&service->mutex);
  bool has_thread = otel_private_start_thread(service);
  pthread_mutex_unlock(&service->mutex);
  return has_thread ? OTEL_SERVICE_OK : OTEL_SERVICE_NO_THREAD;
}

uint32_t otel_service_open(otel_service **service, const otel_service_options *options) {
  *service = NULL;
  if (!is_library_of_header()) {
    return OTEL_SERVICE_OTHER_LIBRARY;
  }
  otel_service *made = calloc(1, sizeof *made);
  if (made == NULL || pthread_mutex_init(&made->mutex, NULL) != 0) {
    free(made);
    return OTEL_SERVICE_OUT_OF_MEMORY;
  }
  made->options = options == NULL ? otel_service_options_of_defaults() : *options;
  made->options.interval += made->options.interval == 0 ? 1 : 0;
  made->options.language = made->options.language == NULL ? "c" : made->options.language;
  made->state.socket = -1;
  if (!otel_private_make_condition(made)) {
    pthread_mutex_destroy(&made->mutex);
    free(made);
    return OTEL_SERVICE_OUT_OF_MEMORY;
  }
  uint32_t status = open_parts(made);
  /* Texts of the options are the caller's, and were read. */
  made->options.settings = made->options.endpoint = made->options.language = NULL;
  if (status != OTEL_SERVICE_OK) {
    otel_private_destroy(made);
    return status;
  }
  otel_private_register(made);
  *service = made;
  return OTEL_SERVICE_OK;
}

/* Takes the lock alone, without a look after a thread; in a child process after a fork the service is made its own. */
static void lock(otel_service *service) {
  pthread_mutex_lock(&service->mutex);
  if (service->state.is_forked) {
    otel_private_go_on_after_fork(service);
  }
}

otel_handle *otel_service_lock(otel_service *service) {
  static _Thread_local otel_handle never_opened;
  if (service == NULL) {
    return &never_opened;
  }
  lock(service);
  /* A child process that could not have a service of its own makes no call on its parent's. */
  return service->state.is_forked ? &service->nobody : &service->handle;
}

void otel_service_unlock(otel_service *service) {
  if (service == NULL) {
    return;
  }
  otel_private_state *state = &service->state;
  if (!state->has_thread && !state->is_forked && !state->is_closing && !otel_private_start_thread(service)) {
    otel_private_say(service);
  }
  if (++state->calls == CALLS_OF_A_LOOK && service->has_condition) {
    state->next_look = 0;
    pthread_cond_broadcast(&service->changed);
  }
  pthread_mutex_unlock(&service->mutex);
}

size_t otel_service_ignored_settings(otel_service *service, char *buffer, size_t room) {
  const otel_private_text none = {0}, *ignored = service == NULL ? &none : &service->ignored;
  size_t length = ignored->length, written = length < room ? length : room - 1;
  if (room > 0) {
    memcpy(buffer, otel_private_shown(ignored), written);
    buffer[written] = '\0';
  }
  return length;
}

/* Adds what the pipeline counts. */
static void count(otel_service *service, otel_service_numbers *numbers) {
  otel_numbers inside = service->closed;
  if (service->handle.is_open && !service->state.is_forked) {
    otel_count(&service->handle, &inside, sizeof inside);
  }
  *numbers = service->numbers;
  numbers->open_spans += inside.open_spans;
  numbers->queued_spans = inside.waiting_spans;
  numbers->undrained_spans = inside.undrained_spans;
  numbers->dropped_spans = inside.dropped_spans;
  numbers->unkept_spans = inside.refused_spans + inside.lost_spans;
  numbers->ended_spans = numbers->posted_spans + numbers->queued_spans + numbers->undrained_spans +
                         numbers->waiting_spans + numbers->dropped_spans + numbers->unkept_spans +
                         numbers->crowded_spans + numbers->rejected_spans + numbers->untaken_spans +
                         numbers->late_spans;
}

uint32_t otel_service_count(otel_service *service, otel_service_numbers *numbers, size_t numbers_size) {
  if (numbers_size != sizeof *numbers) {
    return OTEL_BAD_ARGUMENT;
  }
  if (service == NULL) {
    *numbers = (otel_service_numbers){0};
    return OTEL_CLOSED;
  }
  lock(service);
  count(service, numbers);
  pthread_mutex_unlock(&service->mutex);
  return OTEL_OK;
}

/* Whether what was put by then is posted or given up. */
static bool is_settled(const otel_service *service, uint64_t put) {
  return service->done_lines >= put || service->state.is_closed;
}

uint32_t otel_service_flush(otel_service *service, uint64_t milliseconds) {
  uint64_t until = otel_private_after(milliseconds);
  if (service == NULL) {
    return OTEL_CLOSED;
  }
  lock(service);
  bool is_taken = !service->state.is_forked && otel_private_take(service, true);
  uint64_t put = service->put_lines;
  if (is_taken && !service->state.is_closing) {
    otel_private_start_thread(service);
    pthread_cond_broadcast(&service->changed);
  }
  otel_private_say(service);
  while (is_taken && !is_settled(service, put) && otel_private_milliseconds() < until) {
    otel_private_wait(service, until);
  }
  bool is_done = is_taken && is_settled(service, put);
  pthread_mutex_unlock(&service->mutex);
  return is_done ? OTEL_OK : OTEL_FAILED;
}

/* Ends the thread, or leaves it behind where it hangs in a call of the system. */
static void end_thread(otel_service *service) {
  otel_private_state *state = &service->state;
  uint64_t last = state->closing_by + GRACE;
  pthread_t thread = state->thread;
  bool had_thread = state->has_thread;
  pthread_cond_broadcast(&service->changed);
  while (state->has_thread && otel_private_milliseconds() < last) {
    otel_private_wait(service, last);
  }
  state->is_closed = true;
  bool is_over = had_thread && !state->has_thread;
  pthread_cond_broadcast(&service->changed); /* for those who flush */
  pthread_mutex_unlock(&service->mutex);
  if (is_over) {
    pthread_join(thread, NULL);
  } else if (had_thread) {
    pthread_detach(thread);
  }
  pthread_mutex_lock(&service->mutex);
}

/* Counts what is left at the end, and says so. */
static uint32_t settle(otel_service *service) {
  otel_numbers inside = {0};
  otel_count(&service->handle, &inside, sizeof inside);
  uint64_t late = otel_private_give_up(service) + inside.waiting_spans + inside.undrained_spans;
  service->numbers.late_spans += inside.waiting_spans + inside.undrained_spans;
  inside.waiting_spans = inside.undrained_spans = 0;
  service->closed = inside;
  otel_close(&service->handle);
  uint64_t lost = late + inside.open_spans;
  if (lost > 0) {
    otel_private_note(service, OTEL_PRIVATE_END, "spans that were open or not posted at the end, and are lost", lost,
                      service->fault[0] == '\0' ? NULL : service->fault);
  }
  otel_private_say(service);
  return lost > 0 ? OTEL_FAILED : OTEL_OK;
}

uint32_t otel_service_close(otel_service *service, uint64_t milliseconds) {
  if (service == NULL) {
    return OTEL_CLOSED;
  }
  otel_private_state *state = &service->state;
  pthread_mutex_lock(&service->mutex);
  if (state->is_closing || state->is_closed) {
    pthread_mutex_unlock(&service->mutex);
    return OTEL_CLOSED;
  }
  if (state->is_forked) { /* no call was made in this process, so that nothing here is its own */
    state->is_closed = true;
    state->is_forked = false;
    otel_close(&service->handle);
    pthread_mutex_unlock(&service->mutex);
    return OTEL_OK;
  }
  state->closing_by = otel_private_after(milliseconds);
  otel_private_take(service, true);
  otel_shutdown(&service->handle);
  state->is_closing = true;
  if (service->first != NULL && !state->has_thread) {
    otel_private_start_thread(service);
  }
  end_thread(service);
  uint32_t status = settle(service);
  pthread_mutex_unlock(&service->mutex);
  return status;
}

void otel_service_free(otel_service *service) {
  if (service == NULL) {
    return;
  }
  otel_service_close(service, 0);
  otel_private_unregister(service);
  pthread_mutex_lock(&service->mutex);
  bool has_thread = service->state.has_thread;
  service->state.is_freed = true;
  pthread_mutex_unlock(&service->mutex);
  if (!has_thread) {
    otel_private_destroy(service);
  }
}

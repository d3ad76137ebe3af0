/* SPDX-License-Identifier: Apache-2.0 */
/* A pipeline of otel.h that looks after itself, for services: settings and a seed come from the environment, a thread
   exports and posts the lines to a collector by plain HTTP, and what is lost is counted and said.

     otel_service *service;
     uint32_t status = otel_service_open(&service, NULL);
     ...
     otel_attribute route = otel_attribute_text("http.route", "/cart");
     otel_service_span span = otel_service_start(service, OTEL_SERVER, "GET /cart", &route, 1);
     otel_service_end(service, span);
     ...
     otel_service_close(service, 5000);
     otel_service_free(service);

   Any thread may make any of these calls, but in a handler of a signal, and none after otel_service_free. Calls of
   spans take one lock, which nobody holds while the network is waited for. They answer a status (otel_status_text says
   what it means), which may be passed over: what fails is counted, and changes nothing.

   A child process made by fork has a service of its own in the place of its parent's: with other ids, without the spans
   and lines of its parent, and with a thread that starts at its first call. Spans that the parent began are the
   parent's alone to end; in the child they are parents still. This asks for a C library in which such a child may take
   memory, as glibc. A thread does not fork between otel_service_lock and otel_service_unlock.

   A service that did not open is NULL: calls take that too, and do nothing, so that a program goes on without tracing.

   Texts end in a zero, and NULL is an empty text. Times are milliseconds. */
#ifndef OTEL_SERVICE_H
#define OTEL_SERVICE_H

#include "otel.h"

#include <string.h>

#ifdef __cplusplus
extern "C" {
#endif

typedef struct otel_service otel_service;

/* Why a service did not open. */
enum otel_service_status {
  OTEL_SERVICE_OK = 0,
  /* The endpoint begins with https://, and encryption is not spoken here: send to a collector that is near. */
  OTEL_SERVICE_HTTPS = 1,
  /* The endpoint is no URL that begins with http://. */
  OTEL_SERVICE_BAD_ENDPOINT = 2,
  /* A setting of the options is not UTF-8. */
  OTEL_SERVICE_BAD_SETTINGS = 3,
  OTEL_SERVICE_OUT_OF_MEMORY = 4,
  /* The system gave no seed. */
  OTEL_SERVICE_NO_SEED = 5,
  /* The system gave no thread. */
  OTEL_SERVICE_NO_THREAD = 6,
  /* The library has another major or minor version than otel.h. */
  OTEL_SERVICE_OTHER_LIBRARY = 7
};

/* What such a status says, in a few words. */
const char *otel_service_status_text(uint32_t status);

/* Takes a notice: a line of text without its end. It comes from a thread of the service, from within
   otel_service_flush and otel_service_close, and where the system gives no thread from within any call. It may make
   calls of spans. */
typedef void (*otel_service_notice)(void *context, const char *text);

/* How a service works. Begin with otel_service_options_of_defaults. */
typedef struct {
  /* Lines NAME=VALUE, as those of otel_open, in place of variables of the same names; or NULL. */
  const char *settings;
  /* Where lines are posted to, with its path, in place of what the environment says; or NULL. */
  const char *endpoint;
  /* What the resource says as telemetry.sdk.language: "c". */
  const char *language;
  /* Where notices go, with the context; NULL for standard error. */
  otel_service_notice notice;
  void *notice_context;
  /* Whether the end of the program closes the service, in how long at most: false, 5 seconds. */
  bool closes_at_exit;
  uint64_t exit_time;
  /* How often the pipeline is looked after: each second, and when some hundred calls were made. */
  uint64_t interval;
  /* How long a request may take: 10 seconds. */
  uint64_t request_time;
  /* How often a line is tried: 8 times. */
  uint32_t tries;
  /* How long is waited after the first try, and twice as long after each further one: 1 second, up to 60 seconds. An
     answer's Retry-After counts in its place, up to 60 seconds too. */
  uint64_t first_wait;
  uint64_t longest_wait;
  /* How much waits for the collector at most: 64 MiB in 4,096 lines. A line past that is lost, unless no other waits.
   */
  uint64_t waiting_bytes;
  uint64_t waiting_lines;
} otel_service_options;

otel_service_options otel_service_options_of_defaults(void);

/* How many spans are where, and what became of lines, since the opening or the fork. Every sampled span that has ended
   is counted once: ended_spans is the sum of the ten numbers after it. */
typedef struct {
  uint64_t ended_spans;
  uint64_t posted_spans;    /* taken by the collector */
  uint64_t queued_spans;    /* in the queue of the pipeline */
  uint64_t undrained_spans; /* exported by the pipeline, and in it still */
  uint64_t waiting_spans;   /* in lines that wait for the collector */
  uint64_t dropped_spans;   /* lost, since the queue was full */
  uint64_t unkept_spans;    /* lost, since memory ran out or too many were undrained */
  uint64_t crowded_spans;   /* lost, since too much waited for the collector */
  uint64_t rejected_spans;  /* lost, since the collector refused them */
  uint64_t untaken_spans;   /* lost, since a line was tried as often as may be */
  uint64_t late_spans;      /* lost, since the time for closing was over */
  uint64_t open_spans;      /* started, and neither ended nor abandoned; at the end these are lost too */
  uint64_t posted_lines;
  uint64_t waiting_lines;
  uint64_t waiting_bytes;
  uint64_t lost_lines;
  uint64_t failed_calls; /* calls of spans that failed */
} otel_service_numbers;

/* A span: its key, which is 0 where it could not start, and who it is. It is a value, and may be copied. After its end
   children of it are still of its trace. Where it could not start, as after otel_service_close, it stands for its
   parent, also for one that headers name: its children are that one's, and it hands that one's traceparent on. */
typedef struct {
  uint64_t key;
  otel_span_identity identity;
} otel_service_span;

/* The headers of a request that name the span of another process; each may be NULL. */
typedef struct {
  const char *traceparent;
  const char *tracestate;
  const char *baggage;
} otel_service_headers;

/* Opens a service by options, or by the defaults where they are NULL, and answers an otel_service_status.

   Variables OTEL_* of the environment are settings of the pipeline. Lines are posted to
   OTEL_EXPORTER_OTLP_TRACES_ENDPOINT, or else to OTEL_EXPORTER_OTLP_ENDPOINT with /v1/traces added, or else to
   http://localhost:4318/v1/traces, with the headers of OTEL_EXPORTER_OTLP_TRACES_HEADERS or
   OTEL_EXPORTER_OTLP_HEADERS, as in `authorization=Bearer%20abc,x-team=shop`. */
uint32_t otel_service_open(otel_service **service, const otel_service_options *options);

/* Writes the names of variables and settings that were ignored, each with a line feed after it and a zero at the end,
   as far as there is room, and answers how many bytes all of them take without the zero. */
size_t otel_service_ignored_settings(otel_service *service, char *buffer, size_t room);

/* Exports all spans that have ended, and waits until their lines are posted or given up. OTEL_FAILED where the time
   ran out before. */
uint32_t otel_service_flush(otel_service *service, uint64_t milliseconds);

/* numbers_size is sizeof(otel_service_numbers); another is OTEL_BAD_ARGUMENT. */
uint32_t otel_service_count(otel_service *service, otel_service_numbers *numbers, size_t numbers_size);

/* Exports and posts what waits, as far as the time allows, and ends the thread. Spans that are open are lost, and so is
   what is not posted by then: a notice says how many. OTEL_FAILED where something was lost now, and OTEL_CLOSED where
   it was closed before. Calls after it do nothing, and are counted as failed; but spans are handed on still. */
uint32_t otel_service_close(otel_service *service, uint64_t milliseconds);

/* Lets go of a service and its memory, and closes it before with no time, if nobody did. NULL is nothing. */
void otel_service_free(otel_service *service);

/* Takes the lock, and answers the handle for calls of otel.h, until otel_service_unlock by the same thread. These are
   not to close the handle, to open it, or to drain it. */
otel_handle *otel_service_lock(otel_service *service);
void otel_service_unlock(otel_service *service);

/* Attributes; the texts are not copied until a call takes the attribute. */
static inline otel_attribute otel_attribute_named(const char *key) {
  const char *name = key == NULL ? "" : key;
  return otel_attribute_of((const uint8_t *)name, strlen(name));
}
static inline otel_attribute otel_attribute_text(const char *key, const char *value) {
  otel_attribute made = otel_attribute_named(key);
  const char *text = value == NULL ? "" : value;
  made.kind = OTEL_TEXT;
  made.bytes = (const uint8_t *)text;
  made.bytes_length = strlen(text);
  return made;
}
static inline otel_attribute otel_attribute_integer(const char *key, int64_t value) {
  otel_attribute made = otel_attribute_named(key);
  made.kind = OTEL_INTEGER;
  made.integer = value;
  return made;
}
static inline otel_attribute otel_attribute_float(const char *key, double value) {
  otel_attribute made = otel_attribute_named(key);
  made.kind = OTEL_FLOAT;
  made.number = value;
  return made;
}
static inline otel_attribute otel_attribute_bool(const char *key, bool value) {
  otel_attribute made = otel_attribute_named(key);
  made.kind = OTEL_BOOL;
  made.truth = value;
  return made;
}

/* Starts a span of a kind (otel_kind) now, with so many attributes, which may be NULL where there are none: a root, a
   child, or a child of the span of another process, which without a valid traceparent is a root. */
otel_service_span otel_service_start(otel_service *service, uint32_t kind, const char *name,
                                     const otel_attribute *attributes, size_t count);
otel_service_span otel_service_start_child(otel_service *service, otel_service_span parent, uint32_t kind,
                                           const char *name, const otel_attribute *attributes, size_t count);
otel_service_span otel_service_start_remote(otel_service *service, otel_service_headers headers, uint32_t kind,
                                            const char *name, const otel_attribute *attributes, size_t count);

/* Edits of a span, by the otel_... of otel.h; of one that could not start they do nothing, and are OTEL_OK. */
uint32_t otel_service_set(otel_service *service, otel_service_span span, const otel_attribute *attributes,
                          size_t count);
uint32_t otel_service_set_text(otel_service *service, otel_service_span span, const char *key, const char *value);
uint32_t otel_service_set_integer(otel_service *service, otel_service_span span, const char *key, int64_t value);
uint32_t otel_service_add_event(otel_service *service, otel_service_span span, const char *name,
                                const otel_attribute *attributes, size_t count);
uint32_t otel_service_record_exception(otel_service *service, otel_service_span span, const char *type,
                                       const char *message, const char *stacktrace);
uint32_t otel_service_add_link(otel_service *service, otel_service_span span, otel_service_span linked,
                               const otel_attribute *attributes, size_t count);
uint32_t otel_service_set_status(otel_service *service, otel_service_span span, uint32_t code, const char *description);
uint32_t otel_service_update_name(otel_service *service, otel_service_span span, const char *name);

/* Writes the headers that hand the span on to another process, each `name: value` with a carriage return and a line
   feed after it, and a zero at the end. OTEL_BUFFER_TOO_SMALL where there is no room for them and the zero: then it
   writes an empty text, as wherever it fails and there is room for one. */
uint32_t otel_service_inject(otel_service *service, otel_service_span span, char *buffer, size_t room);

/* Ends a span now. Where that fails it is abandoned, so that no span stays open for ever. */
uint32_t otel_service_end(otel_service *service, otel_service_span span);
uint32_t otel_service_abandon(otel_service *service, otel_service_span span);

#ifdef __cplusplus
}
#endif
#endif

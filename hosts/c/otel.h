/* SPDX-License-Identifier: Apache-2.0 */
/* OpenTelemetry's trace pipeline, proved: spans go in, lines of the OpenTelemetry protocol's JSON come out.

   A pipeline is held by a handle, which is the caller's memory: set it to zeros, give its address to each call, never
   copy it, and end with otel_close. A handle is used by one call at a time, and may move between threads: a lock, or a
   thread's start or end, orders the calls. None is made from a signal handler. After a fork the child makes no call on
   a handle of its parent but otel_after_fork and otel_close, and none at all where other threads ran in the parent and
   the C library does not let such a child take memory (glibc does).

   Spans and tracers are numbers. A span's number, its key, names that span for ever; 0 is no span, and tracer 0 is
   there from the start. Texts are bytes with a length, in UTF-8, and need no zero at their end; they are copied, so the
   caller keeps what it passes. Moments are nanoseconds since 1970.

   Each call answers an otel_status. A call that does not answer OTEL_OK changed nothing, and wrote nothing to where its
   answer would go, unless its comment says otherwise. No call faults, whatever numbers, bytes and lengths it is given;
   addresses must be good, and not NULL, also those of texts without bytes. */
#ifndef OTEL_H
#define OTEL_H

#include <stdbool.h>
#include <stddef.h>
#include <stdint.h>

/* The version of this header. otel_version says that of the library. */
#define OTEL_VERSION_MAJOR 0
#define OTEL_VERSION_MINOR 1
#define OTEL_VERSION_PATCH 0

#ifdef __cplusplus
extern "C" {
#endif

typedef struct {
  bool is_open;
  struct {
    void *at;
  } held;
} otel_handle;

enum otel_status {
  OTEL_OK = 0,
  /* The handle is not open. */
  OTEL_CLOSED = 1,
  OTEL_ALREADY_OPEN = 2,
  OTEL_OUT_OF_MEMORY = 3,
  /* No open span has this key: it was never given, or has ended. */
  OTEL_NO_SUCH_SPAN = 4,
  OTEL_NO_SUCH_TRACER = 5,
  /* A text is not UTF-8. */
  OTEL_NOT_UTF8 = 6,
  /* A kind, a status code or a list of lengths is none, or headers name no span. */
  OTEL_BAD_ARGUMENT = 7,
  /* The buffer has too little room; the length says how much is wanted. */
  OTEL_BUFFER_TOO_SMALL = 8,
  /* What was to be exported was not, or the pipeline is shut down. */
  OTEL_FAILED = 9
};

/* What a status says, in a few words. */
static inline const char *otel_status_text(uint32_t status) {
  switch (status) {
  case OTEL_OK:
    return "ok";
  case OTEL_CLOSED:
    return "the handle is not open";
  case OTEL_ALREADY_OPEN:
    return "the handle is open already";
  case OTEL_OUT_OF_MEMORY:
    return "out of memory";
  case OTEL_NO_SUCH_SPAN:
    return "no open span has this key";
  case OTEL_NO_SUCH_TRACER:
    return "no tracer has this number";
  case OTEL_NOT_UTF8:
    return "a text is not UTF-8";
  case OTEL_BAD_ARGUMENT:
    return "an argument means nothing";
  case OTEL_BUFFER_TOO_SMALL:
    return "the buffer has too little room";
  case OTEL_FAILED:
    return "not all was exported";
  default:
    return "no status of this library";
  }
}

enum otel_kind {
  OTEL_INTERNAL = 1,
  OTEL_SERVER = 2,
  OTEL_CLIENT = 3,
  OTEL_PRODUCER = 4,
  OTEL_CONSUMER = 5
};

enum otel_status_code { OTEL_STATUS_UNSET = 0, OTEL_STATUS_OK = 1, OTEL_STATUS_ERROR = 2 };

enum otel_value_kind {
  OTEL_TEXT = 1,
  OTEL_INTEGER = 2,
  OTEL_FLOAT = 3,
  OTEL_BOOL = 4,
  OTEL_TEXTS = 5,
  OTEL_INTEGERS = 6,
  OTEL_FLOATS = 7,
  OTEL_BOOLS = 8
};

/* An attribute: a key, and a value of a kind. What the kind does not name is not read, but no address in it is NULL:
   begin with otel_attribute_of. A call takes a list of such; the same key may stand in it twice, and then the later one
   counts, or the earlier one where the span has as many as it may have. */
typedef struct {
  const uint8_t *key;
  size_t key_length;
  uint32_t kind;   /* an otel_value_kind */
  uint32_t truth;  /* OTEL_BOOL: 0 for false, and true else */
  int64_t integer; /* OTEL_INTEGER */
  double number;   /* OTEL_FLOAT: any, NaN and the infinities too; of a NaN neither sign nor payload is kept */
  /* OTEL_TEXT; OTEL_TEXTS, one after another; OTEL_BOOLS, a byte each */
  const uint8_t *bytes;
  size_t bytes_length;
  /* OTEL_TEXTS: the length of each */
  const uint64_t *lengths;
  size_t lengths_count;
  /* OTEL_INTEGERS */
  const int64_t *integers;
  size_t integers_count;
  /* OTEL_FLOATS */
  const double *numbers;
  size_t numbers_count;
} otel_attribute;

/* An attribute of this key without a value: a kind is to be set, and what that reads. */
static inline otel_attribute otel_attribute_of(const uint8_t *key, size_t key_length) {
  static const uint64_t no_lengths[1] = {0};
  static const int64_t no_integers[1] = {0};
  static const double no_numbers[1] = {0};
  otel_attribute made = {key, key_length, 0, 0, 0, 0, key, 0, no_lengths, 0, no_integers, 0, no_numbers, 0};
  return made;
}

/* Who a span is. The ids are numbers, whose high byte is the first of the id's text. */
typedef struct {
  uint64_t trace_id_high;
  uint64_t trace_id_low;
  uint64_t span_id;
  uint32_t trace_flags; /* bit 0: sampled */
  uint32_t is_recording;
} otel_span_identity;

typedef struct {
  uint64_t open_spans;      /* started, and neither ended nor abandoned */
  uint64_t waiting_spans;   /* ended, and in the queue */
  uint64_t dropped_spans;   /* ended, and dropped since the queue was full */
  uint64_t refused_spans;   /* ended, and refused when memory ran out */
  uint64_t lost_batches;    /* exported, and not kept: memory ran out, or OTEL_C_MAX_UNDRAINED_SPANS were kept */
  uint64_t lost_spans;      /* the spans of these batches */
  uint64_t undrained_spans; /* exported and kept, and not handed out yet */
  uint64_t undrained_bytes; /* what the lines take that were made and not handed out yet */
} otel_numbers;

/* The version of the library, as three numbers. One handle, header and library go together where the first two are the
   same. */
uint32_t otel_version(uint32_t *major, uint32_t *minor, uint32_t *patch);

/* Opens a pipeline. The settings are lines NAME=VALUE, as variables of an environment: the OTEL_* names of
   OpenTelemetry's SDKs for the resource, the sampler, the limits of spans and the batch queue, and two of our own.
   OTEL_SPAN_PROCESSOR is `batch` (a queue that otel_flush and otel_run export), `eager` (the same, but the end of a
   span that fills a batch exports it: the default) or `simple` (each end exports). OTEL_C_MAX_UNDRAINED_SPANS says how
   many exported spans are kept at most until a drain makes lines of them, 65536 where it is not set; a batch past that
   is lost, and counted. Lines that had no room in a buffer are kept beside them, and no others are made until they are
   handed out. The resource says otel_proved, c and the version as telemetry.sdk.name, .language and .version, unless
   OTEL_RESOURCE_ATTRIBUTES says others. The seed decides all ids: every process needs one of its own. OTEL_ALREADY_OPEN
   where the handle is open, OTEL_NOT_UTF8 where the settings are not UTF-8. */
uint32_t otel_open(otel_handle *handle, const uint8_t *settings, size_t settings_length, uint64_t seed);

/* Writes the names of the settings that were ignored, since nobody knows their name or their value does not read, each
   with a line feed after it. OTEL_BUFFER_TOO_SMALL where the buffer has no room for all; *length is what they take. */
uint32_t otel_ignored_settings(otel_handle *handle, uint8_t *buffer, size_t buffer_length, size_t *length);

/* A tracer for a library (an instrumentation scope), as *tracer. An empty version or schema URL is none. */
uint32_t otel_tracer(otel_handle *handle, const uint8_t *name, size_t name_length, const uint8_t *version,
                     size_t version_length, const uint8_t *schema_url, size_t schema_url_length, uint64_t *tracer);

/* Attributes of what comes next: they are gathered, in their order, and taken by the next otel_start,
   otel_start_remote, otel_set_attributes, otel_add_event, otel_add_link or otel_add_remote_link, whatever that answers.
   Threads that share a handle hold one lock over the gathering and the call that takes: the calls whose names end in
   _with are handed their attributes, and need none between them. These leave what was gathered as it is.
   The values of a list of texts stand one after another in `values`, and `lengths` has the length of each. Lengths that
   are not those of all the bytes are OTEL_BAD_ARGUMENT. A float may be any, NaN and the infinities too; of a NaN
   neither sign nor payload is kept. A truth value is 0 for false, and true else. To forget what was gathered, call
   otel_set_attributes for span 0. */
uint32_t otel_with_text(otel_handle *handle, const uint8_t *key, size_t key_length, const uint8_t *value,
                        size_t value_length);
uint32_t otel_with_integer(otel_handle *handle, const uint8_t *key, size_t key_length, int64_t value);
uint32_t otel_with_float(otel_handle *handle, const uint8_t *key, size_t key_length, double value);
uint32_t otel_with_bool(otel_handle *handle, const uint8_t *key, size_t key_length, uint32_t value);
uint32_t otel_with_texts(otel_handle *handle, const uint8_t *key, size_t key_length, const uint8_t *values,
                         size_t values_length, const uint64_t *lengths, size_t count);
uint32_t otel_with_integers(otel_handle *handle, const uint8_t *key, size_t key_length, const int64_t *values,
                            size_t count);
uint32_t otel_with_floats(otel_handle *handle, const uint8_t *key, size_t key_length, const double *values,
                          size_t count);
uint32_t otel_with_bools(otel_handle *handle, const uint8_t *key, size_t key_length, const uint8_t *values,
                         size_t count);

/* Starts a span of a kind (otel_kind), a child of the span of the key `parent`, or a root where that is 0; *key is its
   key. It has the attributes that were gathered. Where it is refused ids may have been drawn: those of later spans are
   others than without the call. */
uint32_t otel_start(otel_handle *handle, uint64_t tracer, uint64_t parent, uint32_t kind, const uint8_t *name,
                    size_t name_length, uint64_t moment, uint64_t *key);

/* The same, as a child of the span of another process, which the headers traceparent and tracestate name, with the
   baggage of the header baggage. Headers that are empty or do not read say nothing: without a valid traceparent the
   span is a root. */
uint32_t otel_start_remote(otel_handle *handle, uint64_t tracer, const uint8_t *traceparent, size_t traceparent_length,
                           const uint8_t *tracestate, size_t tracestate_length, const uint8_t *baggage,
                           size_t baggage_length, uint32_t kind, const uint8_t *name, size_t name_length,
                           uint64_t moment, uint64_t *key);

/* The same two, with these attributes in place of those that were gathered. */
uint32_t otel_start_with(otel_handle *handle, uint64_t tracer, uint64_t parent, uint32_t kind, const uint8_t *name,
                         size_t name_length, uint64_t moment, const otel_attribute *attributes, size_t count,
                         uint64_t *key);
uint32_t otel_start_remote_with(otel_handle *handle, uint64_t tracer, const uint8_t *traceparent,
                                size_t traceparent_length, const uint8_t *tracestate, size_t tracestate_length,
                                const uint8_t *baggage, size_t baggage_length, uint32_t kind, const uint8_t *name,
                                size_t name_length, uint64_t moment, const otel_attribute *attributes, size_t count,
                                uint64_t *key);

/* Who the span is, and whether it records what it is told. */
uint32_t otel_identity(otel_handle *handle, uint64_t span, otel_span_identity *identity);

/* Edits of a span; where it does not record they do nothing, and are OTEL_OK if their arguments are good. */
uint32_t otel_set_text(otel_handle *handle, uint64_t span, const uint8_t *key, size_t key_length, const uint8_t *value,
                       size_t value_length);
uint32_t otel_set_integer(otel_handle *handle, uint64_t span, const uint8_t *key, size_t key_length, int64_t value);
uint32_t otel_set_float(otel_handle *handle, uint64_t span, const uint8_t *key, size_t key_length, double value);
uint32_t otel_set_bool(otel_handle *handle, uint64_t span, const uint8_t *key, size_t key_length, uint32_t value);
/* Sets the attributes that were gathered, or these. */
uint32_t otel_set_attributes(otel_handle *handle, uint64_t span);
uint32_t otel_set_attributes_with(otel_handle *handle, uint64_t span, const otel_attribute *attributes, size_t count);
/* Events and links have the attributes that were gathered, or these. */
uint32_t otel_add_event(otel_handle *handle, uint64_t span, const uint8_t *name, size_t name_length, uint64_t moment);
uint32_t otel_add_event_with(otel_handle *handle, uint64_t span, const uint8_t *name, size_t name_length,
                             uint64_t moment, const otel_attribute *attributes, size_t count);
/* An event `exception`; an empty type or stack trace is none. */
uint32_t otel_record_exception(otel_handle *handle, uint64_t span, const uint8_t *type, size_t type_length,
                               const uint8_t *message, size_t message_length, const uint8_t *stacktrace,
                               size_t stacktrace_length, uint64_t moment);
uint32_t otel_add_link(otel_handle *handle, uint64_t span, uint64_t linked);
uint32_t otel_add_link_with(otel_handle *handle, uint64_t span, uint64_t linked, const otel_attribute *attributes,
                            size_t count);
/* A link to the span that these headers name; OTEL_BAD_ARGUMENT where they name none. */
uint32_t otel_add_remote_link(otel_handle *handle, uint64_t span, const uint8_t *traceparent, size_t traceparent_length,
                              const uint8_t *tracestate, size_t tracestate_length);
uint32_t otel_add_remote_link_with(otel_handle *handle, uint64_t span, const uint8_t *traceparent,
                                   size_t traceparent_length, const uint8_t *tracestate, size_t tracestate_length,
                                   const otel_attribute *attributes, size_t count);
/* The code is an otel_status_code; only an error has a description. */
uint32_t otel_set_status(otel_handle *handle, uint64_t span, uint32_t code, const uint8_t *description,
                         size_t description_length);
uint32_t otel_update_name(otel_handle *handle, uint64_t span, const uint8_t *name, size_t name_length);

/* Writes the headers traceparent, tracestate and baggage that hand the span on to another process, as far as there is
   something to say: each `name: value` with a carriage return and a line feed after it. A span that was started after a
   shutdown passes its parent on. OTEL_BUFFER_TOO_SMALL where the buffer has no room for all; *length is what they
   take. */
uint32_t otel_inject(otel_handle *handle, uint64_t span, uint8_t *buffer, size_t buffer_length, size_t *length);

/* Ends a span, which is handed on for export where it is sampled. Its key names nothing from then on. */
uint32_t otel_end(otel_handle *handle, uint64_t span, uint64_t moment);
/* The same, but nothing is handed on. */
uint32_t otel_abandon(otel_handle *handle, uint64_t span);

/* Exports what waits in the queue, into the lines that otel_drain hands out. OTEL_FAILED: not all was exported. */
uint32_t otel_flush(otel_handle *handle);
/* Exports what is due at this moment, which is not before that of an earlier call: the first call starts a timer, and
   what waits is exported once the schedule delay (OTEL_BSP_SCHEDULE_DELAY) has passed since. Take the moment from a
   clock that never goes back (CLOCK_MONOTONIC), and not from that of the spans: after a step back nothing is due for as
   long. */
uint32_t otel_run(otel_handle *handle, uint64_t moment);

/* Hands out what was exported, and forgets it: whole lines, each a request of the OpenTelemetry protocol in JSON with a
   line feed after it. OTEL_BUFFER_TOO_SMALL where the buffer has no room for all of them: nothing was forgotten, and
   *length is what they take; the next call hands out the same lines, and what was exported since is left to the one
   after. So call it until *length is 0. */
uint32_t otel_drain(otel_handle *handle, uint8_t *buffer, size_t buffer_length, size_t *length);

/* The same, of as many lines as the buffer has room for, the oldest first; *length is what they take.
   OTEL_BUFFER_TOO_SMALL where it has no room for the first: nothing was forgotten, and *length is what that takes. */
uint32_t otel_drain_some(otel_handle *handle, uint8_t *buffer, size_t buffer_length, size_t *length);

/* How many spans are where; what was dropped or lost is counted from the opening on, and never anew. numbers_size is
   sizeof(otel_numbers); another is OTEL_BAD_ARGUMENT. Every sampled span that has ended was handed out, or is counted
   once among those that wait, are undrained, or were dropped, refused or lost. */
uint32_t otel_count(otel_handle *handle, otel_numbers *numbers, size_t numbers_size);

/* For the child of a fork, before its other calls: forgets the open spans, what waits and what was exported, which are
   the parent's, and goes on as a pipeline that was opened with the same settings and this seed, also where the parent's
   was shut down. Tracers keep their numbers, no key is used again, and the counts begin anew. */
uint32_t otel_after_fork(otel_handle *handle, uint64_t seed);

/* Exports what waits and nothing afterwards: spans may still start and end, and record nothing or are not exported.
   Lines can still be drained. OTEL_FAILED: not all was exported, or it was shut down before. */
uint32_t otel_shutdown(otel_handle *handle);

/* Shuts down, abandons the spans that are open, and lets go of all that the handle owns, the lines too. The handle may
   be opened again. */
uint32_t otel_close(otel_handle *handle);

#ifdef __cplusplus
}
#endif
#endif

// SPDX-License-Identifier: Apache-2.0
/* What the files of the driver share: the caller's own knowledge of its pipelines, and chance. */
#ifndef DRIVER_H
#define DRIVER_H

#include "otel.h"

enum { PIPELINES = 3, SPANS = 256, TRACERS = 64, KEYS = 1 << 13, STATUSES = OTEL_FAILED + 1 };

/* The first places for memory are those of a call's texts; attributes that are handed over have one, and three each. */
enum { SLOTS_OF_TEXTS = 4, MOST_HANDED = 4, SLOTS = SLOTS_OF_TEXTS + 1 + 3 * MOST_HANDED };

/* Each byte of an answer before the call, and of the memory after a buffer. */
enum { UNTOUCHED = 0xa5 };

/* A text that is handed in; the byte after it cannot be read. */
typedef struct {
  const uint8_t *bytes;
  size_t length;
  bool is_utf8;
} text;

/* The header traceparent, and what it says where it is one. */
typedef struct {
  text written;
  bool is_valid;
  uint64_t trace_id_high, trace_id_low;
} parent_header;

typedef struct {
  uint64_t key;
  otel_span_identity identity;
} open_span;

/* What the driver knows of a pipeline. */
typedef struct {
  otel_handle handle;
  bool is_open, is_shut_down;
  uint64_t tracers[TRACERS];
  size_t tracer_count;
  open_span spans[SPANS];
  size_t span_count;
  /* Every key that was given, each at or after the place that it hashes to; 0 is a free place. */
  uint64_t given[KEYS];
  size_t given_count;
  /* The ids of sampled spans that were ended before the shutdown, in this order, and how many; how many are in drained
     lines, and which is the first that may be in the next line. */
  uint64_t ended_ids[KEYS];
  uint64_t ended, drained, next_drained;
  /* How many exported spans are kept at most. */
  uint64_t most_undrained;
  otel_numbers numbers;
} pipeline;

/* Memory whose end is followed by a page that cannot be touched. */
typedef struct {
  uint8_t *end;
  size_t room;
} slot;

typedef struct {
  uint64_t seed, random, number;
  const char *name;
  pipeline pipelines[PIPELINES];
  slot slots[SLOTS];
  slot output;
  uint64_t answers[STATUSES];
  uint64_t spans, lines;
} driver;

/* Which statuses a call that answers OTEL_OK would be wrong not to answer, and which else it may answer. */
typedef struct {
  bool owed[STATUSES];
  bool allowed[STATUSES];
} refusals;

/* Attributes that are handed over, and what is wrong with them. */
typedef struct {
  const otel_attribute *list;
  size_t count;
  refusals refusals;
} handed;

/* Says what is wrong with the call in hand, and ends the program. */
_Noreturn void fail(const driver *driver, const char *what, uint64_t number);

/* chance.c */
uint64_t any_number(driver *driver);
uint64_t any_below(driver *driver, uint64_t limit);
bool is_one_in(driver *driver, uint64_t count);
uint64_t any_moment(driver *driver);
text any_text(driver *driver, size_t slot);
text copied_text(driver *driver, size_t slot, const char *from);
parent_header any_parent_header(driver *driver, size_t slot);
uint64_t *any_numbers(driver *driver, size_t slot, size_t count);
double any_double(driver *driver);
double *any_doubles(driver *driver, size_t slot, size_t count);
uint8_t *any_bytes(driver *driver, size_t slot, size_t count);
bool is_utf8(const uint8_t *bytes, size_t length);
void make_slots(driver *driver);

/* model.c */
const open_span *span_of(const pipeline *pipeline, uint64_t key);
uint64_t any_key(driver *driver, const pipeline *pipeline);
void note_opening(pipeline *pipeline, uint64_t most_undrained);
void note_fork(pipeline *pipeline);
void note_start(driver *driver, pipeline *pipeline, uint64_t key);
void note_end(driver *driver, pipeline *pipeline, uint64_t key, bool is_handed_on);
void check_status(driver *driver, const pipeline *pipeline, uint32_t status, const refusals *refusals);
void check_untouched(const driver *driver, uint32_t status, const void *answer, size_t size);
void check_numbers(driver *driver, pipeline *pipeline);
void add_refusals(refusals *to, const refusals *from);

/* handed.c */
handed any_handed(driver *driver);

/* attributes.c: the calls that gather attributes. */
void look_at_texts(refusals *refusals, const text *values, const uint64_t *lengths, size_t count);
void cut(driver *driver, uint64_t *lengths, size_t count, size_t length);
void call_with_text(driver *driver, pipeline *pipeline);
void call_with_integer(driver *driver, pipeline *pipeline);
void call_with_float(driver *driver, pipeline *pipeline);
void call_with_bool(driver *driver, pipeline *pipeline);
void call_with_texts(driver *driver, pipeline *pipeline);
void call_with_integers(driver *driver, pipeline *pipeline);
void call_with_floats(driver *driver, pipeline *pipeline);
void call_with_bools(driver *driver, pipeline *pipeline);

/* pipelines.c: the calls that open and close pipelines and spans, and those that export. */
void call_open(driver *driver, pipeline *pipeline);
void call_tracer(driver *driver, pipeline *pipeline);
void call_start(driver *driver, pipeline *pipeline);
void call_start_remote(driver *driver, pipeline *pipeline);
void call_start_with(driver *driver, pipeline *pipeline);
void call_start_remote_with(driver *driver, pipeline *pipeline);
void call_version(driver *driver, pipeline *pipeline);
void call_after_fork(driver *driver, pipeline *pipeline);
void call_identity(driver *driver, pipeline *pipeline);
void call_end(driver *driver, pipeline *pipeline);
void call_abandon(driver *driver, pipeline *pipeline);
void call_flush(driver *driver, pipeline *pipeline);
void call_run(driver *driver, pipeline *pipeline);
void call_count(driver *driver, pipeline *pipeline);
void call_shutdown(driver *driver, pipeline *pipeline);
void call_close(driver *driver, pipeline *pipeline);

/* outputs.c: the calls that write into a buffer. */
void call_ignored_settings(driver *driver, pipeline *pipeline);
void call_inject(driver *driver, pipeline *pipeline);
void call_drain(driver *driver, pipeline *pipeline);
void call_drain_some(driver *driver, pipeline *pipeline);
void drain_all(driver *driver, pipeline *pipeline);

/* spans.c: the calls that edit a span. */
void call_set_text(driver *driver, pipeline *pipeline);
void call_set_integer(driver *driver, pipeline *pipeline);
void call_set_float(driver *driver, pipeline *pipeline);
void call_set_bool(driver *driver, pipeline *pipeline);
void call_set_attributes(driver *driver, pipeline *pipeline);
void call_set_attributes_with(driver *driver, pipeline *pipeline);
void call_add_event(driver *driver, pipeline *pipeline);
void call_add_event_with(driver *driver, pipeline *pipeline);
void call_record_exception(driver *driver, pipeline *pipeline);
void call_add_link(driver *driver, pipeline *pipeline);
void call_add_link_with(driver *driver, pipeline *pipeline);
void call_add_remote_link(driver *driver, pipeline *pipeline);
void call_add_remote_link_with(driver *driver, pipeline *pipeline);
void call_set_status(driver *driver, pipeline *pipeline);
void call_update_name(driver *driver, pipeline *pipeline);

#endif

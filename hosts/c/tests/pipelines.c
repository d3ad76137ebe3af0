// SPDX-License-Identifier: Apache-2.0
/* The calls that open and close pipelines and spans, and those that export. */
#include "driver.h"

#include <string.h>

/* How many exported spans are kept where no setting says it. */
enum { MOST_UNDRAINED = 65536 };

/* Settings whose every line reads. */
static const char *const settings_that_read[] = {
    "",
    "OTEL_SPAN_PROCESSOR=batch",
    "OTEL_SPAN_PROCESSOR=eager\nOTEL_BSP_MAX_EXPORT_BATCH_SIZE=3",
    "OTEL_SPAN_PROCESSOR=simple\nOTEL_SERVICE_NAME=shop",
    "OTEL_SPAN_PROCESSOR=batch\nOTEL_BSP_MAX_QUEUE_SIZE=8\nOTEL_BSP_MAX_EXPORT_BATCH_SIZE=4\n",
    "OTEL_TRACES_SAMPLER=always_off",
    "OTEL_TRACES_SAMPLER=parentbased_traceidratio\nOTEL_TRACES_SAMPLER_ARG=0.5",
    "OTEL_SPAN_ATTRIBUTE_COUNT_LIMIT=1\nOTEL_SPAN_EVENT_COUNT_LIMIT=2\nOTEL_SPAN_LINK_COUNT_LIMIT=1",
    "OTEL_ATTRIBUTE_VALUE_LENGTH_LIMIT=3\nOTEL_RESOURCE_ATTRIBUTES=a=b,c=d",
};

/* The same, with so many exported spans that are kept at most. */
static const struct {
  const char *settings;
  uint64_t most_undrained;
} settings_of_few[] = {
    {"OTEL_C_MAX_UNDRAINED_SPANS=1\nOTEL_SPAN_PROCESSOR=simple", 1},
    {"OTEL_C_MAX_UNDRAINED_SPANS=5\nOTEL_BSP_MAX_EXPORT_BATCH_SIZE=2", 5},
    {"OTEL_SPAN_PROCESSOR=batch\nOTEL_BSP_MAX_EXPORT_BATCH_SIZE=3\nOTEL_C_MAX_UNDRAINED_SPANS=8", 8},
};

static bool is_tracer(const pipeline *pipeline, uint64_t tracer) {
  for (size_t i = 0; i < pipeline->tracer_count; i++) {
    if (pipeline->tracers[i] == tracer) {
      return true;
    }
  }
  return false;
}

/* A tracer that was given mostly; else a small number, or any. */
static uint64_t any_tracer(driver *driver, const pipeline *pipeline, refusals *refusals) {
  uint64_t tracer = is_one_in(driver, 4) ? any_number(driver) : any_below(driver, 64);
  if (pipeline->is_open && !is_one_in(driver, 8)) {
    tracer = pipeline->tracers[any_below(driver, pipeline->tracer_count)];
  }
  refusals->owed[OTEL_NO_SUCH_TRACER] = !is_tracer(pipeline, tracer);
  return tracer;
}

static uint32_t any_kind(driver *driver, refusals *refusals) {
  uint64_t any = is_one_in(driver, 8) ? any_number(driver) : 1 + any_below(driver, 5);
  uint32_t kind = (uint32_t)(is_one_in(driver, 16) ? any_below(driver, 8) : any);
  refusals->owed[OTEL_BAD_ARGUMENT] = kind < OTEL_INTERNAL || kind > OTEL_CONSUMER;
  return kind;
}

/* Settings by chance. */
static text any_settings(driver *driver, uint64_t *most_undrained) {
  size_t choices = sizeof settings_that_read / sizeof *settings_that_read;
  size_t few = sizeof settings_of_few / sizeof *settings_of_few;
  *most_undrained = MOST_UNDRAINED;
  if (is_one_in(driver, 4)) {
    return any_text(driver, 0);
  }
  size_t choice = any_below(driver, choices + few);
  if (choice < choices) {
    return copied_text(driver, 0, settings_that_read[choice]);
  }
  *most_undrained = settings_of_few[choice - choices].most_undrained;
  return copied_text(driver, 0, settings_of_few[choice - choices].settings);
}

void call_open(driver *driver, pipeline *pipeline) {
  uint64_t most_undrained;
  text settings = any_settings(driver, &most_undrained);
  refusals refusals = {.owed = {[OTEL_ALREADY_OPEN] = pipeline->is_open, [OTEL_NOT_UTF8] = !settings.is_utf8}};
  uint32_t status = otel_open(&pipeline->handle, settings.bytes, settings.length, any_number(driver));
  check_status(driver, pipeline, status, &refusals);
  if (status == OTEL_OK) {
    note_opening(pipeline, most_undrained);
  }
}

/* It needs no handle. */
void call_version(driver *driver, pipeline *pipeline) {
  uint32_t major = 77, minor = 77, patch = 77;
  (void)pipeline;
  if (otel_version(&major, &minor, &patch) != OTEL_OK || major != OTEL_VERSION_MAJOR || minor != OTEL_VERSION_MINOR ||
      patch != OTEL_VERSION_PATCH) {
    fail(driver, "the library is not of the header's version; its minor one:", minor);
  }
  driver->answers[OTEL_OK]++;
}

void call_after_fork(driver *driver, pipeline *pipeline) {
  refusals refusals = {0};
  uint32_t status = otel_after_fork(&pipeline->handle, any_number(driver));
  check_status(driver, pipeline, status, &refusals);
  if (status == OTEL_OK) {
    note_fork(pipeline);
  }
}

void call_tracer(driver *driver, pipeline *pipeline) {
  text name = any_text(driver, 0), version = any_text(driver, 1), schema_url = any_text(driver, 2);
  refusals refusals = {.owed = {[OTEL_NOT_UTF8] = !name.is_utf8 || !version.is_utf8 || !schema_url.is_utf8}};
  uint64_t tracer;
  memset(&tracer, UNTOUCHED, sizeof tracer);
  uint32_t status = otel_tracer(&pipeline->handle, name.bytes, name.length, version.bytes, version.length,
                                schema_url.bytes, schema_url.length, &tracer);
  check_status(driver, pipeline, status, &refusals);
  check_untouched(driver, status, &tracer, sizeof tracer);
  if (status == OTEL_OK) {
    pipeline->tracers[pipeline->tracer_count++] = tracer;
  }
}

/* Looks whether the span that was started last is of a trace; after a shutdown it is of none. */
static void check_trace(const driver *driver, const pipeline *pipeline, uint64_t high, uint64_t low) {
  const open_span *span = &pipeline->spans[pipeline->span_count - 1];
  bool is_of_trace = span->identity.trace_id_high == high && span->identity.trace_id_low == low;
  if (!is_of_trace && !pipeline->is_shut_down) {
    fail(driver, "the span is not of its parent's trace; its key:", span->key);
  }
}

/* Starts a span with the attributes that were gathered, or with some that are handed. */
static void start(driver *driver, pipeline *pipeline, bool is_handed) {
  refusals refusals = {0};
  uint64_t tracer = any_tracer(driver, pipeline, &refusals), key;
  uint64_t parent = is_one_in(driver, 3) ? 0 : any_key(driver, pipeline), moment = any_moment(driver);
  const open_span *parent_span = span_of(pipeline, parent);
  uint32_t kind = any_kind(driver, &refusals);
  text name = any_text(driver, 0);
  handed with = is_handed ? any_handed(driver) : (handed){0};
  refusals.owed[OTEL_NO_SUCH_SPAN] = parent != 0 && parent_span == NULL;
  refusals.owed[OTEL_NOT_UTF8] = !name.is_utf8;
  add_refusals(&refusals, &with.refusals);
  memset(&key, UNTOUCHED, sizeof key);
  uint32_t status = is_handed
                        ? otel_start_with(&pipeline->handle, tracer, parent, kind, name.bytes, name.length, moment,
                                          with.list, with.count, &key)
                        : otel_start(&pipeline->handle, tracer, parent, kind, name.bytes, name.length, moment, &key);
  check_status(driver, pipeline, status, &refusals);
  check_untouched(driver, status, &key, sizeof key);
  if (status != OTEL_OK) {
    return;
  }
  note_start(driver, pipeline, key);
  if (parent_span != NULL) {
    check_trace(driver, pipeline, parent_span->identity.trace_id_high, parent_span->identity.trace_id_low);
  }
}

void call_start(driver *driver, pipeline *pipeline) { start(driver, pipeline, false); }

void call_start_with(driver *driver, pipeline *pipeline) { start(driver, pipeline, true); }

/* Headers that are not UTF-8 do not read, or are refused as texts. */
static void start_remote(driver *driver, pipeline *pipeline, bool is_handed) {
  refusals refusals = {0};
  uint64_t tracer = any_tracer(driver, pipeline, &refusals), moment = any_moment(driver), key;
  parent_header parent = any_parent_header(driver, 0);
  text state = any_text(driver, 1), baggage = any_text(driver, 2);
  uint32_t kind = any_kind(driver, &refusals);
  text name = any_text(driver, 3);
  handed with = is_handed ? any_handed(driver) : (handed){0};
  refusals.owed[OTEL_NOT_UTF8] = !name.is_utf8;
  refusals.allowed[OTEL_NOT_UTF8] = !parent.written.is_utf8 || !state.is_utf8 || !baggage.is_utf8;
  add_refusals(&refusals, &with.refusals);
  memset(&key, UNTOUCHED, sizeof key);
  uint32_t status =
      is_handed
          ? otel_start_remote_with(&pipeline->handle, tracer, parent.written.bytes, parent.written.length, state.bytes,
                                   state.length, baggage.bytes, baggage.length, kind, name.bytes, name.length, moment,
                                   with.list, with.count, &key)
          : otel_start_remote(&pipeline->handle, tracer, parent.written.bytes, parent.written.length, state.bytes,
                              state.length, baggage.bytes, baggage.length, kind, name.bytes, name.length, moment, &key);
  check_status(driver, pipeline, status, &refusals);
  check_untouched(driver, status, &key, sizeof key);
  if (status != OTEL_OK) {
    return;
  }
  note_start(driver, pipeline, key);
  if (parent.is_valid) {
    check_trace(driver, pipeline, parent.trace_id_high, parent.trace_id_low);
  }
}

void call_start_remote(driver *driver, pipeline *pipeline) { start_remote(driver, pipeline, false); }

void call_start_remote_with(driver *driver, pipeline *pipeline) { start_remote(driver, pipeline, true); }

void call_identity(driver *driver, pipeline *pipeline) {
  uint64_t key = any_key(driver, pipeline);
  const open_span *span = span_of(pipeline, key);
  refusals refusals = {.owed = {[OTEL_NO_SUCH_SPAN] = span == NULL}};
  otel_span_identity identity;
  memset(&identity, UNTOUCHED, sizeof identity);
  uint32_t status = otel_identity(&pipeline->handle, key, &identity);
  check_status(driver, pipeline, status, &refusals);
  check_untouched(driver, status, &identity, sizeof identity);
  if (status == OTEL_OK && memcmp(&identity, &span->identity, sizeof identity) != 0) {
    fail(driver, "the span has become another; its key:", key);
  }
}

void call_end(driver *driver, pipeline *pipeline) {
  uint64_t key = any_key(driver, pipeline);
  refusals refusals = {.owed = {[OTEL_NO_SUCH_SPAN] = span_of(pipeline, key) == NULL}};
  uint32_t status = otel_end(&pipeline->handle, key, any_moment(driver));
  check_status(driver, pipeline, status, &refusals);
  if (status == OTEL_OK) {
    note_end(driver, pipeline, key, true);
  }
}

void call_abandon(driver *driver, pipeline *pipeline) {
  uint64_t key = any_key(driver, pipeline);
  refusals refusals = {.owed = {[OTEL_NO_SUCH_SPAN] = span_of(pipeline, key) == NULL}};
  uint32_t status = otel_abandon(&pipeline->handle, key);
  check_status(driver, pipeline, status, &refusals);
  if (status == OTEL_OK) {
    note_end(driver, pipeline, key, false);
  }
}

/* Looks whether what a failed export did not export waits, or was counted as lost. */
static void check_export(driver *driver, pipeline *pipeline, uint32_t status) {
  refusals refusals = {.allowed = {[OTEL_FAILED] = true}};
  uint64_t lost_before = pipeline->numbers.lost_batches;
  check_status(driver, pipeline, status, &refusals);
  check_numbers(driver, pipeline);
  bool is_all_exported = pipeline->numbers.lost_batches == lost_before && pipeline->numbers.waiting_spans == 0;
  if (status == OTEL_FAILED && !pipeline->is_shut_down && is_all_exported) {
    fail(driver, "all was exported, and the status is", status);
  }
}

void call_flush(driver *driver, pipeline *pipeline) {
  uint32_t status = otel_flush(&pipeline->handle);
  check_export(driver, pipeline, status);
  if (status == OTEL_OK && pipeline->numbers.waiting_spans > 0) {
    fail(driver, "after a flush spans wait:", pipeline->numbers.waiting_spans);
  }
}

void call_run(driver *driver, pipeline *pipeline) {
  check_export(driver, pipeline, otel_run(&pipeline->handle, any_moment(driver)));
}

/* Asks for numbers of any size, of which one is right; another is refused by a handle that is closed too. */
void call_count(driver *driver, pipeline *pipeline) {
  otel_numbers numbers;
  size_t size = is_one_in(driver, 2) ? sizeof numbers : any_below(driver, 2 * sizeof numbers);
  refusals refusals = {.owed = {[OTEL_BAD_ARGUMENT] = size != sizeof numbers}};
  memset(&numbers, UNTOUCHED, sizeof numbers);
  uint32_t status = otel_count(&pipeline->handle, &numbers, size);
  check_untouched(driver, status, &numbers, sizeof numbers);
  if (!pipeline->is_open && size != sizeof numbers && status == OTEL_BAD_ARGUMENT) {
    driver->answers[status]++;
    return;
  }
  check_status(driver, pipeline, status, &refusals);
}

void call_shutdown(driver *driver, pipeline *pipeline) {
  uint32_t status = otel_shutdown(&pipeline->handle);
  check_export(driver, pipeline, status);
  if (status == OTEL_OK && pipeline->is_shut_down) {
    fail(driver, "the pipeline was shut down before, and the status is", status);
  }
  pipeline->is_shut_down = pipeline->is_open && status != OTEL_OUT_OF_MEMORY;
}

void call_close(driver *driver, pipeline *pipeline) {
  refusals refusals = {0};
  uint32_t status = otel_close(&pipeline->handle);
  check_status(driver, pipeline, status, &refusals);
  if (status == OTEL_OK) {
    otel_handle handle = pipeline->handle;
    memset(pipeline, 0, sizeof *pipeline);
    pipeline->handle = handle;
  }
}

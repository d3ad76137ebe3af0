// SPDX-License-Identifier: Apache-2.0
/* The driver's own model of a pipeline, and what the header promises of every call. */
#include "driver.h"

#include <string.h>

const open_span *span_of(const pipeline *pipeline, uint64_t key) {
  for (size_t i = 0; i < pipeline->span_count; i++) {
    if (pipeline->spans[i].key == key) {
      return &pipeline->spans[i];
    }
  }
  return NULL;
}

/* The key of an open span mostly; else a small number, or any. */
uint64_t any_key(driver *driver, const pipeline *pipeline) {
  if (pipeline->span_count > 0 && !is_one_in(driver, 4)) {
    return pipeline->spans[any_below(driver, pipeline->span_count)].key;
  }
  return is_one_in(driver, 8) ? any_number(driver) : any_below(driver, 32);
}

void note_opening(pipeline *pipeline, uint64_t most_undrained) {
  otel_handle handle = pipeline->handle;
  memset(pipeline, 0, sizeof *pipeline);
  pipeline->handle = handle;
  pipeline->is_open = true;
  pipeline->tracer_count = 1;
  pipeline->most_undrained = most_undrained;
}

/* What stays after a fork: the tracers, and the keys that were given. */
void note_fork(pipeline *pipeline) {
  pipeline->is_shut_down = false;
  pipeline->span_count = 0;
  pipeline->ended = pipeline->drained = pipeline->next_drained = 0;
  pipeline->numbers = (otel_numbers){0};
}

/* Notes a key, which must be a new one. */
static void note_key(driver *driver, pipeline *pipeline, uint64_t key) {
  size_t place = (key * 0x9e3779b97f4a7c15 >> 32) % KEYS;
  while (pipeline->given[place] != 0) {
    if (pipeline->given[place] == key) {
      fail(driver, "the key was given before", key);
    }
    place = (place + 1) % KEYS;
  }
  pipeline->given[place] = key;
  pipeline->given_count++;
}

void note_start(driver *driver, pipeline *pipeline, uint64_t key) {
  if (key == 0) {
    fail(driver, "the key is that of no span", key);
  }
  note_key(driver, pipeline, key);
  open_span *span = &pipeline->spans[pipeline->span_count++];
  span->key = key;
  if (otel_identity(&pipeline->handle, key, &span->identity) != OTEL_OK) {
    fail(driver, "the span that was started has no identity", key);
  }
  driver->spans++;
}

void note_end(driver *driver, pipeline *pipeline, uint64_t key, bool is_handed_on) {
  open_span *span = (open_span *)span_of(pipeline, key);
  if (span == NULL) {
    fail(driver, "a span ended that was not open", key);
  }
  if (is_handed_on && !pipeline->is_shut_down && (span->identity.trace_flags & 1)) {
    pipeline->ended_ids[pipeline->ended++] = span->identity.span_id;
  }
  *span = pipeline->spans[--pipeline->span_count];
}

void check_status(driver *driver, const pipeline *pipeline, uint32_t status, const refusals *refusals) {
  if (status >= STATUSES) {
    fail(driver, "the status is none of the header", status);
  }
  driver->answers[status]++;
  if (!pipeline->is_open && strcmp(driver->name, "otel_open") != 0) {
    if (status != OTEL_CLOSED) {
      fail(driver, "the handle is closed, and the status", status);
    }
    return;
  }
  if (status == OTEL_OK) {
    for (size_t owed = 0; owed < STATUSES; owed++) {
      if (refusals->owed[owed]) {
        fail(driver, "the answer is OTEL_OK, and not", owed);
      }
    }
    return;
  }
  bool is_failure_after_shutdown = status == OTEL_FAILED && pipeline->is_shut_down;
  bool is_allowed = refusals->owed[status] || refusals->allowed[status] || status == OTEL_OUT_OF_MEMORY;
  if (!is_allowed && !is_failure_after_shutdown) {
    fail(driver, "there is no reason for the status", status);
  }
}

void check_untouched(const driver *driver, uint32_t status, const void *answer, size_t size) {
  const uint8_t *bytes = answer;
  for (size_t i = 0; status != OTEL_OK && i < size; i++) {
    if (bytes[i] != UNTOUCHED) {
      fail(driver, "the call was refused, and wrote into its answer at byte", i);
    }
  }
}

void add_refusals(refusals *to, const refusals *from) {
  for (size_t status = 0; status < STATUSES; status++) {
    to->owed[status] |= from->owed[status];
    to->allowed[status] |= from->allowed[status];
  }
}

/* Each sampled span that was ended is in a line, waits, or was counted. */
static void check_balance(driver *driver, const pipeline *pipeline) {
  const otel_numbers *numbers = &pipeline->numbers;
  uint64_t lost = numbers->dropped_spans + numbers->refused_spans + numbers->lost_spans;
  uint64_t found = pipeline->drained + numbers->waiting_spans + numbers->undrained_spans + lost;
  if (found < pipeline->ended) {
    fail(driver, "sampled spans ended, and are neither in lines nor waiting nor counted:", pipeline->ended - found);
  }
  if (found > pipeline->ended) {
    fail(driver, "there are more spans in lines, waiting and counted than ended:", found - pipeline->ended);
  }
}

/* Looks whether what was lost did not become less, and what is kept is not too much. */
static void check_losses(driver *driver, const pipeline *pipeline, const otel_numbers *numbers) {
  const otel_numbers *before = &pipeline->numbers;
  if (numbers->dropped_spans < before->dropped_spans || numbers->refused_spans < before->refused_spans ||
      numbers->lost_batches < before->lost_batches || numbers->lost_spans < before->lost_spans) {
    fail(driver, "what was dropped, refused or lost became less; dropped:", numbers->dropped_spans);
  }
  if (numbers->lost_spans < numbers->lost_batches) {
    fail(driver, "batches were lost that had no spans:", numbers->lost_batches);
  }
  /* The limit is on spans that are not in lines yet: as many again may be in lines that were made and not handed out.
   */
  uint64_t most = numbers->undrained_bytes == 0 ? pipeline->most_undrained : 2 * pipeline->most_undrained;
  if (numbers->undrained_spans > most) {
    fail(driver, "more spans are kept than may be:", numbers->undrained_spans);
  }
}

/* Asks for the numbers, and looks whether they fit the model and those before. */
void check_numbers(driver *driver, pipeline *pipeline) {
  otel_numbers numbers;
  memset(&numbers, UNTOUCHED, sizeof numbers);
  uint32_t status = otel_count(&pipeline->handle, &numbers, sizeof numbers);
  if (status != (pipeline->is_open ? OTEL_OK : OTEL_CLOSED)) {
    fail(driver, "the numbers came with the status", status);
  }
  check_untouched(driver, status, &numbers, sizeof numbers);
  if (status != OTEL_OK) {
    return;
  }
  if (numbers.open_spans != pipeline->span_count) {
    fail(driver, "the pipeline says that there are other open spans:", numbers.open_spans);
  }
  check_losses(driver, pipeline, &numbers);
  pipeline->numbers = numbers;
  check_balance(driver, pipeline);
}

// SPDX-License-Identifier: Apache-2.0
/* The calls that write texts into a buffer: what they write, how long they say it is, and what they leave alone. */
#include "driver.h"

#include <string.h>

enum { CANARY = 64 };

typedef uint32_t (*writer)(otel_handle *handle, uint64_t span, uint8_t *buffer, size_t room, size_t *length);

typedef struct {
  uint32_t status;
  const uint8_t *bytes;
  size_t length;
} output;

static uint32_t write_ignored(otel_handle *handle, uint64_t span, uint8_t *buffer, size_t room, size_t *length) {
  (void)span;
  return otel_ignored_settings(handle, buffer, room, length);
}

static uint32_t write_lines(otel_handle *handle, uint64_t span, uint8_t *buffer, size_t room, size_t *length) {
  (void)span;
  return otel_drain(handle, buffer, room, length);
}

static uint32_t write_some_lines(otel_handle *handle, uint64_t span, uint8_t *buffer, size_t room, size_t *length) {
  (void)span;
  return otel_drain_some(handle, buffer, room, length);
}

static void check_all_untouched(driver *driver, const uint8_t *bytes, size_t count, const char *what) {
  for (size_t i = 0; i < count; i++) {
    if (bytes[i] != UNTOUCHED) {
      fail(driver, what, i);
    }
  }
}

/* Writes into a buffer of this room, after which a canary stands. */
static output written(driver *driver, pipeline *pipeline, writer write, uint64_t span, size_t room) {
  if (room + CANARY > driver->output.room) {
    fail(driver, "the driver has no buffer of so many bytes:", room);
  }
  uint8_t *buffer = driver->output.end - CANARY - room;
  memset(buffer, UNTOUCHED, room + CANARY);
  size_t length;
  memset(&length, UNTOUCHED, sizeof length);
  uint32_t status = write(&pipeline->handle, span, buffer, room, &length);
  check_all_untouched(driver, buffer + room, CANARY, "the call wrote beyond the buffer, at byte");
  if (status != OTEL_OK) {
    check_all_untouched(driver, buffer, room, "the call was refused, and wrote into the buffer at byte");
  }
  if (status != OTEL_OK && status != OTEL_BUFFER_TOO_SMALL) {
    check_untouched(driver, status, &length, sizeof length);
    length = 0;
  } else if ((status == OTEL_OK) != (length <= room)) {
    fail(driver, "the status does not fit the length", length);
  }
  return (output){.status = status, .bytes = buffer, .length = length};
}

/* Writes into a buffer of any room, and where that is too small mostly again into one of just the room. */
static output taken(driver *driver, pipeline *pipeline, writer write, uint64_t span) {
  size_t room = any_below(driver, is_one_in(driver, 2) ? 64 : 65536);
  output output = written(driver, pipeline, write, span, room);
  if (output.status != OTEL_BUFFER_TOO_SMALL || is_one_in(driver, 4)) {
    return output;
  }
  size_t wanted = output.length;
  output = written(driver, pipeline, write, span, wanted);
  if (output.status != OTEL_OUT_OF_MEMORY && (output.status != OTEL_OK || output.length != wanted)) {
    fail(driver, "the buffer had the room that was wanted, and the length became", output.length);
  }
  return output;
}

static void check_ends_in_line_feed(const driver *driver, const output *output) {
  if (output->length > 0 && output->bytes[output->length - 1] != '\n') {
    fail(driver, "there is no line feed at the end, after bytes:", output->length);
  }
}

void call_ignored_settings(driver *driver, pipeline *pipeline) {
  refusals refusals = {.allowed = {[OTEL_BUFFER_TOO_SMALL] = true}};
  output output = taken(driver, pipeline, write_ignored, 0);
  check_status(driver, pipeline, output.status, &refusals);
  if (output.status == OTEL_OK) {
    check_ends_in_line_feed(driver, &output);
  }
}

/* Looks whether each line of headers has a name, and ends in a carriage return and a line feed. */
static void check_headers(const driver *driver, const output *output) {
  size_t at = 0;
  check_ends_in_line_feed(driver, output);
  while (at < output->length) {
    const uint8_t *line = output->bytes + at;
    const uint8_t *feed = memchr(line, '\n', output->length - at);
    const uint8_t *colon = memchr(line, ':', (size_t)(feed - line));
    if (colon == NULL || colon == line || colon[1] != ' ' || feed[-1] != '\r') {
      fail(driver, "no header stands at byte", at);
    }
    at += (size_t)(feed - line) + 1;
  }
}

void call_inject(driver *driver, pipeline *pipeline) {
  uint64_t span = any_key(driver, pipeline);
  bool is_open = span_of(pipeline, span) != NULL;
  refusals refusals = {.owed = {[OTEL_NO_SUCH_SPAN] = !is_open}, .allowed = {[OTEL_BUFFER_TOO_SMALL] = is_open}};
  output output = taken(driver, pipeline, otel_inject, span);
  check_status(driver, pipeline, output.status, &refusals);
  if (output.status == OTEL_OK) {
    check_headers(driver, &output);
  }
}

/* Where a text begins within bytes; NULL where it does not. */
static const uint8_t *place_of(const uint8_t *bytes, const uint8_t *end, const char *what) {
  size_t size = strlen(what);
  while ((size_t)(end - bytes) >= size) {
    bytes = memchr(bytes, what[0], (size_t)(end - bytes) - size + 1);
    if (bytes == NULL || memcmp(bytes, what, size) == 0) {
      return bytes;
    }
    bytes++;
  }
  return NULL;
}

static uint64_t id_at(const uint8_t *digits) {
  static const char hexadecimal[] = "0123456789abcdef";
  uint64_t id = 0;
  for (size_t i = 0; i < 16; i++) {
    id = id * 16 + (uint64_t)(strchr(hexadecimal, (char)digits[i]) - hexadecimal);
  }
  return id;
}

/* Notes a span of a line: it has ended after those of the lines before, and was in none of them. *last becomes the
   greatest place of the line's spans among those that ended. */
static void note_drained(driver *driver, pipeline *pipeline, uint64_t id, uint64_t *last) {
  uint64_t place = pipeline->next_drained;
  while (place < pipeline->ended && pipeline->ended_ids[place] != id) {
    place++;
  }
  if (place == pipeline->ended) {
    fail(driver, "a span is in a line that did not end, or came before, or in another order; its id:", id);
  }
  *last = place > *last ? place : *last;
  pipeline->drained++;
}

/* Looks at the spans of a line. Within a text of JSON no quotation mark is without a backslash, so that each span has
   one parent's id, and before it, as the last one, its own. */
static void check_spans(driver *driver, pipeline *pipeline, const uint8_t *line, size_t length) {
  static const char own_id[] = "\"spanId\":\"", parent_id[] = "\"parentSpanId\":\"";
  const uint8_t *end = line + length, *own = NULL, *next = place_of(line, end, own_id);
  const uint8_t *parent = place_of(line, end, parent_id);
  uint64_t last = pipeline->next_drained, count = 0;
  while (parent != NULL) {
    while (next != NULL && next < parent) {
      own = next + sizeof own_id - 1;
      next = place_of(own, end, own_id);
    }
    if (own == NULL) {
      fail(driver, "a span of a line has no id, after spans:", count);
    }
    note_drained(driver, pipeline, id_at(own), &last);
    count++;
    parent = place_of(parent + 1, end, parent_id);
  }
  if (count == 0) {
    fail(driver, "a line has no spans, of bytes:", length);
  }
  pipeline->next_drained = last + 1;
}

/* Looks at whole lines. */
static void check_lines(driver *driver, pipeline *pipeline, const output *output) {
  static const char begin[] = "{\"resourceSpans\"";
  size_t at = 0;
  check_ends_in_line_feed(driver, output);
  while (at < output->length) {
    const uint8_t *line = output->bytes + at;
    const uint8_t *feed = memchr(line, '\n', output->length - at);
    size_t length = (size_t)(feed - line) + 1;
    if (length < sizeof begin || memcmp(line, begin, sizeof begin - 1) != 0) {
      fail(driver, "no request begins at byte", at);
    }
    check_spans(driver, pipeline, line, length);
    driver->lines++;
    at += length;
  }
}

/* Looks at what a drain answered: where it is nothing, nothing is left, and what is too much for a buffer is counted.
 */
static void check_drain(driver *driver, pipeline *pipeline, const output *output) {
  refusals refusals = {.allowed = {[OTEL_BUFFER_TOO_SMALL] = true}};
  check_status(driver, pipeline, output->status, &refusals);
  if (output->status == OTEL_OK) {
    check_lines(driver, pipeline, output);
  }
  check_numbers(driver, pipeline);
  uint64_t spans = pipeline->numbers.undrained_spans, bytes = pipeline->numbers.undrained_bytes;
  if (output->status == OTEL_OK && output->length == 0 && pipeline->is_open && (spans > 0 || bytes > 0)) {
    fail(driver, "a drain had no line, and there are undrained spans:", spans);
  }
  if (output->status == OTEL_BUFFER_TOO_SMALL && (spans == 0 || bytes < output->length)) {
    fail(driver, "lines are too much for a buffer, and fewer bytes are undrained:", bytes);
  }
}

/* Drains until nothing is left, or a call is refused. */
static void drain_by(driver *driver, pipeline *pipeline, writer write) {
  output output;
  do {
    output = taken(driver, pipeline, write, 0);
    check_drain(driver, pipeline, &output);
  } while (output.status == OTEL_OK && output.length > 0);
}

void drain_all(driver *driver, pipeline *pipeline) { drain_by(driver, pipeline, write_lines); }

void call_drain(driver *driver, pipeline *pipeline) { drain_by(driver, pipeline, write_lines); }

/* Drains all, or once into a buffer of any room. */
void call_drain_some(driver *driver, pipeline *pipeline) {
  if (is_one_in(driver, 2)) {
    drain_by(driver, pipeline, write_some_lines);
    return;
  }
  output output = written(driver, pipeline, write_some_lines, 0, any_below(driver, 16384));
  check_drain(driver, pipeline, &output);
}

// SPDX-License-Identifier: Apache-2.0
/* The calls that gather attributes. */
#include "driver.h"

enum { MOST_VALUES = 6 };

static text any_attribute_key(driver *driver, refusals *refusals) {
  text key = any_text(driver, 0);
  refusals->owed[OTEL_NOT_UTF8] = !key.is_utf8;
  return key;
}

void call_with_text(driver *driver, pipeline *pipeline) {
  refusals refusals = {0};
  text key = any_attribute_key(driver, &refusals), value = any_text(driver, 1);
  refusals.owed[OTEL_NOT_UTF8] |= !value.is_utf8;
  uint32_t status = otel_with_text(&pipeline->handle, key.bytes, key.length, value.bytes, value.length);
  check_status(driver, pipeline, status, &refusals);
}

void call_with_integer(driver *driver, pipeline *pipeline) {
  refusals refusals = {0};
  text key = any_attribute_key(driver, &refusals);
  uint32_t status = otel_with_integer(&pipeline->handle, key.bytes, key.length, (int64_t)any_number(driver));
  check_status(driver, pipeline, status, &refusals);
}

void call_with_float(driver *driver, pipeline *pipeline) {
  refusals refusals = {0};
  text key = any_attribute_key(driver, &refusals);
  uint32_t status = otel_with_float(&pipeline->handle, key.bytes, key.length, any_double(driver));
  check_status(driver, pipeline, status, &refusals);
}

void call_with_bool(driver *driver, pipeline *pipeline) {
  refusals refusals = {0};
  text key = any_attribute_key(driver, &refusals);
  uint32_t status = otel_with_bool(&pipeline->handle, key.bytes, key.length, (uint32_t)any_below(driver, 3));
  check_status(driver, pipeline, status, &refusals);
}

/* Cuts a text into as many lengths. */
void cut(driver *driver, uint64_t *lengths, size_t count, size_t length) {
  for (size_t i = 0; i + 1 < count; i++) {
    lengths[i] = any_below(driver, length + 1);
    length -= lengths[i];
  }
  if (count > 0) {
    lengths[count - 1] = length;
  }
}

/* What is wrong with a list of texts: lengths that are not those of all its bytes, or an item that is not UTF-8. */
void look_at_texts(refusals *refusals, const text *values, const uint64_t *lengths, size_t count) {
  size_t at = 0;
  for (size_t i = 0; i < count; i++) {
    if (lengths[i] > values->length - at) {
      refusals->owed[OTEL_BAD_ARGUMENT] = true;
      refusals->allowed[OTEL_NOT_UTF8] |= !values->is_utf8;
      return;
    }
    refusals->owed[OTEL_NOT_UTF8] |= !is_utf8(values->bytes + at, lengths[i]);
    at += lengths[i];
  }
  refusals->owed[OTEL_BAD_ARGUMENT] |= at < values->length;
  refusals->allowed[OTEL_NOT_UTF8] |= !values->is_utf8;
}

void call_with_texts(driver *driver, pipeline *pipeline) {
  refusals refusals = {0};
  text key = any_attribute_key(driver, &refusals), values = any_text(driver, 1);
  size_t count = any_below(driver, MOST_VALUES);
  uint64_t *lengths = any_numbers(driver, 2, count);
  if (!is_one_in(driver, 4)) {
    cut(driver, lengths, count, values.length);
  }
  look_at_texts(&refusals, &values, lengths, count);
  uint32_t status =
      otel_with_texts(&pipeline->handle, key.bytes, key.length, values.bytes, values.length, lengths, count);
  check_status(driver, pipeline, status, &refusals);
}

void call_with_integers(driver *driver, pipeline *pipeline) {
  refusals refusals = {0};
  text key = any_attribute_key(driver, &refusals);
  size_t count = any_below(driver, MOST_VALUES);
  const int64_t *values = (const int64_t *)any_numbers(driver, 1, count);
  uint32_t status = otel_with_integers(&pipeline->handle, key.bytes, key.length, values, count);
  check_status(driver, pipeline, status, &refusals);
}

void call_with_floats(driver *driver, pipeline *pipeline) {
  refusals refusals = {0};
  text key = any_attribute_key(driver, &refusals);
  size_t count = any_below(driver, MOST_VALUES);
  const double *values = any_doubles(driver, 1, count);
  uint32_t status = otel_with_floats(&pipeline->handle, key.bytes, key.length, values, count);
  check_status(driver, pipeline, status, &refusals);
}

void call_with_bools(driver *driver, pipeline *pipeline) {
  refusals refusals = {0};
  text key = any_attribute_key(driver, &refusals);
  size_t count = any_below(driver, MOST_VALUES);
  const uint8_t *values = any_bytes(driver, 1, count);
  uint32_t status = otel_with_bools(&pipeline->handle, key.bytes, key.length, values, count);
  check_status(driver, pipeline, status, &refusals);
}

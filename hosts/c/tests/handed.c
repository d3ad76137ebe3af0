// SPDX-License-Identifier: Apache-2.0
/* Attributes by chance that a call is handed: good ones, and bad ones of every kind. What a kind does not name lies
   where nothing can be read. */
#include "driver.h"

enum { MOST_VALUES = 6, KINDS = OTEL_BOOLS + 1 };

static void hand_text(driver *driver, size_t slot, otel_attribute *made, refusals *refusals) {
  text value = any_text(driver, slot);
  made->bytes = value.bytes;
  made->bytes_length = value.length;
  refusals->owed[OTEL_NOT_UTF8] |= !value.is_utf8;
}

static void hand_texts(driver *driver, size_t slot, otel_attribute *made, refusals *refusals) {
  text values = any_text(driver, slot);
  size_t count = any_below(driver, MOST_VALUES);
  uint64_t *lengths = any_numbers(driver, slot + 1, count);
  if (!is_one_in(driver, 4)) {
    cut(driver, lengths, count, values.length);
  }
  look_at_texts(refusals, &values, lengths, count);
  made->bytes = values.bytes;
  made->bytes_length = values.length;
  made->lengths = lengths;
  made->lengths_count = count;
}

static void hand_integers(driver *driver, size_t slot, otel_attribute *made) {
  made->integers_count = any_below(driver, MOST_VALUES);
  made->integers = (const int64_t *)any_numbers(driver, slot, made->integers_count);
}

static void hand_floats(driver *driver, size_t slot, otel_attribute *made) {
  made->numbers_count = any_below(driver, MOST_VALUES);
  made->numbers = any_doubles(driver, slot, made->numbers_count);
}

static void hand_bools(driver *driver, size_t slot, otel_attribute *made) {
  made->bytes_length = any_below(driver, MOST_VALUES);
  made->bytes = any_bytes(driver, slot, made->bytes_length);
}

/* An attribute of a key, all of whose values lie where nothing can be read. */
static otel_attribute unread_attribute(driver *driver, const text *key, const uint8_t *nothing) {
  return (otel_attribute){.key = key->bytes,
                          .key_length = key->length,
                          .kind = (uint32_t)(1 + any_below(driver, OTEL_BOOLS)),
                          .truth = (uint32_t)any_below(driver, 3),
                          .integer = (int64_t)any_number(driver),
                          .number = any_double(driver),
                          .bytes = nothing,
                          .bytes_length = any_below(driver, 64),
                          .lengths = (const uint64_t *)(const void *)nothing,
                          .lengths_count = any_below(driver, 8),
                          .integers = (const int64_t *)(const void *)nothing,
                          .integers_count = any_below(driver, 8),
                          .numbers = (const double *)(const void *)nothing,
                          .numbers_count = any_below(driver, 8)};
}

/* An attribute whose key is in this place for memory, and what its kind reads in the two after it. */
static otel_attribute any_attribute(driver *driver, size_t slot, refusals *refusals) {
  text key = any_text(driver, slot);
  otel_attribute made = unread_attribute(driver, &key, driver->slots[slot].end);
  refusals->owed[OTEL_NOT_UTF8] |= !key.is_utf8;
  if (is_one_in(driver, 32)) {
    made.kind = (uint32_t)(is_one_in(driver, 2) ? any_number(driver) : any_below(driver, 2) * KINDS);
  }
  switch (made.kind) {
  case OTEL_TEXT:
    hand_text(driver, slot + 1, &made, refusals);
    break;
  case OTEL_TEXTS:
    hand_texts(driver, slot + 1, &made, refusals);
    break;
  case OTEL_INTEGERS:
    hand_integers(driver, slot + 1, &made);
    break;
  case OTEL_FLOATS:
    hand_floats(driver, slot + 1, &made);
    break;
  case OTEL_BOOLS:
    hand_bools(driver, slot + 1, &made);
    break;
  default:
    refusals->owed[OTEL_BAD_ARGUMENT] |= made.kind == 0 || made.kind >= KINDS;
  }
  return made;
}

handed any_handed(driver *driver) {
  handed handed = {.count = any_below(driver, MOST_HANDED + 1)};
  otel_attribute *list = (otel_attribute *)(void *)driver->slots[SLOTS_OF_TEXTS].end - handed.count;
  for (size_t i = 0; i < handed.count; i++) {
    list[i] = any_attribute(driver, SLOTS_OF_TEXTS + 1 + 3 * i, &handed.refusals);
  }
  handed.list = list;
  return handed;
}

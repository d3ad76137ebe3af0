// SPDX-License-Identifier: Apache-2.0
/* Arguments by chance. A text or a list ends where a page begins that cannot be read, so that a call which reads on
   faults. */
#define _DEFAULT_SOURCE
#include "driver.h"

#include <float.h>
#include <math.h>
#include <stdio.h>
#include <string.h>
#include <sys/mman.h>
#include <unistd.h>

enum { LONG_TEXT = 4096, OUTPUT_ROOM = 1 << 28 };

/* The next number of SplitMix64. */
uint64_t any_number(driver *driver) {
  uint64_t mixed = driver->random += 0x9e3779b97f4a7c15;
  mixed = (mixed ^ mixed >> 30) * 0xbf58476d1ce4e5b9;
  mixed = (mixed ^ mixed >> 27) * 0x94d049bb133111eb;
  return mixed ^ mixed >> 31;
}

uint64_t any_below(driver *driver, uint64_t limit) { return any_number(driver) % limit; }

bool is_one_in(driver *driver, uint64_t count) { return any_below(driver, count) == 0; }

uint64_t any_moment(driver *driver) {
  if (is_one_in(driver, 8)) {
    return is_one_in(driver, 2) ? UINT64_MAX : any_number(driver);
  }
  return 1700000000000000000 + any_below(driver, 20000000000);
}

static slot slot_of(const driver *driver, size_t room) {
  size_t page = (size_t)sysconf(_SC_PAGESIZE);
  size_t whole = (room + page - 1) / page * page;
  uint8_t *memory =
      mmap(NULL, whole + page, PROT_READ | PROT_WRITE, MAP_PRIVATE | MAP_ANONYMOUS | MAP_NORESERVE, -1, 0);
  if (memory == MAP_FAILED || mprotect(memory + whole, page, PROT_NONE) != 0) {
    fail(driver, "there is no memory for the driver itself", room);
  }
  return (slot){.end = memory + whole, .room = whole};
}

void make_slots(driver *driver) {
  for (size_t i = 0; i < SLOTS; i++) {
    driver->slots[i] = slot_of(driver, LONG_TEXT);
  }
  driver->output = slot_of(driver, OUTPUT_ROOM);
}

uint8_t *any_bytes(driver *driver, size_t slot, size_t count) {
  uint8_t *bytes = driver->slots[slot].end - count;
  for (size_t i = 0; i < count; i++) {
    bytes[i] = (uint8_t)any_number(driver);
  }
  return bytes;
}

uint64_t *any_numbers(driver *driver, size_t slot, size_t count) {
  uint64_t *numbers = (uint64_t *)(void *)(driver->slots[slot].end - count * sizeof *numbers);
  for (size_t i = 0; i < count; i++) {
    numbers[i] = any_number(driver);
  }
  return numbers;
}

/* A double of any bits, or one that JSON writes in a way of its own. */
double any_double(driver *driver) {
  static const double marked[] = {0.0, -0.0, 1.0, 0.1, 1e21, DBL_TRUE_MIN, -DBL_MAX, INFINITY, -INFINITY, NAN};
  if (is_one_in(driver, 4)) {
    return marked[any_below(driver, sizeof marked / sizeof *marked)];
  }
  uint64_t bits = any_number(driver);
  double number;
  memcpy(&number, &bits, sizeof number);
  return number;
}

double *any_doubles(driver *driver, size_t slot, size_t count) {
  double *numbers = (double *)(void *)(driver->slots[slot].end - count * sizeof *numbers);
  for (size_t i = 0; i < count; i++) {
    numbers[i] = any_double(driver);
  }
  return numbers;
}

/* How many bytes follow the first byte of a character, and the least character of that many; none where the byte
   begins no character. */
static bool is_first_byte(uint8_t first, size_t *following, uint32_t *least) {
  if (first >= 0xc2 && first <= 0xdf) {
    *following = 1, *least = 0x80;
  } else if (first >= 0xe0 && first <= 0xef) {
    *following = 2, *least = 0x800;
  } else if (first >= 0xf0 && first <= 0xf4) {
    *following = 3, *least = 0x10000;
  } else {
    *following = 0, *least = 0;
    return first < 0x80;
  }
  return true;
}

bool is_utf8(const uint8_t *bytes, size_t length) {
  size_t at = 0, following;
  uint32_t least;
  while (at < length) {
    uint8_t first = bytes[at];
    if (!is_first_byte(first, &following, &least) || following >= length - at) {
      return false;
    }
    uint32_t character = following ? first & (0x3fu >> following) : first;
    for (size_t i = 1; i <= following; i++) {
      if ((bytes[at + i] & 0xc0) != 0x80) {
        return false;
      }
      character = character << 6 | (bytes[at + i] & 0x3f);
    }
    if (character < least || character > 0x10ffff || (character >= 0xd800 && character <= 0xdfff)) {
      return false;
    }
    at += following + 1;
  }
  return true;
}

static size_t any_length(driver *driver) {
  switch (any_below(driver, 16)) {
  case 0:
    return 0;
  case 1:
    return is_one_in(driver, 16) ? any_below(driver, LONG_TEXT + 1) : any_below(driver, 200);
  default:
    return 1 + any_below(driver, 12);
  }
}

/* Fills bytes with characters of one, two and three bytes, and those that JSON escapes among them. */
static void write_characters(driver *driver, uint8_t *bytes, size_t length) {
  static const char *const characters[] = {"a", "Z", "7", "_", " ", "\"", "\\", "\n", "\x01", "=", ",", "ö", "€"};
  size_t at = 0;
  while (at < length) {
    const char *character = characters[any_below(driver, sizeof characters / sizeof *characters)];
    size_t size = strlen(character);
    if (size > length - at) {
      character = "z", size = 1;
    }
    memcpy(bytes + at, character, size);
    at += size;
  }
}

text any_text(driver *driver, size_t slot) {
  size_t length = any_length(driver);
  uint8_t *bytes = driver->slots[slot].end - length;
  if (is_one_in(driver, 12)) {
    any_bytes(driver, slot, length);
  } else {
    write_characters(driver, bytes, length);
  }
  return (text){.bytes = bytes, .length = length, .is_utf8 = is_utf8(bytes, length)};
}

text copied_text(driver *driver, size_t slot, const char *from) {
  size_t length = strlen(from);
  uint8_t *bytes = driver->slots[slot].end - length;
  memcpy(bytes, from, length);
  return (text){.bytes = bytes, .length = length, .is_utf8 = true};
}

parent_header any_parent_header(driver *driver, size_t slot) {
  parent_header header = {.is_valid = !is_one_in(driver, 3)};
  if (!header.is_valid) {
    header.written = any_text(driver, slot);
    return header;
  }
  char written[56];
  header.trace_id_high = any_number(driver);
  header.trace_id_low = any_number(driver) | 1;
  snprintf(written, sizeof written, "00-%016llx%016llx-%016llx-0%d", (unsigned long long)header.trace_id_high,
           (unsigned long long)header.trace_id_low, (unsigned long long)any_number(driver) | 1,
           is_one_in(driver, 4) ? 0 : 1);
  header.written = copied_text(driver, slot, written);
  return header;
}

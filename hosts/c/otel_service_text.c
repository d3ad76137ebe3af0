/* SPDX-License-Identifier: Apache-2.0 */
/* Texts that grow, clocks and a seed, for otel_service.h. */
#define _DEFAULT_SOURCE
#include "otel_service_parts.h"

#include <stdio.h>
#include <stdlib.h>
#include <time.h>
#include <unistd.h>

void otel_private_add(otel_private_text *text, const char *bytes, size_t length) {
  if (length >= text->room - text->length) {
    size_t room = (text->length + length + 1) * 2;
    char *grown = text->is_cut ? NULL : realloc(text->bytes, room);
    if (grown == NULL) {
      text->is_cut = true;
      return;
    }
    text->bytes = grown;
    text->room = room;
  }
  memcpy(text->bytes + text->length, bytes, length);
  text->length += length;
  text->bytes[text->length] = '\0';
}

void otel_private_add_text(otel_private_text *text, const char *more) { otel_private_add(text, more, strlen(more)); }

const char *otel_private_shown(const otel_private_text *text) { return text->bytes == NULL ? "" : text->bytes; }

/* How many bytes the character of UTF-8 has that begins here; 0 where none does. */
static size_t length_of_character(const unsigned char *at, size_t left) {
  size_t length = at[0] < 0x80 ? 1 : at[0] < 0xc2 ? 0 : at[0] < 0xe0 ? 2 : at[0] < 0xf0 ? 3 : at[0] < 0xf5 ? 4 : 0;
  if (length > left) {
    return 0;
  }
  for (size_t i = 1; i < length; i++) {
    if ((at[i] & 0xc0) != 0x80) {
      return 0;
    }
  }
  bool is_long = (at[0] == 0xe0 && at[1] < 0xa0) || (at[0] == 0xf0 && at[1] < 0x90);
  bool is_none = (at[0] == 0xed && at[1] > 0x9f) || (at[0] == 0xf4 && at[1] > 0x8f);
  return is_long || is_none ? 0 : length;
}

bool otel_private_is_utf8(const char *bytes, size_t length) {
  size_t at = 0, step = 1;
  while (at < length && step > 0) {
    step = length_of_character((const unsigned char *)bytes + at, length - at);
    at += step;
  }
  return at == length;
}

uint64_t otel_private_nanoseconds(void) {
  struct timespec now = {0};
  clock_gettime(CLOCK_MONOTONIC, &now);
  return (uint64_t)now.tv_sec * 1000000000 + (uint64_t)now.tv_nsec;
}

uint64_t otel_private_milliseconds(void) { return otel_private_nanoseconds() / 1000000; }

uint64_t otel_private_after(uint64_t wait) {
  const uint64_t century = (uint64_t)100 * 365 * 24 * 60 * 60 * 1000;
  return otel_private_milliseconds() + (wait < century ? wait : century);
}

bool otel_private_seed(uint64_t *seed) {
  if (getentropy(seed, sizeof *seed) == 0) {
    return true;
  }
  FILE *file = fopen("/dev/urandom", "rb");
  bool is_read = file != NULL && fread(seed, sizeof *seed, 1, file) == 1;
  if (file != NULL) {
    fclose(file);
  }
  return is_read;
}

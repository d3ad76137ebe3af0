// SPDX-License-Identifier: Apache-2.0
/* What the examples share: a call whose status is looked at, the clock, a seed, and a drain whose buffer grows. */
#ifndef CALLS_H
#define CALLS_H

#include "otel.h"

#include <stdio.h>
#include <stdlib.h>
#include <string.h>
#include <time.h>

/* A text that ends in a zero, as bytes and a length. */
#define TEXT(text) (const uint8_t *)(text), strlen(text)

/* Attributes of such texts. */
static inline otel_attribute text_attribute(const char *key, const char *value) {
  otel_attribute made = otel_attribute_of(TEXT(key));
  made.kind = OTEL_TEXT;
  made.bytes = (const uint8_t *)value;
  made.bytes_length = strlen(value);
  return made;
}
static inline otel_attribute integer_attribute(const char *key, int64_t value) {
  otel_attribute made = otel_attribute_of(TEXT(key));
  made.kind = OTEL_INTEGER;
  made.integer = value;
  return made;
}

typedef struct {
  uint8_t *bytes;
  size_t room;
  size_t length;
} growing_buffer;

/* Ends the program where a call did not do what it was asked. */
static inline void must(uint32_t status, const char *call) {
  if (status != OTEL_OK) {
    fprintf(stderr, "%s: %s\n", call, otel_status_text(status));
    exit(1);
  }
}

static inline uint64_t moment_now(void) {
  struct timespec now;
  if (timespec_get(&now, TIME_UTC) != TIME_UTC) {
    fprintf(stderr, "the clock cannot be read\n");
    exit(1);
  }
  return (uint64_t)now.tv_sec * 1000000000 + (uint64_t)now.tv_nsec;
}

/* A seed that no other process has. */
static inline uint64_t random_seed(void) {
  uint64_t seed;
  FILE *file = fopen("/dev/urandom", "rb");
  if (file == NULL || fread(&seed, sizeof seed, 1, file) != 1) {
    fprintf(stderr, "there is no seed in /dev/urandom\n");
    exit(1);
  }
  fclose(file);
  return seed;
}

static inline void grow(growing_buffer *buffer, size_t room) {
  buffer->bytes = realloc(buffer->bytes, room);
  if (buffer->bytes == NULL) {
    must(OTEL_OUT_OF_MEMORY, "a buffer for the lines");
  }
  buffer->room = room;
}

/* Takes all lines out of the pipeline, into a buffer that has some room and grows to what they need. */
static inline void drain(otel_handle *handle, growing_buffer *buffer) {
  size_t length = 0;
  uint32_t status;
  buffer->length = 0;
  do {
    status = otel_drain_some(handle, buffer->bytes + buffer->length, buffer->room - buffer->length, &length);
    if (status == OTEL_BUFFER_TOO_SMALL) {
      grow(buffer, 2 * buffer->room + length);
    } else {
      must(status, "otel_drain_some");
      buffer->length += length;
    }
  } while (status == OTEL_BUFFER_TOO_SMALL || length > 0);
}

#endif

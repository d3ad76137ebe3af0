/* SPDX-License-Identifier: Apache-2.0 */
/* Takes lines out of the pipeline of a service, and keeps them until they are posted or lost. */
#include "otel_service_parts.h"

#include <stdlib.h>

enum { FIRST_ROOM = 64 * 1024, SPANS_OF_A_BATCH = 512 };

/* Each span has this member once, and nothing else does: within a text of JSON no quotation mark is without a
   backslash. */
uint64_t otel_private_spans_in(const char *bytes, size_t length) {
  static const char member[] = "\"startTimeUnixNano\":";
  uint64_t count = 0;
  const char *end = bytes + length;
  for (const char *at = bytes; (size_t)(end - at) >= sizeof member - 1; at++) {
    at = memchr(at, '"', (size_t)(end - at) - (sizeof member - 2));
    if (at == NULL) {
      break;
    }
    count += memcmp(at, member, sizeof member - 1) == 0;
  }
  return count;
}

static size_t length_of_line(const char *bytes, size_t left) {
  const char *feed = memchr(bytes, '\n', left);
  return feed == NULL ? left : (size_t)(feed - bytes) + 1;
}

/* Whether a line of this length may wait beside those that do. */
static bool is_room_for(const otel_service *service, size_t length) {
  const otel_service_numbers *numbers = &service->numbers;
  bool is_alone = numbers->waiting_lines == 0;
  bool fits = numbers->waiting_lines < service->options.waiting_lines &&
              numbers->waiting_bytes + length <= service->options.waiting_bytes;
  return is_alone || fits;
}

/* Keeps the lines of a chunk that may wait, and counts all. */
static void keep_lines(otel_service *service, otel_private_chunk *chunk) {
  otel_service_numbers *numbers = &service->numbers;
  size_t kept = 0, length;
  uint64_t crowded = 0;
  for (size_t at = 0; at < chunk->length; at += length) {
    length = length_of_line(chunk->bytes + at, chunk->length - at);
    uint64_t spans = otel_private_spans_in(chunk->bytes + at, length);
    if (!is_room_for(service, length)) {
      crowded += spans;
      numbers->lost_lines++;
      continue;
    }
    memmove(chunk->bytes + kept, chunk->bytes + at, length);
    kept += length;
    numbers->waiting_lines++;
    numbers->waiting_bytes += length;
    numbers->waiting_spans += spans;
    service->put_lines++;
  }
  chunk->length = kept;
  if (crowded > 0) {
    numbers->crowded_spans += crowded;
    otel_private_note(service, OTEL_PRIVATE_CROWDED, "spans that are lost, since too much waits for the collector",
                      crowded, NULL);
  }
}

static void add_chunk(otel_service *service, otel_private_chunk *chunk) {
  keep_lines(service, chunk);
  if (chunk->length == 0) {
    free(chunk);
    return;
  }
  otel_private_chunk *fitting = realloc(chunk, sizeof *chunk + chunk->length);
  chunk = fitting == NULL ? chunk : fitting;
  if (service->last == NULL) {
    service->first = chunk;
  } else {
    service->last->next = chunk;
  }
  service->last = chunk;
}

/* Takes some lines. False where memory ran out, and nothing was taken; *is_more where there may be others. */
static bool take_some(otel_service *service, bool *is_more) {
  size_t room = FIRST_ROOM;
  uint32_t status = OTEL_BUFFER_TOO_SMALL;
  while (status == OTEL_BUFFER_TOO_SMALL) {
    otel_private_chunk *chunk = malloc(sizeof *chunk + room);
    if (chunk == NULL) {
      return false;
    }
    *chunk = (otel_private_chunk){.next = NULL};
    status = otel_drain_some(&service->handle, (uint8_t *)chunk->bytes, room, &chunk->length);
    room = chunk->length;
    *is_more = status == OTEL_OK && chunk->length > 0;
    if (*is_more) {
      add_chunk(service, chunk);
    } else {
      free(chunk);
    }
  }
  return status == OTEL_OK;
}

/* Notes what the pipeline has lost since it was looked at last. */
static void note_losses(otel_service *service, const otel_numbers *numbers) {
  uint64_t drops = numbers->dropped_spans + numbers->refused_spans;
  if (drops > service->seen_drops) {
    otel_private_note(service, OTEL_PRIVATE_DROPS, "spans that are lost, since the queue was full or memory ran out",
                      drops, NULL);
  }
  if (numbers->lost_spans > service->seen_batches) {
    otel_private_note(service, OTEL_PRIVATE_BATCHES, "spans of batches that were not exported, and are lost",
                      numbers->lost_spans, NULL);
  }
  service->seen_drops = drops;
  service->seen_batches = numbers->lost_spans;
}

bool otel_private_take(otel_service *service, bool is_all) {
  otel_numbers numbers = {0};
  bool is_more = true, is_taken = true;
  if (otel_count(&service->handle, &numbers, sizeof numbers) != OTEL_OK) {
    return false;
  }
  /* What this answers the numbers tell too. */
  if (is_all || numbers.waiting_spans >= SPANS_OF_A_BATCH) {
    otel_flush(&service->handle);
  } else {
    otel_run(&service->handle, otel_private_nanoseconds());
  }
  otel_count(&service->handle, &numbers, sizeof numbers);
  note_losses(service, &numbers);
  is_more = numbers.undrained_spans > 0;
  while (is_more && is_taken) {
    is_taken = take_some(service, &is_more);
  }
  return is_taken;
}

const char *otel_private_first_line(const otel_service *service, size_t *length) {
  const otel_private_chunk *chunk = service->first;
  if (chunk == NULL) {
    return NULL;
  }
  *length = length_of_line(chunk->bytes + chunk->done, chunk->length - chunk->done);
  return chunk->bytes + chunk->done;
}

/* Lets the first line go, and answers how many spans it had. */
static uint64_t leave_first(otel_service *service) {
  size_t length = 0;
  const char *line = otel_private_first_line(service, &length);
  uint64_t spans = otel_private_spans_in(line, length);
  service->numbers.waiting_lines--;
  service->numbers.waiting_bytes -= length;
  service->numbers.waiting_spans -= spans;
  service->done_lines++;
  service->first->done += length;
  if (service->first->done == service->first->length) {
    otel_private_chunk *over = service->first;
    service->first = over->next;
    service->last = service->first == NULL ? NULL : service->last;
    free(over);
  }
  return spans;
}

void otel_private_line_posted(otel_service *service, uint64_t rejected_spans) {
  uint64_t spans = leave_first(service);
  uint64_t rejected = rejected_spans < spans ? rejected_spans : spans;
  service->numbers.posted_lines++;
  service->numbers.posted_spans += spans - rejected;
  service->numbers.rejected_spans += rejected;
}

void otel_private_line_lost(otel_service *service, uint64_t *spans_lost) {
  *spans_lost += leave_first(service);
  service->numbers.lost_lines++;
}

void otel_private_forget_lines(otel_service *service) {
  while (service->first != NULL) {
    otel_private_chunk *over = service->first;
    service->first = over->next;
    free(over);
  }
  service->last = NULL;
}

uint64_t otel_private_give_up(otel_service *service) {
  otel_service_numbers *numbers = &service->numbers;
  uint64_t lost = numbers->waiting_spans;
  numbers->late_spans += lost;
  numbers->lost_lines += numbers->waiting_lines;
  service->done_lines += numbers->waiting_lines;
  numbers->waiting_spans = numbers->waiting_lines = numbers->waiting_bytes = 0;
  return lost;
}

// SPDX-License-Identifier: Apache-2.0
/* A service over a release: it traces one request, and prints the lines. */
#include <otel.h>

#include <stdio.h>
#include <stdlib.h>
#include <string.h>

#define TEXT(text) (const uint8_t *)(text), strlen(text)

static uint8_t lines[1 << 16];

static void must(uint32_t status) {
  if (status != OTEL_OK) {
    fprintf(stderr, "service: %s\n", otel_status_text(status));
    exit(1);
  }
}

int main(void) {
  otel_handle handle = {0};
  uint64_t span;
  size_t length;
  must(otel_open(&handle, TEXT("OTEL_SERVICE_NAME=released"), 7));
  must(otel_start(&handle, 0, 0, OTEL_SERVER, TEXT("GET /cart"), 1000, &span));
  must(otel_set_integer(&handle, span, TEXT("size"), 3));
  must(otel_end(&handle, span, 2000));
  must(otel_shutdown(&handle));
  must(otel_drain(&handle, lines, sizeof lines, &length));
  must(otel_close(&handle));
  return fwrite(lines, 1, length, stdout) == length && fflush(stdout) == 0 ? 0 : 1;
}

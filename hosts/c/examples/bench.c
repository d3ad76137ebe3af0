// SPDX-License-Identifier: Apache-2.0
/* How many nanoseconds a span takes: its start, two attributes and its end, and its part of a flush and a drain. Spans
   wait in a batch queue, and are drained by the thousand: `bench [THOUSANDS]`, of a million where nothing is said. */
#include "calls.h"

enum { BATCHES = 1000, SPANS_OF_A_BATCH = 1000 };

static void trace_batch(otel_handle *handle) {
  for (int i = 0; i < SPANS_OF_A_BATCH; i++) {
    uint64_t span, moment = 1700000000000000000 + (uint64_t)i;
    must(otel_start(handle, 0, 0, OTEL_INTERNAL, TEXT("GET /cart"), moment, &span), "otel_start");
    must(otel_set_text(handle, span, TEXT("http.route"), TEXT("/cart")), "otel_set_text");
    must(otel_set_integer(handle, span, TEXT("cart.size"), i), "otel_set_integer");
    must(otel_end(handle, span, moment + 1000), "otel_end");
  }
}

/* Ends the program where a span did not come to a line. */
static void check_numbers(otel_handle *handle) {
  otel_numbers numbers;
  must(otel_count(handle, &numbers, sizeof numbers), "otel_count");
  uint64_t missed = numbers.dropped_spans + numbers.refused_spans + numbers.lost_spans;
  if (numbers.open_spans + numbers.waiting_spans + missed != 0) {
    fprintf(stderr, "not every span came to a line\n");
    exit(1);
  }
}

int main(int count, char **words) {
  const int batches = count > 1 ? atoi(words[1]) : BATCHES;
  const double spans = (double)batches * SPANS_OF_A_BATCH;
  otel_handle handle = {0};
  growing_buffer lines = {0};
  uint64_t traced = 0, drained = 0, bytes = 0;
  grow(&lines, 1 << 20);
  must(otel_open(&handle, TEXT("OTEL_SPAN_PROCESSOR=batch"), 1), "otel_open");
  for (int i = 0; i < batches; i++) {
    uint64_t began = moment_now();
    trace_batch(&handle);
    uint64_t ended = moment_now();
    must(otel_flush(&handle), "otel_flush");
    drain(&handle, &lines);
    traced += ended - began;
    drained += moment_now() - ended;
    bytes += lines.length;
  }
  check_numbers(&handle);
  must(otel_close(&handle), "otel_close");
  free(lines.bytes);
  printf("%.0f spans: %.0f ns each: %.0f to start, give two attributes and end, %.0f to flush and drain %.0f bytes\n",
         spans, (double)(traced + drained) / spans, (double)traced / spans, (double)drained / spans,
         (double)bytes / spans);
  return 0;
}

// SPDX-License-Identifier: Apache-2.0
/* A request to a shop, which calls its stock: a root span, a child with an event, a link and an error, and the span of
   the stock, whose parent comes by headers. The lines go to standard output, as `tools/send` takes them. */
#include "calls.h"

/* The value of a header among those that otel_inject wrote; no bytes where it is not there. */
static const uint8_t *header(const uint8_t *headers, size_t headers_length, const char *name, size_t *length) {
  size_t name_length = strlen(name), at = 0;
  while (at < headers_length) {
    const uint8_t *line = headers + at;
    size_t line_length = (size_t)((const uint8_t *)memchr(line, '\n', headers_length - at) - line) + 1;
    if (line_length > name_length + 4 && memcmp(line, name, name_length) == 0 && line[name_length] == ':') {
      *length = line_length - name_length - 4; /* a colon, a space, a carriage return and a line feed */
      return line + name_length + 2;
    }
    at += line_length;
  }
  *length = 0;
  return headers;
}

/* Opens the pipeline, and names on standard error the settings that it ignores. */
static void open_pipeline(otel_handle *handle) {
  const char *settings = "OTEL_SERVICE_NAME=shop\nOTEL_SPAN_PROCESSOR=batch\nOTEL_BSP_SCHEDULE_DELAY=soon";
  uint8_t ignored[256];
  size_t length;
  must(otel_open(handle, TEXT(settings), random_seed()), "otel_open");
  must(otel_ignored_settings(handle, ignored, sizeof ignored, &length), "otel_ignored_settings");
  fprintf(stderr, "ignored settings:\n%.*s", (int)length, (const char *)ignored);
}

/* The work of the stock, a service of its own: its span is the child of the one that the headers name. */
static void answer_stock(otel_handle *handle, uint64_t tracer, const uint8_t *headers, size_t headers_length) {
  size_t parent_length, state_length, baggage_length;
  const uint8_t *parent = header(headers, headers_length, "traceparent", &parent_length);
  const uint8_t *state = header(headers, headers_length, "tracestate", &state_length);
  const uint8_t *baggage = header(headers, headers_length, "baggage", &baggage_length);
  uint64_t span;
  must(otel_start_remote(handle, tracer, parent, parent_length, state, state_length, baggage, baggage_length,
                         OTEL_SERVER, TEXT("GET /stock"), moment_now(), &span),
       "otel_start_remote");
  must(otel_end(handle, span, moment_now()), "otel_end");
}

/* Asks the stock, in a span of its own, and fails. */
static void ask_stock(otel_handle *handle, uint64_t tracer, uint64_t parent) {
  uint64_t span;
  uint8_t headers[1024];
  size_t length;
  must(otel_start(handle, tracer, parent, OTEL_CLIENT, TEXT("ask stock"), moment_now(), &span), "otel_start");
  must(otel_inject(handle, span, headers, sizeof headers, &length), "otel_inject");
  answer_stock(handle, tracer, headers, length);
  const otel_attribute about[] = {text_attribute("article", "teapot"), integer_attribute("left", 0)};
  must(otel_add_event_with(handle, span, TEXT("sold out"), moment_now(), about, 2), "otel_add_event_with");
  must(otel_add_link(handle, span, parent), "otel_add_link");
  must(otel_set_status(handle, span, OTEL_STATUS_ERROR, TEXT("sold out")), "otel_set_status");
  must(otel_end(handle, span, moment_now()), "otel_end");
}

static void answer_request(otel_handle *handle) {
  const int64_t sizes[] = {3, 5};
  uint64_t tracer, span;
  must(otel_tracer(handle, TEXT("shop.http"), TEXT("1.2"), TEXT(""), &tracer), "otel_tracer");
  otel_attribute list = otel_attribute_of(TEXT("cart.sizes"));
  list.kind = OTEL_INTEGERS;
  list.integers = sizes;
  list.integers_count = 2;
  const otel_attribute about[] = {text_attribute("http.route", "/cart"), list};
  must(otel_start_with(handle, tracer, 0, OTEL_SERVER, TEXT("GET /cart"), moment_now(), about, 2, &span),
       "otel_start_with");
  ask_stock(handle, tracer, span);
  must(otel_set_bool(handle, span, TEXT("cart.is_complete"), false), "otel_set_bool");
  must(otel_end(handle, span, moment_now()), "otel_end");
}

static void print_numbers(otel_handle *handle) {
  otel_numbers numbers;
  must(otel_count(handle, &numbers, sizeof numbers), "otel_count");
  fprintf(stderr, "spans: %llu open, %llu waiting, %llu dropped, %llu lost\n", (unsigned long long)numbers.open_spans,
          (unsigned long long)numbers.waiting_spans, (unsigned long long)numbers.dropped_spans,
          (unsigned long long)numbers.lost_spans);
}

int main(void) {
  otel_handle handle = {0};
  growing_buffer lines = {0};
  open_pipeline(&handle);
  answer_request(&handle);
  print_numbers(&handle);
  must(otel_flush(&handle), "otel_flush");
  grow(&lines, 256);
  drain(&handle, &lines);
  fwrite(lines.bytes, 1, lines.length, stdout);
  print_numbers(&handle);
  must(otel_close(&handle), "otel_close");
  free(lines.bytes);
  return 0;
}

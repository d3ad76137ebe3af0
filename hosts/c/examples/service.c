// SPDX-License-Identifier: Apache-2.0
/* A service of a shop: a request, a call below it that fails, and headers from one process to another. Its spans go to
   the collector that OTEL_EXPORTER_OTLP_ENDPOINT names. It ends with 1 where a span was lost. */
#include "otel_service.h"

#include <inttypes.h>
#include <stdio.h>

/* The work of the stock, which would be another process: the headers say whose child its span is. */
static void answer_stock(otel_service *service, const char *traceparent) {
  otel_service_headers headers = {.traceparent = traceparent};
  otel_service_span span = otel_service_start_remote(service, headers, OTEL_SERVER, "GET /stock", NULL, 0);
  otel_service_end(service, span);
}

static void ask_stock(otel_service *service, otel_service_span parent) {
  char headers[1024], traceparent[56] = "";
  const otel_attribute about[] = {otel_attribute_text("article", "teapot"), otel_attribute_integer("left", 0)};
  otel_service_span span = otel_service_start_child(service, parent, OTEL_CLIENT, "ask stock", NULL, 0);
  otel_service_inject(service, span, headers, sizeof headers);
  sscanf(headers, "traceparent: %55s", traceparent);
  answer_stock(service, traceparent);
  otel_service_add_event(service, span, "sold out", about, 2);
  otel_service_set_status(service, span, OTEL_STATUS_ERROR, "sold out");
  otel_service_end(service, span);
}

static void answer_request(otel_service *service) {
  const otel_attribute route = otel_attribute_text("http.route", "/cart");
  otel_service_span span = otel_service_start(service, OTEL_SERVER, "GET /cart", &route, 1);
  ask_stock(service, span);
  otel_service_set_integer(service, span, "cart.size", 3);
  otel_service_end(service, span);
}

int main(void) {
  otel_service *service;
  uint32_t status = otel_service_open(&service, NULL);
  if (status != OTEL_SERVICE_OK) {
    fprintf(stderr, "no tracing: %s\n", otel_service_status_text(status));
    return 1;
  }
  answer_request(service);
  status = otel_service_close(service, 5000);
  otel_service_numbers numbers;
  otel_service_count(service, &numbers, sizeof numbers);
  fprintf(stderr, "%" PRIu64 " of %" PRIu64 " spans were posted\n", numbers.posted_spans, numbers.ended_spans);
  otel_service_free(service);
  return status == OTEL_OK ? 0 : 1;
}

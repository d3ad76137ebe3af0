// SPDX-License-Identifier: Apache-2.0
/* A service over a release that posts its lines by itself. */
#include <otel_service.h>

#include <stdio.h>

int main(void) {
  otel_service *service;
  uint32_t status = otel_service_open(&service, NULL);
  if (status != OTEL_SERVICE_OK) {
    fprintf(stderr, "posting: %s\n", otel_service_status_text(status));
    return 1;
  }
  otel_attribute size = otel_attribute_integer("size", 3);
  otel_service_end(service, otel_service_start(service, OTEL_SERVER, "GET /cart", &size, 1));
  status = otel_service_close(service, 10000);
  otel_service_free(service);
  return status == OTEL_OK ? 0 : 1;
}

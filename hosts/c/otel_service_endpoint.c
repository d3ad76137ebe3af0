/* SPDX-License-Identifier: Apache-2.0 */
/* Reads where a service posts its lines to. */
#define _DEFAULT_SOURCE
#include "otel_service_parts.h"

#include <stdio.h>
#include <stdlib.h>

#define SCHEME "http://"
#define PATH "/v1/traces"
#define DEFAULT_ENDPOINT "http://localhost:4318"

/* The value of a variable; NULL where it is not set, or empty. */
static const char *value_of(const char *name) {
  const char *value = getenv(name);
  return value == NULL || *value == '\0' ? NULL : value;
}

/* The URL of the environment. NULL where the variable of all signals has a `?`, since a path is added to it. */
static bool add_url(otel_private_text *url) {
  const char *of_traces = value_of("OTEL_EXPORTER_OTLP_TRACES_ENDPOINT");
  const char *of_all = value_of("OTEL_EXPORTER_OTLP_ENDPOINT");
  if (of_traces != NULL) {
    otel_private_add_text(url, of_traces);
    return true;
  }
  of_all = of_all == NULL ? DEFAULT_ENDPOINT : of_all;
  size_t length = strlen(of_all);
  while (length > 0 && of_all[length - 1] == '/') {
    length--;
  }
  otel_private_add(url, of_all, length);
  otel_private_add_text(url, PATH);
  return strchr(of_all, '?') == NULL;
}

/* Whether all characters may stand in an endpoint: none of a fragment or of a user's name, and no spaces. */
static bool has_good_characters(const char *url) {
  for (; *url != '\0'; url++) {
    if (*url <= ' ' || *url > '~' || *url == '#' || *url == '@') {
      return false;
    }
  }
  return true;
}

static bool is_port(const char *text, size_t length) {
  unsigned long number = 0;
  for (size_t i = 0; i < length; i++) {
    if (text[i] < '0' || text[i] > '9' || number > 65535) {
      return false;
    }
    number = number * 10 + (unsigned long)(text[i] - '0');
  }
  return number >= 1 && number <= 65535;
}

/* Reads host and port out of `host:port` of this length. False where they do not read. */
static bool read_authority(otel_private_endpoint *endpoint, const char *authority, size_t length) {
  bool has_brackets = length > 0 && authority[0] == '[';
  const char *host = authority + (has_brackets ? 1 : 0), *end = authority + length;
  const char *host_end = memchr(host, has_brackets ? ']' : ':', (size_t)(end - host));
  if (has_brackets && host_end == NULL) {
    return false;
  }
  host_end = host_end == NULL ? end : host_end;
  const char *rest = host_end + (has_brackets ? 1 : 0);
  size_t host_length = (size_t)(host_end - host);
  if (host_length == 0 || memchr(host, '[', host_length) != NULL || memchr(host, ']', host_length) != NULL) {
    return false;
  }
  if (rest != end && (*rest != ':' || !is_port(rest + 1, (size_t)(end - rest) - 1))) {
    return false;
  }
  endpoint->host = strndup(host, host_length);
  endpoint->port = rest == end ? strdup("80") : strndup(rest + 1, (size_t)(end - rest) - 1);
  return true;
}

/* Reads a URL, and begins the head of the requests. */
static uint32_t read_url(otel_private_endpoint *endpoint, const char *url) {
  if (strncmp(url, "https://", strlen("https://")) == 0) {
    return OTEL_SERVICE_HTTPS;
  }
  if (!has_good_characters(url) || strncmp(url, SCHEME, strlen(SCHEME)) != 0) {
    return OTEL_SERVICE_BAD_ENDPOINT;
  }
  const char *authority = url + strlen(SCHEME);
  size_t length = strcspn(authority, "/?");
  if (!read_authority(endpoint, authority, length)) {
    return OTEL_SERVICE_BAD_ENDPOINT;
  }
  const char *path = authority + length;
  otel_private_add_text(&endpoint->shown, url);
  otel_private_add_text(&endpoint->begins, "POST ");
  otel_private_add_text(&endpoint->begins, *path == '/' ? "" : "/");
  otel_private_add_text(&endpoint->begins, path);
  otel_private_add_text(&endpoint->begins, " HTTP/1.1\r\nhost: ");
  otel_private_add(&endpoint->begins, authority, length);
  otel_private_add_text(&endpoint->begins, "\r\ncontent-type: application/json\r\nconnection: close\r\n");
  return OTEL_SERVICE_OK;
}

/* Adds the headers of the first variable that is set. */
static void read_headers(otel_private_endpoint *endpoint, otel_private_text *ignored) {
  static const char *const names[] = {"OTEL_EXPORTER_OTLP_TRACES_HEADERS", "OTEL_EXPORTER_OTLP_HEADERS"};
  for (size_t i = 0; i < sizeof names / sizeof *names; i++) {
    const char *list = value_of(names[i]);
    if (list == NULL) {
      continue;
    }
    if (!otel_private_add_headers(&endpoint->begins, list)) {
      otel_private_add_text(ignored, names[i]);
      otel_private_add_text(ignored, "\n");
    }
    return;
  }
}

uint32_t otel_private_read_endpoint(otel_private_endpoint *endpoint, const char *url, otel_private_text *ignored) {
  otel_private_text found = {0};
  bool is_whole = true;
  if (url == NULL) {
    is_whole = add_url(&found);
  } else {
    otel_private_add_text(&found, url);
  }
  uint32_t status = OTEL_SERVICE_OK;
  if (!found.is_cut) {
    status = is_whole ? read_url(endpoint, otel_private_shown(&found)) : (uint32_t)OTEL_SERVICE_BAD_ENDPOINT;
  }
  read_headers(endpoint, ignored);
  bool is_cut = found.is_cut || endpoint->shown.is_cut || endpoint->begins.is_cut || ignored->is_cut;
  bool has_parts = endpoint->host != NULL && endpoint->port != NULL;
  free(found.bytes);
  return status == OTEL_SERVICE_OK && (is_cut || !has_parts) ? (uint32_t)OTEL_SERVICE_OUT_OF_MEMORY : status;
}

void otel_private_free_endpoint(otel_private_endpoint *endpoint) {
  free(endpoint->host);
  free(endpoint->port);
  free(endpoint->shown.bytes);
  free(endpoint->begins.bytes);
}

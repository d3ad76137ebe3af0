/* SPDX-License-Identifier: Apache-2.0 */
/* The calls of spans of a service: each takes the lock, makes a call of otel.h, and counts where that fails. */
#define _DEFAULT_SOURCE
#include "otel_service_parts.h"

#include <stdio.h>
#include <time.h>

/* A text as otel.h takes it. */
typedef struct {
  const uint8_t *bytes;
  size_t length;
} view;

static view view_of(const char *text) {
  const char *bytes = text == NULL ? "" : text;
  return (view){(const uint8_t *)bytes, strlen(bytes)};
}

/* The header traceparent of a span that may be open no more. */
typedef struct {
  char text[56];
} traceparent;

static traceparent traceparent_of(const otel_span_identity *identity) {
  traceparent made = {""};
  if ((identity->trace_id_high | identity->trace_id_low) != 0) {
    snprintf(made.text, sizeof made.text, "00-%016llx%016llx-%016llx-%02x", (unsigned long long)identity->trace_id_high,
             (unsigned long long)identity->trace_id_low, (unsigned long long)identity->span_id,
             (unsigned)identity->trace_flags & 0xff);
  }
  return made;
}

static bool read_digits(const char **at, size_t count, uint64_t *number) {
  for (*number = 0; count > 0; count--, (*at)++) {
    bool is_digit = **at >= '0' && **at <= '9';
    if (!is_digit && (**at < 'a' || **at > 'f')) {
      return false;
    }
    *number = *number << 4 | (uint64_t)(is_digit ? **at - '0' : **at - 'a' + 10);
  }
  return true;
}

/* Who the span is that a header traceparent names; nobody where it names none. */
static otel_span_identity identity_of(const char *text) {
  otel_span_identity found = {0}, nobody = {0};
  uint64_t version = 0, flags = 0;
  const char *at = text == NULL ? "" : text;
  bool reads = read_digits(&at, 2, &version) && *at++ == '-' && read_digits(&at, 16, &found.trace_id_high) &&
               read_digits(&at, 16, &found.trace_id_low) && *at++ == '-' && read_digits(&at, 16, &found.span_id) &&
               *at++ == '-' && read_digits(&at, 2, &flags);
  bool ends = reads && version < 0xff && (*at == '\0' || (version > 0 && *at == '-'));
  found.trace_flags = flags & 1;
  return ends && (found.trace_id_high | found.trace_id_low) != 0 && found.span_id != 0 ? found : nobody;
}

static uint64_t moment_now(void) {
  struct timespec now = {0};
  clock_gettime(CLOCK_REALTIME, &now);
  return (uint64_t)now.tv_sec * 1000000000 + (uint64_t)now.tv_nsec;
}

/* A list of attributes as otel.h takes it: no address is NULL. */
static const otel_attribute *list_of(const otel_attribute *attributes) {
  static const otel_attribute none;
  return attributes == NULL ? &none : attributes;
}

/* Ends a call: counts a failure, and lets go of the lock. */
static uint32_t leave(otel_service *service, uint32_t status) {
  if (service != NULL && status != OTEL_OK) {
    service->numbers.failed_calls++;
  }
  otel_service_unlock(service);
  return status;
}

/* What a span starts with. */
typedef struct {
  uint32_t kind;
  const char *name;
  const otel_attribute *attributes;
  size_t count;
  uint64_t moment;
} beginning;

static beginning beginning_of(uint32_t kind, const char *name, const otel_attribute *attributes, size_t count) {
  return (beginning){kind, name, list_of(attributes), attributes == NULL ? 0 : count, moment_now()};
}

static uint32_t start_here(otel_handle *handle, uint64_t parent, const beginning *it, uint64_t *key) {
  view name = view_of(it->name);
  return otel_start_with(handle, 0, parent, it->kind, name.bytes, name.length, it->moment, it->attributes, it->count,
                         key);
}

static uint32_t start_remote(otel_handle *handle, const otel_service_headers *headers, const beginning *it,
                             uint64_t *key) {
  view name = view_of(it->name), parent = view_of(headers->traceparent), state = view_of(headers->tracestate);
  view baggage = view_of(headers->baggage);
  return otel_start_remote_with(handle, 0, parent.bytes, parent.length, state.bytes, state.length, baggage.bytes,
                                baggage.length, it->kind, name.bytes, name.length, it->moment, it->attributes,
                                it->count, key);
}

/* A child of a span that may have ended. */
static uint32_t start_below(otel_handle *handle, const otel_service_span *parent, const beginning *it, uint64_t *key) {
  uint32_t status = parent->key == 0 ? (uint32_t)OTEL_NO_SUCH_SPAN : start_here(handle, parent->key, it, key);
  if (status == OTEL_NO_SUCH_SPAN) {
    traceparent made = traceparent_of(&parent->identity);
    status = start_remote(handle, &(otel_service_headers){.traceparent = made.text}, it, key);
  }
  return status;
}

/* Ends a call that started a span. Where it failed, or the span is nobody since the pipeline is shut down, it stands
   for its parent. */
static otel_service_span started(otel_service *service, uint32_t status, uint64_t key,
                                 const otel_span_identity *parent) {
  otel_service_span span = {.key = key};
  if (status == OTEL_OK) {
    status = otel_identity(&service->handle, key, &span.identity);
  }
  if ((span.identity.trace_id_high | span.identity.trace_id_low) == 0) {
    if (key != 0) {
      otel_abandon(&service->handle, key);
    }
    span = (otel_service_span){0, *parent};
  }
  leave(service, status);
  return span;
}

otel_service_span otel_service_start(otel_service *service, uint32_t kind, const char *name,
                                     const otel_attribute *attributes, size_t count) {
  uint64_t key = 0;
  beginning it = beginning_of(kind, name, attributes, count);
  uint32_t status = start_here(otel_service_lock(service), 0, &it, &key);
  return started(service, status, key, &(otel_span_identity){0});
}

otel_service_span otel_service_start_child(otel_service *service, otel_service_span parent, uint32_t kind,
                                           const char *name, const otel_attribute *attributes, size_t count) {
  uint64_t key = 0;
  beginning it = beginning_of(kind, name, attributes, count);
  uint32_t status = start_below(otel_service_lock(service), &parent, &it, &key);
  return started(service, status, key, &parent.identity);
}

otel_service_span otel_service_start_remote(otel_service *service, otel_service_headers headers, uint32_t kind,
                                            const char *name, const otel_attribute *attributes, size_t count) {
  uint64_t key = 0;
  beginning it = beginning_of(kind, name, attributes, count);
  otel_span_identity parent = identity_of(headers.traceparent);
  uint32_t status = start_remote(otel_service_lock(service), &headers, &it, &key);
  return started(service, status, key, &parent);
}

uint32_t otel_service_set(otel_service *service, otel_service_span span, const otel_attribute *attributes,
                          size_t count) {
  if (span.key == 0 || attributes == NULL) {
    return OTEL_OK;
  }
  return leave(service, otel_set_attributes_with(otel_service_lock(service), span.key, attributes, count));
}

uint32_t otel_service_set_text(otel_service *service, otel_service_span span, const char *key, const char *value) {
  otel_attribute attribute = otel_attribute_text(key, value);
  return otel_service_set(service, span, &attribute, 1);
}

uint32_t otel_service_set_integer(otel_service *service, otel_service_span span, const char *key, int64_t value) {
  otel_attribute attribute = otel_attribute_integer(key, value);
  return otel_service_set(service, span, &attribute, 1);
}

uint32_t otel_service_add_event(otel_service *service, otel_service_span span, const char *name,
                                const otel_attribute *attributes, size_t count) {
  view text = view_of(name);
  uint64_t moment = moment_now();
  if (span.key == 0) {
    return OTEL_OK;
  }
  return leave(service, otel_add_event_with(otel_service_lock(service), span.key, text.bytes, text.length, moment,
                                            list_of(attributes), attributes == NULL ? 0 : count));
}

uint32_t otel_service_record_exception(otel_service *service, otel_service_span span, const char *type,
                                       const char *message, const char *stacktrace) {
  view types = view_of(type), says = view_of(message), trace = view_of(stacktrace);
  uint64_t moment = moment_now();
  if (span.key == 0) {
    return OTEL_OK;
  }
  return leave(service, otel_record_exception(otel_service_lock(service), span.key, types.bytes, types.length,
                                              says.bytes, says.length, trace.bytes, trace.length, moment));
}

uint32_t otel_service_add_link(otel_service *service, otel_service_span span, otel_service_span linked,
                               const otel_attribute *attributes, size_t count) {
  traceparent made = traceparent_of(&linked.identity);
  view parent = view_of(made.text), none = view_of("");
  const otel_attribute *list = list_of(attributes);
  count = attributes == NULL ? 0 : count;
  if (span.key == 0) {
    return OTEL_OK;
  }
  otel_handle *handle = otel_service_lock(service);
  otel_span_identity identity;
  bool is_open = linked.key != 0 && otel_identity(handle, linked.key, &identity) == OTEL_OK;
  return leave(service, is_open ? otel_add_link_with(handle, span.key, linked.key, list, count)
                                : otel_add_remote_link_with(handle, span.key, parent.bytes, parent.length, none.bytes,
                                                            none.length, list, count));
}

uint32_t otel_service_set_status(otel_service *service, otel_service_span span, uint32_t code,
                                 const char *description) {
  view text = view_of(description);
  if (span.key == 0) {
    return OTEL_OK;
  }
  return leave(service, otel_set_status(otel_service_lock(service), span.key, code, text.bytes, text.length));
}

uint32_t otel_service_update_name(otel_service *service, otel_service_span span, const char *name) {
  view text = view_of(name);
  if (span.key == 0) {
    return OTEL_OK;
  }
  return leave(service, otel_update_name(otel_service_lock(service), span.key, text.bytes, text.length));
}

uint32_t otel_service_inject(otel_service *service, otel_service_span span, char *buffer, size_t room) {
  size_t length = 0;
  otel_handle *handle = otel_service_lock(service);
  if (room == 0) {
    return leave(service, OTEL_BUFFER_TOO_SMALL);
  }
  uint32_t status =
      span.key == 0 ? (uint32_t)OTEL_NO_SUCH_SPAN : otel_inject(handle, span.key, (uint8_t *)buffer, room - 1, &length);
  buffer[status == OTEL_OK ? length : 0] = '\0';
  if (status == OTEL_NO_SUCH_SPAN || status == OTEL_CLOSED) {
    traceparent made = traceparent_of(&span.identity);
    bool is_somebody = made.text[0] != '\0';
    bool fits = !is_somebody || strlen("traceparent: \r\n") + strlen(made.text) < room;
    if (is_somebody && fits) {
      snprintf(buffer, room, "traceparent: %s\r\n", made.text);
    }
    status = fits ? OTEL_OK : OTEL_BUFFER_TOO_SMALL;
  }
  return leave(service, status);
}

uint32_t otel_service_end(otel_service *service, otel_service_span span) {
  uint64_t moment = moment_now();
  if (span.key == 0) {
    return OTEL_OK;
  }
  otel_handle *handle = otel_service_lock(service);
  uint32_t status = otel_end(handle, span.key, moment);
  if (status != OTEL_OK) {
    otel_abandon(handle, span.key);
  }
  return leave(service, status);
}

uint32_t otel_service_abandon(otel_service *service, otel_service_span span) {
  if (span.key == 0) {
    return OTEL_OK;
  }
  return leave(service, otel_abandon(otel_service_lock(service), span.key));
}

// SPDX-License-Identifier: Apache-2.0
/* Looks at what calls that are handed attributes leave in lines: the same bytes as those that take gathered ones, by
   the same seed and moments; and what was gathered stays. Then at a process made by a fork, whose pipeline goes on, at
   what a resource names, and at what a pipeline that is shut down passes on. It ends with 1 where something is not so,
   and names it. */
#include "otel.h"

#include <stdio.h>
#include <stdlib.h>
#include <string.h>

#define TEXT(text) (const uint8_t *)(text), sizeof(text) - 1

enum { ROOM = 1 << 16, MOMENT = 1700000000, ALL = 8 };

static const char traceparent[] = "00-0af7651916cd43dd8448eb211c80319c-b7ad6b7169203331-01";
static const uint64_t lengths[] = {1, 0, 2};
static const int64_t integers[] = {3, INT64_MIN};
static const double numbers[] = {0.5, -2};
static const uint8_t bools[] = {1, 0};

static void hold(bool is_so, const char *what) {
  if (!is_so) {
    fprintf(stderr, "it is not so that %s\n", what);
    exit(1);
  }
}

static void must(uint32_t status) { hold(status == OTEL_OK, otel_status_text(status)); }

/* Gathers an attribute of each kind. */
static void gather_all(otel_handle *handle) {
  must(otel_with_text(handle, TEXT("text"), TEXT("value")));
  must(otel_with_integer(handle, TEXT("integer"), -7));
  must(otel_with_float(handle, TEXT("float"), 2.5));
  must(otel_with_bool(handle, TEXT("bool"), 1));
  must(otel_with_texts(handle, TEXT("texts"), TEXT("abc"), lengths, 3));
  must(otel_with_integers(handle, TEXT("integers"), integers, 2));
  must(otel_with_floats(handle, TEXT("floats"), numbers, 2));
  must(otel_with_bools(handle, TEXT("bools"), bools, 2));
}

/* The same as a list. */
static void list_all(otel_attribute *all) {
  static const char *const keys[ALL] = {"text", "integer", "float", "bool", "texts", "integers", "floats", "bools"};
  for (size_t i = 0; i < ALL; i++) {
    all[i] = otel_attribute_of((const uint8_t *)keys[i], strlen(keys[i]));
    all[i].kind = (uint32_t)i + 1;
  }
  all[0].bytes = (const uint8_t *)"value", all[0].bytes_length = 5;
  all[1].integer = -7;
  all[2].number = 2.5;
  all[3].truth = 1;
  all[4].bytes = (const uint8_t *)"abc", all[4].bytes_length = 3;
  all[4].lengths = lengths, all[4].lengths_count = 3;
  all[5].integers = integers, all[5].integers_count = 2;
  all[6].numbers = numbers, all[6].numbers_count = 2;
  all[7].bytes = bools, all[7].bytes_length = 2;
}

static void trace_gathered(otel_handle *handle) {
  uint64_t root, child;
  gather_all(handle);
  must(otel_start(handle, 0, 0, OTEL_SERVER, TEXT("root"), MOMENT, &root));
  gather_all(handle);
  must(otel_start_remote(handle, 0, TEXT(traceparent), TEXT("a=1"), TEXT(""), OTEL_CLIENT, TEXT("child"), MOMENT,
                         &child));
  must(otel_with_integer(handle, TEXT("late"), 1));
  must(otel_set_attributes(handle, root));
  gather_all(handle);
  must(otel_add_event(handle, root, TEXT("event"), MOMENT));
  gather_all(handle);
  must(otel_add_link(handle, root, child));
  gather_all(handle);
  must(otel_add_remote_link(handle, root, TEXT(traceparent), TEXT("")));
  must(otel_end(handle, child, MOMENT));
  must(otel_end(handle, root, MOMENT));
}

/* The same, while something else is gathered. */
static void trace_handed(otel_handle *handle) {
  uint64_t root, child;
  otel_attribute all[ALL], late = otel_attribute_of(TEXT("late"));
  list_all(all);
  late.kind = OTEL_INTEGER;
  late.integer = 1;
  must(otel_with_text(handle, TEXT("gathered"), TEXT("stays")));
  must(otel_start_with(handle, 0, 0, OTEL_SERVER, TEXT("root"), MOMENT, all, ALL, &root));
  must(otel_start_remote_with(handle, 0, TEXT(traceparent), TEXT("a=1"), TEXT(""), OTEL_CLIENT, TEXT("child"), MOMENT,
                              all, ALL, &child));
  must(otel_set_attributes_with(handle, root, &late, 1));
  must(otel_add_event_with(handle, root, TEXT("event"), MOMENT, all, ALL));
  must(otel_add_link_with(handle, root, child, all, ALL));
  must(otel_add_remote_link_with(handle, root, TEXT(traceparent), TEXT(""), all, ALL));
  must(otel_end(handle, child, MOMENT));
  must(otel_end(handle, root, MOMENT));
}

/* All lines of a pipeline, with a zero after them. */
static void drain(otel_handle *handle, char *lines) {
  size_t length = 0;
  must(otel_flush(handle));
  must(otel_drain_some(handle, (uint8_t *)lines, ROOM - 1, &length));
  lines[length] = '\0';
}

static void handed_attributes_are_as_gathered_ones(void) {
  static char gathered[ROOM], handed[ROOM];
  otel_handle handle = {0};
  uint64_t span;
  must(otel_open(&handle, TEXT("OTEL_SPAN_PROCESSOR=batch"), 7));
  trace_gathered(&handle);
  drain(&handle, gathered);
  must(otel_close(&handle));
  must(otel_open(&handle, TEXT("OTEL_SPAN_PROCESSOR=batch"), 7));
  trace_handed(&handle);
  drain(&handle, handed);
  hold(strstr(gathered, "\"floats\"") != NULL && strcmp(gathered, handed) == 0,
       "lines are the same where attributes are handed and where they are gathered");
  must(otel_start(&handle, 0, 0, OTEL_SERVER, TEXT("next"), MOMENT, &span));
  must(otel_end(&handle, span, MOMENT));
  drain(&handle, handed);
  hold(strstr(handed, "\"stays\"") != NULL, "what was gathered stays for the next call that takes it");
  must(otel_close(&handle));
}

static void a_list_is_refused_as_a_whole(void) {
  static char lines[ROOM];
  otel_handle handle = {0};
  uint64_t span;
  otel_attribute two[] = {otel_attribute_of(TEXT("good")), otel_attribute_of(TEXT("bad"))};
  two[0].kind = OTEL_BOOL;
  must(otel_open(&handle, TEXT("OTEL_SPAN_PROCESSOR=batch"), 7));
  must(otel_start(&handle, 0, 0, OTEL_SERVER, TEXT("span"), MOMENT, &span));
  hold(otel_set_attributes_with(&handle, span, two, 2) == OTEL_BAD_ARGUMENT, "an attribute without a kind is refused");
  two[1].kind = OTEL_TEXT;
  two[1].bytes = (const uint8_t *)"\xff", two[1].bytes_length = 1;
  hold(otel_add_event_with(&handle, span, TEXT("event"), MOMENT, two, 2) == OTEL_NOT_UTF8,
       "a text that is not UTF-8 is refused");
  must(otel_end(&handle, span, MOMENT));
  drain(&handle, lines);
  hold(strstr(lines, "\"good\"") == NULL && strstr(lines, "\"event\"") == NULL, "nothing of a refused list is there");
  must(otel_close(&handle));
}

static void a_pipeline_goes_on_after_a_fork(void) {
  static char lines[ROOM];
  otel_handle handle = {0};
  otel_numbers count;
  otel_span_identity before, after;
  uint64_t tracer, open, ended, span;
  must(otel_open(&handle, TEXT("OTEL_SPAN_PROCESSOR=simple\nOTEL_SERVICE_NAME=shop"), 7));
  must(otel_tracer(&handle, TEXT("library"), TEXT(""), TEXT(""), &tracer));
  must(otel_start(&handle, 0, 0, OTEL_SERVER, TEXT("parent's"), MOMENT, &open));
  must(otel_start(&handle, 0, open, OTEL_SERVER, TEXT("parent's"), MOMENT, &ended));
  must(otel_identity(&handle, ended, &before));
  must(otel_end(&handle, ended, MOMENT));
  must(otel_after_fork(&handle, 8));
  must(otel_count(&handle, &count, sizeof count));
  hold(count.open_spans + count.waiting_spans + count.undrained_spans + count.undrained_bytes == 0,
       "a child has no spans of its parent");
  hold(otel_end(&handle, open, MOMENT) == OTEL_NO_SUCH_SPAN, "a span of the parent is none");
  must(otel_start(&handle, tracer, 0, OTEL_SERVER, TEXT("child's"), MOMENT, &span));
  must(otel_identity(&handle, span, &after));
  hold(span != open && span != ended && after.span_id != before.span_id, "keys and ids of the child are its own");
  must(otel_end(&handle, span, MOMENT));
  drain(&handle, lines);
  hold(strstr(lines, "child's") != NULL && strstr(lines, "parent's") == NULL, "a child exports what is its own");
  hold(strstr(lines, "\"library\"") != NULL && strstr(lines, "\"shop\"") != NULL, "tracers and settings stay");
  must(otel_close(&handle));
  hold(otel_after_fork(&handle, 9) == OTEL_CLOSED, "a handle that is not open does not go on");
}

/* What the lines of one span have that such settings open a pipeline for. */
static bool names(const uint8_t *settings, size_t length, const char *what) {
  static char lines[ROOM];
  otel_handle handle = {0};
  uint64_t span;
  must(otel_open(&handle, settings, length, 7));
  must(otel_start(&handle, 0, 0, OTEL_SERVER, TEXT("span"), MOMENT, &span));
  must(otel_end(&handle, span, MOMENT));
  must(otel_flush(&handle));
  drain(&handle, lines);
  must(otel_close(&handle));
  return strstr(lines, what) != NULL;
}

static void a_resource_names_the_library(void) {
  static const char mine[] = "OTEL_RESOURCE_ATTRIBUTES=telemetry.sdk.language=d,team=a";
  hold(names(TEXT(""), "{\"key\":\"telemetry.sdk.name\",\"value\":{\"stringValue\":\"otel_proved\"}}"),
       "a resource names the library");
  hold(names(TEXT(""), "{\"key\":\"telemetry.sdk.language\",\"value\":{\"stringValue\":\"c\"}}"),
       "a resource names C");
  hold(names(TEXT(""), "{\"key\":\"telemetry.sdk.version\",\"value\":{\"stringValue\":\"0.1.0\"}}"),
       "a resource names the library's version");
  hold(names(TEXT(mine), "{\"key\":\"telemetry.sdk.language\",\"value\":{\"stringValue\":\"d\"}}"),
       "what the settings say of the library counts");
  hold(names(TEXT(mine), "{\"key\":\"team\",\"value\":{\"stringValue\":\"a\"}}"), "attributes of settings are there");
}

static void a_parent_is_passed_on_after_a_shutdown(void) {
  static const char wanted[] = "traceparent: 00-0af7651916cd43dd8448eb211c80319c-b7ad6b7169203331-01\r\n";
  uint8_t headers[512] = {0};
  size_t length = 0;
  otel_handle handle = {0};
  uint64_t span, child;
  must(otel_open(&handle, TEXT(""), 7));
  must(otel_shutdown(&handle));
  must(otel_start_remote(&handle, 0, TEXT(traceparent), TEXT("a=1"), TEXT(""), OTEL_CLIENT, TEXT("late"), MOMENT,
                         &span));
  must(otel_inject(&handle, span, headers, sizeof headers - 1, &length));
  hold(strstr((const char *)headers, wanted) != NULL, "a span that starts after a shutdown passes its parent on");
  must(otel_start(&handle, 0, span, OTEL_CLIENT, TEXT("child"), MOMENT, &child));
  memset(headers, 0, sizeof headers);
  must(otel_inject(&handle, child, headers, sizeof headers - 1, &length));
  hold(strstr((const char *)headers, wanted) != NULL, "and so does its child");
  must(otel_close(&handle));
}

int main(void) {
  handed_attributes_are_as_gathered_ones();
  a_list_is_refused_as_a_whole();
  a_pipeline_goes_on_after_a_fork();
  a_resource_names_the_library();
  a_parent_is_passed_on_after_a_shutdown();
  printf("handed_over: all is so\n");
  return 0;
}

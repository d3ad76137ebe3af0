/* SPDX-License-Identifier: Apache-2.0 */
/* Posts a line once, and judges the answer as the OpenTelemetry protocol has it. */
#define _DEFAULT_SOURCE
#include "otel_service_parts.h"

#include <stdio.h>
#include <stdlib.h>
#include <strings.h>
#include <time.h>

/* How much is read of an answer, head and body. */
enum { ANSWER = 64 * 1024 };

/* The end of a head within a text; NULL where it does not end. */
static char *end_of_head(char *text) {
  for (char *at = strchr(text, '\n'); at != NULL; at = strchr(at + 1, '\n')) {
    if (at[1] == '\n' || (at[1] == '\r' && at[2] == '\n')) {
      return at + 1;
    }
  }
  return NULL;
}

static char *body_of(char *head_end) { return head_end + (*head_end == '\r' ? 2 : 1); }

/* The value of a header in lines, without the spaces before it; NULL where it is not there. */
static const char *header(const char *head, const char *name) {
  size_t length = strlen(name);
  for (const char *line = strchr(head, '\n'); line != NULL; line = strchr(line + 1, '\n')) {
    if (strncasecmp(line + 1, name, length) == 0 && line[1 + length] == ':') {
      const char *value = line + 2 + length;
      return value + strspn(value, " \t");
    }
  }
  return NULL;
}

/* A number at the beginning of a text, as great as may be; false where none is there. */
static bool read_number(const char *text, uint64_t *number) {
  const char *at = text;
  for (*number = 0; *at >= '0' && *at <= '9'; at++) {
    *number = *number > UINT64_MAX / 100 ? UINT64_MAX / 10 : *number * 10 + (uint64_t)(*at - '0');
  }
  return at != text;
}

/* How many days the first of January of 1970 is before a day of the Gregorian calendar. */
static int64_t days_since_1970(int64_t year, int64_t month, int64_t day) {
  int64_t from_march = month > 2 ? month - 3 : month + 9;
  int64_t years = month > 2 ? year : year - 1;
  return years * 365 + years / 4 - years / 100 + years / 400 + (from_march * 153 + 2) / 5 + day - 719469;
}

/* How many seconds are left until a moment such as `Wed, 21 Oct 2026 07:28:00 GMT`; false where it does not read. */
static bool read_moment(const char *text, uint64_t *seconds) {
  static const char months[] = "JanFebMarAprMayJunJulAugSepOctNovDec";
  int day, year, hour, minute, second;
  char name[4] = "";
  if (sscanf(text, "%*3s, %2d %3s %4d %2d:%2d:%2d GMT", &day, name, &year, &hour, &minute, &second) != 6) {
    return false;
  }
  const char *found = strstr(months, name);
  if (strlen(name) != 3 || found == NULL || (found - months) % 3 != 0) {
    return false;
  }
  int64_t days = days_since_1970(year, (found - months) / 3 + 1, day);
  int64_t left = days * 86400 + hour * 3600 + minute * 60 + second - (int64_t)time(NULL);
  *seconds = left > 0 ? (uint64_t)left : 0;
  return true;
}

/* How long the collector wants to be left alone, where it says so. */
static void read_wait(const char *head, otel_private_answer *answer) {
  const char *value = header(head, "retry-after");
  uint64_t seconds = 0;
  answer->has_wait = value != NULL && (read_number(value, &seconds) || read_moment(value, &seconds));
  answer->wait = seconds > UINT64_MAX / 1000 ? UINT64_MAX : seconds * 1000;
}

/* How many spans of a line the collector did not take. */
static uint64_t rejected_in(const char *body) {
  static const char member[] = "\"rejectedSpans\"";
  const char *found = strstr(body, member);
  uint64_t number = 0;
  if (found != NULL) {
    found += strlen(member);
    read_number(found + strspn(found, " :\"\r\n\t"), &number);
  }
  return number;
}

void otel_private_judge(const char *head, const char *body, otel_private_answer *answer) {
  uint64_t status = 0;
  const char *after = strncmp(head, "HTTP/1.", strlen("HTTP/1.")) == 0 ? strchr(head, ' ') : NULL;
  if (after != NULL) {
    read_number(after + 1, &status);
  }
  int length = (int)strcspn(head, "\r\n");
  snprintf(answer->why, sizeof answer->why, "the collector answers %.*s", length > 80 ? 80 : length, head);
  if (status >= 200 && status <= 299) {
    answer->outcome = OTEL_PRIVATE_TAKEN;
    answer->rejected_spans = rejected_in(body);
  } else if (status == 429 || status == 502 || status == 503 || status == 504) {
    answer->outcome = OTEL_PRIVATE_LATER;
    read_wait(head, answer);
  } else {
    answer->outcome = OTEL_PRIVATE_REFUSED;
  }
}

/* How many bytes of a body are wanted: as many as the head says, or as fit. */
static size_t wanted_of_body(const char *head, size_t room) {
  const char *value = header(head, "content-length");
  uint64_t length;
  return value != NULL && read_number(value, &length) && length < room ? (size_t)length : room;
}

/* Reads an answer. The head decides, so that of a body it takes what comes, and a fault there is none. */
static bool read_answer(otel_private_connection *connection, char *text, char **body) {
  size_t length = 0, wanted = 0;
  char *head_end = NULL;
  long came = 1;
  connection->fault = "the head of the answer is too long";
  while (came > 0 && length < ANSWER - 1) {
    came = otel_private_receive(connection, text + length, ANSWER - 1 - length);
    length += came > 0 ? (size_t)came : 0;
    text[length] = '\0';
    if (head_end == NULL && (head_end = end_of_head(text)) != NULL) {
      *body = body_of(head_end);
      *head_end = '\0';
      wanted = wanted_of_body(text, ANSWER);
    }
    if (head_end != NULL && (size_t)(text + length - *body) >= wanted) {
      break;
    }
  }
  if (head_end == NULL && came == 0) {
    connection->fault = "the connection ended without an answer";
  }
  return head_end != NULL;
}

static bool exchange(otel_private_connection *connection, const otel_private_endpoint *endpoint, const char *line,
                     size_t length, otel_private_answer *answer) {
  char size[64], *body = NULL, *text = malloc(ANSWER);
  if (text == NULL) {
    connection->fault = "out of memory";
    return false;
  }
  snprintf(size, sizeof size, "content-length: %zu\r\n\r\n", length);
  text[0] = '\0';
  /* What could not be written may have been answered. */
  if (otel_private_send(connection, endpoint->begins.bytes, endpoint->begins.length) &&
      otel_private_send(connection, size, strlen(size))) {
    otel_private_send(connection, line, length);
  }
  bool is_answered = read_answer(connection, text, &body);
  if (is_answered) {
    otel_private_judge(text, body, answer);
  }
  free(text);
  return is_answered;
}

void otel_private_post(const otel_private_endpoint *endpoint, const char *line, size_t length,
                       const otel_private_watch *watch, otel_private_answer *answer) {
  otel_private_connection connection;
  *answer = (otel_private_answer){.outcome = OTEL_PRIVATE_LATER};
  bool is_answered =
      otel_private_connect(&connection, endpoint, watch) && exchange(&connection, endpoint, line, length, answer);
  if (!is_answered) {
    *answer = (otel_private_answer){.outcome = OTEL_PRIVATE_LATER};
    snprintf(answer->why, sizeof answer->why, "no answer: %s", connection.fault);
  }
  otel_private_disconnect(&connection);
}

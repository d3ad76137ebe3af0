/* SPDX-License-Identifier: Apache-2.0 */
/* Reads a list of headers such as `authorization=Bearer%20abc,x-team=shop`, which go along with each request. */
#include "otel_service_parts.h"

#include <stdlib.h>
#include <strings.h>

/* A part of a text. */
typedef struct {
  const char *at;
  size_t length;
} part;

static part trimmed(part it) {
  while (it.length > 0 && (it.at[0] == ' ' || it.at[0] == '\t')) {
    it.at++, it.length--;
  }
  while (it.length > 0 && (it.at[it.length - 1] == ' ' || it.at[it.length - 1] == '\t')) {
    it.length--;
  }
  return it;
}

static bool is_digit_or_letter(char it) {
  return (it >= '0' && it <= '9') || (it >= 'a' && it <= 'z') || (it >= 'A' && it <= 'Z');
}

static int digit_of(char it) {
  static const char digits[] = "0123456789abcdefABCDEF";
  const char *found = it == '\0' ? NULL : strchr(digits, it);
  int digit = found == NULL ? -1 : (int)(found - digits);
  return digit > 15 ? digit - 6 : digit;
}

/* Whether a header of this name may stand in a request that does not say it itself. */
static bool is_name(part name) {
  static const char *const ours[] = {"host", "content-type", "content-length", "connection", "transfer-encoding"};
  bool is_good = name.length > 0;
  for (size_t i = 0; i < name.length; i++) {
    is_good = is_good && (is_digit_or_letter(name.at[i]) || memchr("!#$%&'*+-.^_`|~", name.at[i], 15) != NULL);
  }
  for (size_t i = 0; i < sizeof ours / sizeof *ours; i++) {
    bool is_ours = name.length == strlen(ours[i]) && strncasecmp(name.at, ours[i], name.length) == 0;
    is_good = is_good && !is_ours;
  }
  return is_good;
}

/* Adds a value, in which `%` and two hexadecimal digits stand for a byte. False where that cannot stand in a header. */
static bool add_value(otel_private_text *request, part value) {
  for (size_t i = 0; i < value.length; i++) {
    char byte = value.at[i];
    bool is_quoted = byte == '%' && value.length - i > 2 && digit_of(value.at[i + 1]) >= 0;
    if (is_quoted && digit_of(value.at[i + 2]) >= 0) {
      byte = (char)(digit_of(value.at[i + 1]) * 16 + digit_of(value.at[i + 2]));
      i += 2;
    }
    if (byte != '\t' && (byte < ' ' || byte > '~')) {
      return false;
    }
    otel_private_add(request, &byte, 1);
  }
  return true;
}

static bool add_header(otel_private_text *request, part member) {
  const char *sign = memchr(member.at, '=', member.length);
  if (sign == NULL) {
    return false;
  }
  part name = trimmed((part){member.at, (size_t)(sign - member.at)});
  part value = trimmed((part){sign + 1, member.length - (size_t)(sign - member.at) - 1});
  if (!is_name(name)) {
    return false;
  }
  otel_private_add(request, name.at, name.length);
  otel_private_add_text(request, ": ");
  bool is_good = add_value(request, value);
  otel_private_add_text(request, "\r\n");
  return is_good;
}

bool otel_private_add_headers(otel_private_text *request, const char *list) {
  otel_private_text headers = {0};
  bool is_good = true;
  while (is_good && *list != '\0') {
    size_t length = strcspn(list, ",");
    part member = trimmed((part){list, length});
    is_good = member.length == 0 || add_header(&headers, member);
    list += length + (list[length] == ',' ? 1 : 0);
  }
  if (is_good) {
    otel_private_add(request, otel_private_shown(&headers), headers.length);
    request->is_cut |= headers.is_cut;
  }
  free(headers.bytes);
  return is_good;
}

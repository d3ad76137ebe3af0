/* SPDX-License-Identifier: Apache-2.0 */
/* Makes the settings of a pipeline out of the environment. */
#define _DEFAULT_SOURCE
#include "otel_service_parts.h"

#include <stdio.h>

#define RESOURCE "OTEL_RESOURCE_ATTRIBUTES"

extern char **environ;

static bool begins_with(const char *text, const char *beginning) {
  return strncmp(text, beginning, strlen(beginning)) == 0;
}

/* Whether the text of a variable, `NAME=VALUE`, has one of these names. */
static bool is_named(const char *variable, const char *const *names, size_t count) {
  size_t length = strcspn(variable, "=");
  for (size_t i = 0; i < count; i++) {
    if (strlen(names[i]) == length && strncmp(variable, names[i], length) == 0) {
      return true;
    }
  }
  return false;
}

/* Whether lines of settings have the name of a variable. */
static bool is_set_in(const char *lines, const char *variable) {
  size_t length = strcspn(variable, "=") + 1;
  while (lines != NULL && *lines != '\0') {
    if (strncmp(lines, variable, length) == 0) {
      return true;
    }
    lines += strcspn(lines, "\n");
    lines += *lines == '\n' ? 1 : 0;
  }
  return false;
}

/* Adds a setting of this length. Before the resource's attributes stands what it says of the SDK, which OpenTelemetry
   asks of each that is not its own: of two attributes the later counts, so the user's. */
static void add_setting(otel_private_text *lines, const char *setting, size_t length, const char *language) {
  size_t name = strlen(RESOURCE "=");
  if (length >= name && strncmp(setting, RESOURCE "=", name) == 0) {
    char version[64];
    snprintf(version, sizeof version, "%d.%d.%d,", OTEL_VERSION_MAJOR, OTEL_VERSION_MINOR, OTEL_VERSION_PATCH);
    otel_private_add_text(lines, RESOURCE "=telemetry.sdk.name=otel_proved,telemetry.sdk.language=");
    otel_private_add_text(lines, language);
    otel_private_add_text(lines, ",telemetry.sdk.version=");
    otel_private_add_text(lines, version);
    setting += name;
    length -= name;
  }
  otel_private_add(lines, setting, length);
  otel_private_add_text(lines, "\n");
}

/* Whether a variable may stand in a line; a carriage return at its end would be a part of that. */
static bool is_line(const char *variable) {
  size_t length = strlen(variable);
  return strchr(variable, '\n') == NULL && variable[length - 1] != '\r' && otel_private_is_utf8(variable, length);
}

static void add_variable(const otel_service_options *options, const char *variable, otel_private_text *lines,
                         otel_private_text *ignored) {
  static const char *const of_builds[] = {"OTEL_C_DIR", "OTEL_C_LIBRARY"};
  static const char *const read_here[] = {"OTEL_EXPORTER_OTLP_TRACES_ENDPOINT", "OTEL_EXPORTER_OTLP_ENDPOINT",
                                          "OTEL_EXPORTER_OTLP_TRACES_HEADERS", "OTEL_EXPORTER_OTLP_HEADERS"};
  bool is_ours = begins_with(variable, "OTEL_") && !is_named(variable, of_builds, 2);
  if (!is_ours || is_set_in(options->settings, variable) || is_named(variable, read_here, 4)) {
    return;
  }
  if (begins_with(variable, "OTEL_EXPORTER_") || !is_line(variable)) {
    otel_private_add(ignored, variable, strcspn(variable, "="));
    otel_private_add_text(ignored, "\n");
    return;
  }
  add_setting(lines, variable, strlen(variable), options->language);
}

void otel_private_settings(const otel_service_options *options, otel_private_text *lines, otel_private_text *ignored) {
  for (char **variable = environ; variable != NULL && *variable != NULL; variable++) {
    add_variable(options, *variable, lines, ignored);
  }
  for (const char *line = options->settings; line != NULL && *line != '\0';) {
    size_t length = strcspn(line, "\n");
    add_setting(lines, line, length, options->language);
    line += length + (line[length] == '\n' ? 1 : 0);
  }
  if (!is_set_in(otel_private_shown(lines), RESOURCE "=")) {
    add_setting(lines, RESOURCE "=", strlen(RESOURCE "="), options->language);
  }
}

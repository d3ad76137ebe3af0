/* SPDX-License-Identifier: Apache-2.0 */
/* A word when it matters, about each thing at most once a minute. */
#include "otel_service_parts.h"

#include <inttypes.h>
#include <stdio.h>

enum { PAUSE = 60 * 1000 };

void otel_private_note(otel_service *service, enum otel_private_about about, const char *text, uint64_t count,
                       const char *why) {
  otel_private_notice *notice = &service->notices[about];
  uint64_t now = otel_private_milliseconds();
  if (notice->was_said && now - notice->said_at < PAUSE) {
    return;
  }
  notice->was_said = notice->is_due = true;
  notice->said_at = now;
  const char *goal = otel_private_shown(&service->endpoint.shown);
  snprintf(notice->text, sizeof notice->text, "%s: %" PRIu64 " (%s%s%.200s)", text, count, why == NULL ? "" : why,
           why == NULL ? "the collector is " : ", from ", goal);
}

static void say(const otel_service_options *options, const char *text) {
  if (options->notice != NULL) {
    options->notice(options->notice_context, text);
  } else {
    fprintf(stderr, "otel_proved: %s\n", text);
  }
}

void otel_private_say(otel_service *service) {
  for (size_t about = 0; about < OTEL_PRIVATE_ABOUTS; about++) {
    otel_private_notice *notice = &service->notices[about];
    if (notice->is_due) {
      char text[OTEL_PRIVATE_NOTICE];
      memcpy(text, notice->text, sizeof text);
      notice->is_due = false;
      pthread_mutex_unlock(&service->mutex);
      say(&service->options, text);
      pthread_mutex_lock(&service->mutex);
    }
  }
}

// SPDX-License-Identifier: Apache-2.0
/* The calls that edit a span. */
#include "driver.h"

/* The span that a call edits, and when it must be refused. */
typedef struct {
  uint64_t key;
  bool is_recording;
  refusals refusals;
} edit;

static edit any_edit(driver *driver, const pipeline *pipeline) {
  edit edit = {.key = any_key(driver, pipeline)};
  const open_span *span = span_of(pipeline, edit.key);
  edit.is_recording = span != NULL && span->identity.is_recording;
  edit.refusals.owed[OTEL_NO_SUCH_SPAN] = span == NULL;
  return edit;
}

/* Where a span does not record, an edit may also do nothing with what is wrong in it. */
static void refuse(edit *edit, uint32_t status, bool is_wrong) {
  edit->refusals.owed[status] |= is_wrong && edit->is_recording;
  edit->refusals.allowed[status] |= is_wrong;
}

static text edit_text(driver *driver, edit *edit, size_t slot) {
  text text = any_text(driver, slot);
  refuse(edit, OTEL_NOT_UTF8, !text.is_utf8);
  return text;
}

/* Attributes that an edit is handed. */
static handed edit_handed(driver *driver, edit *edit) {
  handed with = any_handed(driver);
  for (uint32_t status = 0; status < STATUSES; status++) {
    refuse(edit, status, with.refusals.owed[status]);
    edit->refusals.allowed[status] |= with.refusals.allowed[status];
  }
  return with;
}

void call_set_text(driver *driver, pipeline *pipeline) {
  edit edit = any_edit(driver, pipeline);
  text key = edit_text(driver, &edit, 0), value = edit_text(driver, &edit, 1);
  uint32_t status = otel_set_text(&pipeline->handle, edit.key, key.bytes, key.length, value.bytes, value.length);
  check_status(driver, pipeline, status, &edit.refusals);
}

void call_set_integer(driver *driver, pipeline *pipeline) {
  edit edit = any_edit(driver, pipeline);
  text key = edit_text(driver, &edit, 0);
  int64_t value = (int64_t)any_number(driver);
  uint32_t status = otel_set_integer(&pipeline->handle, edit.key, key.bytes, key.length, value);
  check_status(driver, pipeline, status, &edit.refusals);
}

void call_set_float(driver *driver, pipeline *pipeline) {
  edit edit = any_edit(driver, pipeline);
  text key = edit_text(driver, &edit, 0);
  uint32_t status = otel_set_float(&pipeline->handle, edit.key, key.bytes, key.length, any_double(driver));
  check_status(driver, pipeline, status, &edit.refusals);
}

void call_set_bool(driver *driver, pipeline *pipeline) {
  edit edit = any_edit(driver, pipeline);
  text key = edit_text(driver, &edit, 0);
  uint32_t value = (uint32_t)(is_one_in(driver, 2) ? any_below(driver, 2) : any_number(driver));
  uint32_t status = otel_set_bool(&pipeline->handle, edit.key, key.bytes, key.length, value);
  check_status(driver, pipeline, status, &edit.refusals);
}

void call_set_attributes(driver *driver, pipeline *pipeline) {
  edit edit = any_edit(driver, pipeline);
  uint32_t status = otel_set_attributes(&pipeline->handle, edit.key);
  check_status(driver, pipeline, status, &edit.refusals);
}

void call_set_attributes_with(driver *driver, pipeline *pipeline) {
  edit edit = any_edit(driver, pipeline);
  handed with = edit_handed(driver, &edit);
  uint32_t status = otel_set_attributes_with(&pipeline->handle, edit.key, with.list, with.count);
  check_status(driver, pipeline, status, &edit.refusals);
}

void call_add_event(driver *driver, pipeline *pipeline) {
  edit edit = any_edit(driver, pipeline);
  text name = edit_text(driver, &edit, 0);
  uint32_t status = otel_add_event(&pipeline->handle, edit.key, name.bytes, name.length, any_moment(driver));
  check_status(driver, pipeline, status, &edit.refusals);
}

void call_add_event_with(driver *driver, pipeline *pipeline) {
  edit edit = any_edit(driver, pipeline);
  text name = edit_text(driver, &edit, 0);
  handed with = edit_handed(driver, &edit);
  uint32_t status = otel_add_event_with(&pipeline->handle, edit.key, name.bytes, name.length, any_moment(driver),
                                        with.list, with.count);
  check_status(driver, pipeline, status, &edit.refusals);
}

void call_record_exception(driver *driver, pipeline *pipeline) {
  edit edit = any_edit(driver, pipeline);
  text type = edit_text(driver, &edit, 0), message = edit_text(driver, &edit, 1);
  text stacktrace = edit_text(driver, &edit, 2);
  uint32_t status = otel_record_exception(&pipeline->handle, edit.key, type.bytes, type.length, message.bytes,
                                          message.length, stacktrace.bytes, stacktrace.length, any_moment(driver));
  check_status(driver, pipeline, status, &edit.refusals);
}

void call_add_link(driver *driver, pipeline *pipeline) {
  edit edit = any_edit(driver, pipeline);
  uint64_t linked = any_key(driver, pipeline);
  refuse(&edit, OTEL_NO_SUCH_SPAN, span_of(pipeline, linked) == NULL);
  uint32_t status = otel_add_link(&pipeline->handle, edit.key, linked);
  check_status(driver, pipeline, status, &edit.refusals);
}

void call_add_link_with(driver *driver, pipeline *pipeline) {
  edit edit = any_edit(driver, pipeline);
  uint64_t linked = any_key(driver, pipeline);
  handed with = edit_handed(driver, &edit);
  refuse(&edit, OTEL_NO_SUCH_SPAN, span_of(pipeline, linked) == NULL);
  uint32_t status = otel_add_link_with(&pipeline->handle, edit.key, linked, with.list, with.count);
  check_status(driver, pipeline, status, &edit.refusals);
}

/* Headers that are not UTF-8 do not read, or are refused as texts. */
static void add_remote_link(driver *driver, pipeline *pipeline, bool is_handed) {
  edit edit = any_edit(driver, pipeline);
  parent_header parent = any_parent_header(driver, 0);
  text state = any_text(driver, 1);
  handed with = is_handed ? edit_handed(driver, &edit) : (handed){0};
  refuse(&edit, OTEL_BAD_ARGUMENT, !parent.is_valid);
  edit.refusals.allowed[OTEL_NOT_UTF8] |= !parent.written.is_utf8 || !state.is_utf8;
  uint32_t status =
      is_handed ? otel_add_remote_link_with(&pipeline->handle, edit.key, parent.written.bytes, parent.written.length,
                                            state.bytes, state.length, with.list, with.count)
                : otel_add_remote_link(&pipeline->handle, edit.key, parent.written.bytes, parent.written.length,
                                       state.bytes, state.length);
  check_status(driver, pipeline, status, &edit.refusals);
}

void call_add_remote_link(driver *driver, pipeline *pipeline) { add_remote_link(driver, pipeline, false); }

void call_add_remote_link_with(driver *driver, pipeline *pipeline) { add_remote_link(driver, pipeline, true); }

/* Of a status that is no error, the description may be passed over. */
void call_set_status(driver *driver, pipeline *pipeline) {
  edit edit = any_edit(driver, pipeline);
  text description = any_text(driver, 0);
  uint32_t code = (uint32_t)(is_one_in(driver, 8) ? any_number(driver) : any_below(driver, 4));
  refuse(&edit, OTEL_BAD_ARGUMENT, code > OTEL_STATUS_ERROR);
  edit.refusals.allowed[OTEL_NOT_UTF8] = !description.is_utf8;
  edit.refusals.owed[OTEL_NOT_UTF8] = !description.is_utf8 && code == OTEL_STATUS_ERROR && edit.is_recording;
  uint32_t status = otel_set_status(&pipeline->handle, edit.key, code, description.bytes, description.length);
  check_status(driver, pipeline, status, &edit.refusals);
}

void call_update_name(driver *driver, pipeline *pipeline) {
  edit edit = any_edit(driver, pipeline);
  text name = edit_text(driver, &edit, 0);
  uint32_t status = otel_update_name(&pipeline->handle, edit.key, name.bytes, name.length);
  check_status(driver, pipeline, status, &edit.refusals);
}

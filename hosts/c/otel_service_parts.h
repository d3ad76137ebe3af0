/* SPDX-License-Identifier: Apache-2.0 */
/* What the files of otel_service.h share, and nobody else uses. */
#ifndef OTEL_SERVICE_PARTS_H
#define OTEL_SERVICE_PARTS_H

#include "otel_service.h"

#include <pthread.h>

/* A text that grows. Once memory ran out it stays as it is, and says so. */
typedef struct {
  char *bytes; /* with a zero at the end, or NULL */
  size_t length;
  size_t room;
  bool is_cut;
} otel_private_text;

/* otel_service_text.c */
void otel_private_add(otel_private_text *text, const char *bytes, size_t length);
void otel_private_add_text(otel_private_text *text, const char *more);
const char *otel_private_shown(const otel_private_text *text);
bool otel_private_is_utf8(const char *bytes, size_t length);
/* Of a clock that never goes back: now, and the moment after so many milliseconds, or after a century. */
uint64_t otel_private_milliseconds(void);
uint64_t otel_private_after(uint64_t wait);
uint64_t otel_private_nanoseconds(void);
bool otel_private_seed(uint64_t *seed);

/* Where lines are posted to. */
typedef struct {
  char *host; /* without the brackets that an address of IPv6 has */
  char *port;
  otel_private_text shown;  /* for notices */
  otel_private_text begins; /* the head of each request, but for the length of its body */
} otel_private_endpoint;

/* otel_service_endpoint.c: reads the endpoint and its headers; a list of headers that does not read is ignored, and
   named. Answers an otel_service_status. */
uint32_t otel_private_read_endpoint(otel_private_endpoint *endpoint, const char *url, otel_private_text *ignored);
void otel_private_free_endpoint(otel_private_endpoint *endpoint);

/* otel_service_headers.c: adds the headers of a list to a request. False, and nothing is added, where it does not
   read. */
bool otel_private_add_headers(otel_private_text *request, const char *list);

/* otel_service_settings.c: the settings for the pipeline, and the names of variables that are ignored. */
void otel_private_settings(const otel_service_options *options, otel_private_text *lines, otel_private_text *ignored);

/* Looks after a request while it waits: it is called every so often, and answers by when the request must be done. */
typedef struct {
  uint64_t (*look)(void *context);
  void *context;
  /* Says which socket is open, or that none is by -1. */
  void (*note_socket)(void *context, int socket);
} otel_private_watch;

enum otel_private_outcome { OTEL_PRIVATE_TAKEN, OTEL_PRIVATE_LATER, OTEL_PRIVATE_REFUSED };

enum { OTEL_PRIVATE_WHY = 160 };

/* What came of a post. */
typedef struct {
  enum otel_private_outcome outcome;
  uint64_t rejected_spans; /* of a line that was taken */
  bool has_wait;           /* whether the collector says how long to wait */
  uint64_t wait;
  char why[OTEL_PRIVATE_WHY]; /* it was not taken */
} otel_private_answer;

/* otel_service_connection.c */
typedef struct {
  int socket;
  uint64_t deadline;
  const otel_private_watch *watch;
  const char *fault;
} otel_private_connection;

bool otel_private_connect(otel_private_connection *connection, const otel_private_endpoint *endpoint,
                          const otel_private_watch *watch);
bool otel_private_send(otel_private_connection *connection, const char *bytes, size_t length);
/* How many bytes came; 0 at the end, and below 0 at a fault. */
long otel_private_receive(otel_private_connection *connection, char *buffer, size_t room);
void otel_private_disconnect(otel_private_connection *connection);

/* otel_service_post.c: posts a line once. */
void otel_private_post(const otel_private_endpoint *endpoint, const char *line, size_t length,
                       const otel_private_watch *watch, otel_private_answer *answer);
/* Judges a head and what came of a body. */
void otel_private_judge(const char *head, const char *body, otel_private_answer *answer);

/* Lines that were drained together, each with a line feed at its end. */
typedef struct otel_private_chunk {
  struct otel_private_chunk *next;
  size_t length;
  size_t done; /* how many bytes are posted or given up */
  char bytes[];
} otel_private_chunk;

/* What a notice may be about; of each there is at most one a minute. */
enum otel_private_about {
  OTEL_PRIVATE_DROPS,
  OTEL_PRIVATE_BATCHES,
  OTEL_PRIVATE_CROWDED,
  OTEL_PRIVATE_AGAIN,
  OTEL_PRIVATE_REJECTED,
  OTEL_PRIVATE_THREADS,
  OTEL_PRIVATE_END,
  OTEL_PRIVATE_ABOUTS
};

enum { OTEL_PRIVATE_NOTICE = 640 };

typedef struct {
  bool is_due; /* the text waits to be said */
  bool was_said;
  uint64_t said_at;
  char text[OTEL_PRIVATE_NOTICE];
} otel_private_notice;

/* What is to be done and when; the lock is held over it, as over all of a service but what stays as it was opened. */
typedef struct {
  bool is_forked; /* the process is a child, and nobody has looked after that */
  bool is_closing;
  bool is_closed;
  bool is_freed;
  uint64_t closing_by;
  bool has_thread;
  pthread_t thread;
  uint64_t next_thread; /* before then no other thread is tried */
  uint32_t calls;       /* since the pipeline was looked after */
  uint64_t next_look;
  int socket; /* of the request under way, or -1 */
} otel_private_state;

/* How the first line fares. */
typedef struct {
  uint32_t tried;
  uint64_t pause;
  uint64_t next;
} otel_private_tries;

struct otel_service {
  struct otel_service *next; /* of all services */
  otel_service_options options;
  otel_private_endpoint endpoint;
  otel_private_text ignored;
  pthread_mutex_t mutex;
  pthread_cond_t changed;
  bool has_condition; /* that of a parent process is not to be touched: its threads wait there */
  otel_handle handle;
  otel_handle nobody; /* never opened */
  otel_private_state state;
  otel_private_chunk *first, *last;
  otel_private_tries tries;
  char fault[OTEL_PRIVATE_WHY]; /* why a line was not posted last */
  uint64_t put_lines, done_lines;
  otel_service_numbers numbers; /* what the service counts itself */
  otel_numbers closed;          /* what the pipeline counted at its end */
  uint64_t seen_drops, seen_batches;
  otel_private_notice notices[OTEL_PRIVATE_ABOUTS];
};

/* otel_service_lines.c, all with the lock held. Takes the lines out of the pipeline, after it exported what is due or
   all; false where memory ran out. */
bool otel_private_take(otel_service *service, bool is_all);
/* The line that is posted next, with its length; NULL where none waits. */
const char *otel_private_first_line(const otel_service *service, size_t *length);
uint64_t otel_private_spans_in(const char *bytes, size_t length);
/* The first line is done with: of its spans so many were rejected, or all are lost and counted there. */
void otel_private_line_posted(otel_service *service, uint64_t rejected_spans);
void otel_private_line_lost(otel_service *service, uint64_t *spans_lost);
/* Counts all lines as too late, and answers how many spans they have. They stay where they are: one may be in a post.
 */
uint64_t otel_private_give_up(otel_service *service);
/* Frees all lines, where no thread posts any. */
void otel_private_forget_lines(otel_service *service);

/* otel_service_notices.c. Notes a text, to be said without the lock, where one about this is due. */
void otel_private_note(otel_service *service, enum otel_private_about about, const char *text, uint64_t count,
                       const char *why);
/* With the lock held, which is let go of while the notices are said. */
void otel_private_say(otel_service *service);

/* otel_service_thread.c: starts the thread where there is none. With the lock held. */
bool otel_private_start_thread(otel_service *service);

/* otel_service_fork.c. Has a service be there for the child of a fork, and for the end of the program, or no more. */
void otel_private_register(otel_service *service);
void otel_private_unregister(otel_service *service);
/* A service that is open, and wants to be closed at the end of the program; NULL where none is. */
otel_service *otel_private_closes_at_exit(void);
/* Makes a service that of the child process; with the lock held. */
void otel_private_go_on_after_fork(otel_service *service);

/* otel_service.c */
/* Waits for a change until a moment. */
void otel_private_wait(otel_service *service, uint64_t until);
bool otel_private_make_condition(otel_service *service);
void otel_private_destroy(otel_service *service);

#endif

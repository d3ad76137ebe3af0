/* SPDX-License-Identifier: Apache-2.0 */
/* A connection that is good until a deadline, and whose waits are looked after meanwhile. */
#define _DEFAULT_SOURCE
#include "otel_service_parts.h"

#include <errno.h>
#include <fcntl.h>
#include <netdb.h>
#include <poll.h>
#include <sys/socket.h>
#include <unistd.h>

#ifndef SOCK_CLOEXEC
#define SOCK_CLOEXEC 0
#endif

/* How long a wait is at most before somebody looks after it. */
enum { LOOK = 50 };

static bool is_late(otel_private_connection *connection) {
  connection->deadline = connection->watch->look(connection->watch->context);
  if (otel_private_milliseconds() < connection->deadline) {
    return false;
  }
  connection->fault = "the time for the request is over";
  return true;
}

/* Waits until the socket is ready, and answers for what; 0 where that was not in time. */
static short wait_for(otel_private_connection *connection, short events) {
  while (!is_late(connection)) {
    struct pollfd socket = {.fd = connection->socket, .events = events};
    uint64_t left = connection->deadline - otel_private_milliseconds();
    int ready = poll(&socket, 1, left < LOOK ? (int)left : LOOK);
    if (ready > 0) {
      return socket.revents;
    }
    if (ready < 0 && errno != EINTR) {
      connection->fault = strerror(errno);
      return 0;
    }
  }
  return 0;
}

static bool is_connected(otel_private_connection *connection, const struct addrinfo *address) {
  if (connect(connection->socket, address->ai_addr, address->ai_addrlen) == 0) {
    return true;
  }
  int fault = errno;
  socklen_t size = sizeof fault;
  if (fault == EINPROGRESS || fault == EINTR) {
    if (wait_for(connection, POLLOUT) == 0) {
      return false;
    }
    if (getsockopt(connection->socket, SOL_SOCKET, SO_ERROR, &fault, &size) != 0) {
      fault = errno;
    }
  }
  if (fault != 0) {
    connection->fault = strerror(fault);
  }
  return fault == 0;
}

/* Opens a socket that no program started meanwhile gets, and that does not block. */
static bool open_socket(otel_private_connection *connection, const struct addrinfo *address) {
  connection->socket = socket(address->ai_family, address->ai_socktype | SOCK_CLOEXEC, address->ai_protocol);
  if (connection->socket < 0) {
    connection->fault = strerror(errno);
    return false;
  }
  connection->watch->note_socket(connection->watch->context, connection->socket);
#ifdef SO_NOSIGPIPE
  setsockopt(connection->socket, SOL_SOCKET, SO_NOSIGPIPE, &(int){1}, sizeof(int));
#endif
  int flags = fcntl(connection->socket, F_GETFL);
  return fcntl(connection->socket, F_SETFD, FD_CLOEXEC) == 0 &&
         fcntl(connection->socket, F_SETFL, flags | O_NONBLOCK) == 0;
}

bool otel_private_connect(otel_private_connection *connection, const otel_private_endpoint *endpoint,
                          const otel_private_watch *watch) {
  struct addrinfo wanted = {.ai_family = AF_UNSPEC, .ai_socktype = SOCK_STREAM}, *found = NULL;
  *connection = (otel_private_connection){.socket = -1, .watch = watch, .fault = "the host has no address"};
  int status = getaddrinfo(endpoint->host, endpoint->port, &wanted, &found);
  if (status != 0) {
    connection->fault = gai_strerror(status);
    return false;
  }
  bool is_open = false;
  for (struct addrinfo *it = found; it != NULL && !is_open && !is_late(connection); it = it->ai_next) {
    is_open = open_socket(connection, it) && is_connected(connection, it);
    if (!is_open) {
      otel_private_disconnect(connection);
    }
  }
  freeaddrinfo(found);
  return is_open;
}

bool otel_private_send(otel_private_connection *connection, const char *bytes, size_t length) {
#ifdef MSG_NOSIGNAL
  const int flags = MSG_NOSIGNAL;
#else
  const int flags = 0;
#endif
  while (length > 0) {
    ssize_t sent = send(connection->socket, bytes, length, flags);
    if (sent >= 0) {
      bytes += sent;
      length -= (size_t)sent;
      continue;
    }
    if (errno != EAGAIN && errno != EWOULDBLOCK && errno != EINTR) {
      connection->fault = strerror(errno);
      return false;
    }
    /* A collector may answer before it has read all, and then the rest is not wanted. */
    short ready = wait_for(connection, POLLOUT | POLLIN);
    if (ready == 0 || (ready & POLLIN) != 0) {
      return false;
    }
  }
  return true;
}

long otel_private_receive(otel_private_connection *connection, char *buffer, size_t room) {
  while (wait_for(connection, POLLIN) != 0) {
    ssize_t came = recv(connection->socket, buffer, room, 0);
    if (came >= 0) {
      return (long)came;
    }
    if (errno != EAGAIN && errno != EWOULDBLOCK && errno != EINTR) {
      connection->fault = strerror(errno);
      return -1;
    }
  }
  return -1;
}

void otel_private_disconnect(otel_private_connection *connection) {
  if (connection->socket >= 0) {
    connection->watch->note_socket(connection->watch->context, -1);
    close(connection->socket);
    connection->socket = -1;
  }
}

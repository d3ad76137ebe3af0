/* SPDX-License-Identifier: Apache-2.0 */
/* A library that goes before the C library's: looking for the address of a host takes long, and finds nothing. */
#include <netdb.h>
#include <unistd.h>

int getaddrinfo(const char *restrict host, const char *restrict port, const struct addrinfo *restrict wanted,
                struct addrinfo **restrict found) {
  (void)host, (void)port, (void)wanted, (void)found;
  sleep(30);
  return EAI_AGAIN;
}

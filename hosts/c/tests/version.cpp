// SPDX-License-Identifier: Apache-2.0
/* Looks whether a pipeline says so where the library is of another version than the headers: a function of this program
   stands in for the library's own, which is a shared one. */
#include "hold.hpp"

namespace {

std::uint32_t said_minor = OTEL_VERSION_MINOR;

bool opens() {
  try {
    otel::Pipeline pipeline("", 1);
    return true;
  } catch (const otel::Error &error) {
    hold(error.what() == std::string("the library otel_c is of version 0.99.7, which does not go together with "
                                     "otel.hpp of 0.1.0"),
         "an error names both versions");
    return false;
  }
}

} // namespace

extern "C" std::uint32_t otel_version(std::uint32_t *major, std::uint32_t *minor, std::uint32_t *patch) {
  *major = OTEL_VERSION_MAJOR;
  *minor = said_minor;
  *patch = 7;
  return OTEL_OK;
}

int main() {
  hold(opens(), "another patch goes together with the headers");
  said_minor = 99;
  hold(!opens(), "another minor version is refused");
  std::cout << "version: all is so\n";
  return 0;
}

// SPDX-License-Identifier: Apache-2.0
/* What otel.hpp hands to the library and takes from it: errors, attributes, moments and headers. */
#ifndef OTEL_VALUES_HPP
#define OTEL_VALUES_HPP

#include "otel.h"

#include <algorithm>
#include <chrono>
#include <cstddef>
#include <cstdint>
#include <initializer_list>
#include <list>
#include <new>
#include <optional>
#include <stdexcept>
#include <string>
#include <string_view>
#include <type_traits>
#include <utility>
#include <variant>
#include <vector>

namespace otel {

using Clock = std::chrono::system_clock;
using Moment = Clock::time_point;
using Steady = std::chrono::steady_clock;
using Headers = std::vector<std::pair<std::string, std::string>>;
using Identity = otel_span_identity;
using Numbers = otel_numbers;

enum class Kind : std::uint32_t {
  internal = OTEL_INTERNAL,
  server = OTEL_SERVER,
  client = OTEL_CLIENT,
  producer = OTEL_PRODUCER,
  consumer = OTEL_CONSUMER
};

enum class StatusCode : std::uint32_t { unset = OTEL_STATUS_UNSET, ok = OTEL_STATUS_OK, error = OTEL_STATUS_ERROR };

/* What went wrong in a call, with its status. */
class Error : public std::runtime_error {
public:
  Error(const char *call, std::uint32_t status)
      : std::runtime_error(std::string(call) + ": " + otel_status_text(status)), status_(status) {}

  std::uint32_t status() const noexcept { return status_; }

  /* The library is of another version than the headers. */
  static Error of_version(std::string_view library, std::string_view headers) {
    std::string text = "the library otel_c is of version ";
    text.append(library).append(", which does not go together with otel.hpp of ").append(headers);
    return Error(std::move(text), OTEL_FAILED);
  }

private:
  Error(std::string text, std::uint32_t status) : std::runtime_error(std::move(text)), status_(status) {}

  std::uint32_t status_;
};

/* An attribute, which views its key and its texts: they must stay until the call that it is given to. A null pointer to
   a text is an empty text; `nullptr` as it stands is no value. */
class Attribute {
public:
  using Texts = std::vector<std::string_view>;
  using Integers = std::vector<std::int64_t>;
  using Floats = std::vector<double>;
  using Bools = std::vector<bool>;
  /* The digits of an integer that has no place in 64 bits with a sign. It is a type of our own for another reason too:
     where all types of a variant are known to it, libstdc++ 12 faults when memory runs out while one is copied. */
  struct Digits {
    std::string text;
  };
  using Value = std::variant<std::string_view, std::int64_t, double, bool, Texts, Integers, Floats, Bools, Digits>;

  /* Whether every value of a type of integers has a place in 64 bits with a sign. */
  template <typename Number> static constexpr bool FITS = std::is_signed_v<Number> || sizeof(Number) < 8;

  Attribute(std::string_view key, std::string_view value) : key_(key), value_(value) {}
  Attribute(std::string_view key, const char *value)
      : key_(key), value_(std::string_view(value == nullptr ? "" : value)) {}
  Attribute(std::string_view key, std::nullptr_t) = delete;
  Attribute(std::string_view key, const std::string &value) : key_(key), value_(std::string_view(value)) {}
  Attribute(std::string_view key, Texts values) : key_(key), value_(std::move(values)) {}
  Attribute(std::string_view key, const std::vector<std::string> &values)
      : key_(key), value_(Texts(values.begin(), values.end())) {}
  Attribute(std::string_view key, Integers values) : key_(key), value_(std::move(values)) {}
  Attribute(std::string_view key, Floats values) : key_(key), value_(std::move(values)) {}
  Attribute(std::string_view key, Bools values) : key_(key), value_(std::move(values)) {}

  /* A list in braces, of items of one type. */
  template <typename Item, typename = std::enable_if_t<!std::is_same_v<Item, std::nullptr_t>>>
  Attribute(std::string_view key, std::initializer_list<Item> items) : key_(key), value_(list_of(items)) {}

  /* A truth value, or an integer of a type whose every value has a place in 64 bits with a sign. */
  template <typename Number, std::enable_if_t<std::is_integral_v<Number> && FITS<Number>, int> = 0>
  Attribute(std::string_view key, Number value)
      : key_(key), value_(static_cast<std::conditional_t<std::is_same_v<Number, bool>, bool, std::int64_t>>(value)) {}

  /* An integer such as a size. One that has no place there is the text of its digits, as OpenTelemetry maps it. */
  template <typename Number,
            std::enable_if_t<std::is_unsigned_v<Number> && sizeof(Number) == sizeof(std::uint64_t), long> = 0>
  Attribute(std::string_view key, Number value) : key_(key), value_(static_cast<std::int64_t>(value)) {
    if (value > static_cast<Number>(INT64_MAX)) {
      value_ = Digits{std::to_string(value)};
    }
  }

  /* A float of a type whose every value is a double. */
  template <typename Number,
            std::enable_if_t<std::is_floating_point_v<Number> && sizeof(Number) <= sizeof(double), int> = 0>
  Attribute(std::string_view key, Number value) : key_(key), value_(static_cast<double>(value)) {}

  Attribute(const Attribute &) = default;
  Attribute(Attribute &&) = default;
  Attribute &operator=(const Attribute &) = default;
  Attribute &operator=(Attribute &&) = default;
  /* Where this is inlined, GCC 12 warns of lists that the attribute does not have. */
  [[gnu::noinline]] ~Attribute() {}

  std::string_view key() const noexcept { return key_; }
  const Value &value() const noexcept { return value_; }

private:
  template <typename Item> static Value list_of(std::initializer_list<Item> items) {
    if constexpr (std::is_same_v<Item, bool>) {
      return Bools(items);
    } else if constexpr (std::is_integral_v<Item>) {
      static_assert(FITS<Item>, "a list has no integers without a place in 64 bits with a sign");
      return Integers(items.begin(), items.end());
    } else if constexpr (std::is_floating_point_v<Item>) {
      static_assert(sizeof(Item) <= sizeof(double), "a list has no floats that are no double");
      return Floats(items.begin(), items.end());
    } else {
      return Texts(items.begin(), items.end());
    }
  }

  std::string_view key_;
  Value value_;
};

using Attributes = std::vector<Attribute>;

/* A library that starts spans; without a name it is that of the pipeline itself. */
struct Tracer {
  std::uint64_t number = 0;
};

/* How a span starts. */
struct Start {
  Kind kind = Kind::internal;
  Attributes attributes = {};
  Tracer tracer = {};
  Moment moment = Clock::now();
};

namespace detail {

inline const std::uint8_t *bytes(std::string_view text) noexcept {
  /* A view of nothing may have no address, and the library wants one. */
  return reinterpret_cast<const std::uint8_t *>(text.data() == nullptr ? "" : text.data());
}

/* Where the items of a list lie. One without items may have no address, and the library wants one. */
template <typename Item> const Item *items(const std::vector<Item> &values) noexcept {
  static const Item none{};
  return values.empty() ? &none : values.data();
}

inline void must(const char *call, std::uint32_t status) {
  if (status != OTEL_OK) {
    throw Error(call, status);
  }
}

/* The nanoseconds since 1970, of a moment that is not before it. */
inline std::optional<std::uint64_t> number_of(Moment moment) noexcept {
  auto count = std::chrono::duration_cast<std::chrono::nanoseconds>(moment.time_since_epoch()).count();
  return count < 0 ? std::nullopt : std::optional<std::uint64_t>(static_cast<std::uint64_t>(count));
}

inline std::uint64_t nanoseconds(Moment moment) {
  std::optional<std::uint64_t> number = number_of(moment);
  return number ? *number : throw Error("a moment before 1970", OTEL_BAD_ARGUMENT);
}

/* Attributes as otel.h takes them, with the memory that lists of texts and of truth values take there. */
class Handed {
public:
  Handed(const Attribute *attributes, std::size_t count) {
    made_.reserve(count);
    for (const Attribute *it = attributes; it != attributes + count; it++) {
      made_.push_back(otel_attribute_of(bytes(it->key()), it->key().size()));
      std::visit(*this, it->value());
    }
  }
  explicit Handed(const Attributes &attributes) : Handed(attributes.data(), attributes.size()) {}

  const otel_attribute *data() const noexcept { return items(made_); }
  std::size_t size() const noexcept { return made_.size(); }

  /* Each sets the value of the last one. */
  void operator()(std::string_view value) { set_bytes(OTEL_TEXT, value); }
  void operator()(const Attribute::Digits &value) { set_bytes(OTEL_TEXT, value.text); }
  void operator()(std::int64_t value) { of_kind(OTEL_INTEGER).integer = value; }
  void operator()(double value) { of_kind(OTEL_FLOAT).number = value; }
  void operator()(bool value) { of_kind(OTEL_BOOL).truth = value; }
  void operator()(const Attribute::Texts &values) {
    std::string &together = bytes_.emplace_back();
    std::vector<std::uint64_t> &lengths = lengths_.emplace_back();
    for (std::string_view value : values) {
      together += value;
      lengths.push_back(value.size());
    }
    set_bytes(OTEL_TEXTS, together);
    made_.back().lengths = items(lengths);
    made_.back().lengths_count = lengths.size();
  }
  void operator()(const Attribute::Integers &values) {
    of_kind(OTEL_INTEGERS).integers = items(values);
    made_.back().integers_count = values.size();
  }
  void operator()(const Attribute::Floats &values) {
    of_kind(OTEL_FLOATS).numbers = items(values);
    made_.back().numbers_count = values.size();
  }
  void operator()(const Attribute::Bools &values) {
    set_bytes(OTEL_BOOLS, bytes_.emplace_back(values.begin(), values.end()));
  }

private:
  otel_attribute &of_kind(otel_value_kind kind) {
    made_.back().kind = kind;
    return made_.back();
  }
  void set_bytes(otel_value_kind kind, std::string_view value) {
    of_kind(kind).bytes = bytes(value);
    made_.back().bytes_length = value.size();
  }

  std::vector<otel_attribute> made_;
  std::list<std::string> bytes_;
  std::list<std::vector<std::uint64_t>> lengths_;
};

/* Has a call write into a text, which grows to what it needs, and is empty where the call fails. */
template <typename Write> std::uint32_t written(std::string &text, Write write) {
  std::size_t length = 0;
  std::uint32_t status = OTEL_OK;
  text.resize(1024);
  while ((status = write(reinterpret_cast<std::uint8_t *>(text.data()), text.size(), &length)) ==
         OTEL_BUFFER_TOO_SMALL) {
    text.resize(length);
  }
  text.resize(status == OTEL_OK ? length : 0);
  return status;
}

/* Takes all lines out of a pipeline. Where there is no memory for more, those that were taken are handed out. */
inline std::uint32_t drain(otel_handle *handle, std::string &lines) {
  std::size_t used = 0, length = 0;
  std::uint32_t status = OTEL_OK;
  try {
    lines.resize(1024);
    do {
      status =
          otel_drain_some(handle, reinterpret_cast<std::uint8_t *>(lines.data()) + used, lines.size() - used, &length);
      if (status == OTEL_BUFFER_TOO_SMALL) {
        lines.resize(std::max(used + length, lines.size() * 2));
      } else if (status == OTEL_OK) {
        used += length;
      }
    } while (status == OTEL_BUFFER_TOO_SMALL || (status == OTEL_OK && length > 0));
  } catch (const std::bad_alloc &) {
    status = OTEL_OUT_OF_MEMORY;
  }
  lines.resize(std::min(used, lines.size()));
  return used > 0 ? static_cast<std::uint32_t>(OTEL_OK) : status;
}

/* The lines of a text, each of which ends in a line feed. */
inline std::vector<std::string> lines_of(std::string_view text) {
  std::vector<std::string> lines;
  for (std::size_t begin = 0, end; begin < text.size(); begin = end + 1) {
    end = std::min(text.find('\n', begin), text.size());
    lines.emplace_back(text.substr(begin, end - begin));
  }
  return lines;
}

/* The headers of a name, in whatever case, with commas between them. */
inline std::string header(const Headers &headers, std::string_view name) {
  auto lower = [](char letter) { return letter >= 'A' && letter <= 'Z' ? static_cast<char>(letter + 32) : letter; };
  auto same = [lower](char left, char right) { return lower(left) == lower(right); };
  std::string found;
  bool is_found = false;
  for (const auto &[other, value] : headers) {
    if (std::equal(name.begin(), name.end(), other.begin(), other.end(), same)) {
      found += (is_found ? "," : "") + value;
      is_found = true;
    }
  }
  return found;
}

/* The headers that name the span of another process, or one of this that has ended. */
struct RemoteView {
  std::string_view traceparent, tracestate, baggage;
};

/* What headers say about the span of another process. */
struct Remote {
  std::string traceparent, tracestate, baggage;

  Remote() = default;
  explicit Remote(const Headers &headers)
      : traceparent(header(headers, "traceparent")), tracestate(header(headers, "tracestate")),
        baggage(header(headers, "baggage")) {}

  RemoteView view() const noexcept { return {traceparent, tracestate, baggage}; }
};

/* The headers of lines that end in a carriage return and a line feed. */
inline Headers headers_of(std::string_view lines) {
  Headers headers;
  while (!lines.empty()) {
    std::string_view line = lines.substr(0, lines.find("\r\n"));
    std::size_t colon = line.find(": ");
    headers.emplace_back(line.substr(0, colon), line.substr(colon + 2));
    lines.remove_prefix(line.size() + 2);
  }
  return headers;
}

} // namespace detail

} // namespace otel

#endif

// SPDX-License-Identifier: Apache-2.0
/* The spans of otel.hpp. */
#ifndef OTEL_SPAN_HPP
#define OTEL_SPAN_HPP

#include "otel_shared.hpp"

#include <array>
#include <atomic>
#include <exception>

namespace otel {

namespace detail {

/* What a span begins with, beside its parent. */
struct Beginning {
  std::string_view name;
  const Start &start;
  std::uint64_t moment;
};

inline std::uint32_t start_here(otel_handle *handle, std::uint64_t parent, const Beginning &beginning,
                                std::uint64_t *key) {
  const auto &[name, start, moment] = beginning;
  Handed handed(start.attributes);
  return otel_start_with(handle, start.tracer.number, parent, static_cast<std::uint32_t>(start.kind), bytes(name),
                         name.size(), moment, handed.data(), handed.size(), key);
}

inline std::uint32_t start_remote(otel_handle *handle, const RemoteView &remote, const Beginning &beginning,
                                  std::uint64_t *key) {
  const auto &[name, start, moment] = beginning;
  const auto &[parent, state, baggage] = remote;
  Handed handed(start.attributes);
  return otel_start_remote_with(handle, start.tracer.number, bytes(parent), parent.size(), bytes(state), state.size(),
                                bytes(baggage), baggage.size(), static_cast<std::uint32_t>(start.kind), bytes(name),
                                name.size(), moment, handed.data(), handed.size(), key);
}

inline std::uint32_t link_remote(otel_handle *handle, std::uint64_t key, const RemoteView &remote,
                                 const Handed &handed) {
  const auto &[parent, state, baggage] = remote;
  return otel_add_remote_link_with(handle, key, bytes(parent), parent.size(), bytes(state), state.size(), handed.data(),
                                   handed.size());
}

/* Who a span is, and what it hands on where it is not open, or not in this process. */
class Kept {
public:
  Identity identity{};

  /* Keeps what an open span hands on. Where that cannot be had, its trace state and its baggage are left out. */
  std::uint32_t keep(otel_handle *handle, std::uint64_t key) noexcept {
    std::uint32_t status = OTEL_OK;
    try {
      std::string lines;
      status = written(lines, [handle, key](auto... buffer) { return otel_inject(handle, key, buffer...); });
      headers_ = Remote(headers_of(lines));
    } catch (...) {
      status = OTEL_OUT_OF_MEMORY;
    }
    if (status != OTEL_OK) {
      headers_ = Remote();
    }
    return status;
  }

  /* Keeps what headers say, as they are. */
  void pass(Remote headers) noexcept { headers_ = std::move(headers); }

  /* Under the lock. */
  RemoteView view() const noexcept { return {traceparent(), headers_.tracestate, headers_.baggage}; }

  Headers headers() const {
    Headers headers;
    for (const auto &[name, value] : {std::pair("traceparent", view().traceparent),
                                      {"tracestate", view().tracestate},
                                      {"baggage", view().baggage}}) {
      if (!value.empty()) {
        headers.emplace_back(name, value);
      }
    }
    return headers;
  }

private:
  static unsigned long long number(std::uint64_t id) noexcept { return id; }

  /* By the identity, which needs no memory, where there is one. */
  std::string_view traceparent() const noexcept {
    if ((identity.trace_id_high | identity.trace_id_low) == 0) {
      return headers_.traceparent;
    }
    int length = std::snprintf(traceparent_.data(), traceparent_.size(), "00-%016llx%016llx-%016llx-%02x",
                               number(identity.trace_id_high), number(identity.trace_id_low), number(identity.span_id),
                               identity.trace_flags & 0xff);
    return {traceparent_.data(), static_cast<std::size_t>(std::max(length, 0))};
  }

  mutable std::array<char, 56> traceparent_{};
  Remote headers_;
};

} // namespace detail

/* Work that is traced. Where it goes out of scope it ends, with the moment of the clock; where that is since an
   exception leaves the scope, the span is an error, with an event `exception`.

   One that could not start, or starts after a shutdown, records nothing, and its children are those of its parent,
   which it passes on. One that was moved away does nothing. */
class Span {
public:
  Span(Span &&other) noexcept { take(other); }
  Span &operator=(Span &&other) noexcept {
    if (this != &other) {
      leave();
      take(other);
    }
    return *this;
  }
  ~Span() { leave(); }

  /* The key of a span that is open, or else 0. */
  std::uint64_t key() const noexcept { return standing_ == Standing::open ? key_ : 0; }

  /* Who the span is, also after its end; where it could not start, who its parent is. */
  Identity identity() const noexcept { return kept_.identity; }

  /* A child, also of a span that has ended. */
  Span child(std::string_view name, const Start &start = {}) const noexcept {
    Span span(shared_);
    auto starts = [this](otel_handle *handle, const detail::Beginning &beginning, std::uint64_t *key) {
      std::uint32_t status = OTEL_NO_SUCH_SPAN;
      if (standing_ == Standing::open) {
        status = detail::start_here(handle, key_, beginning, key);
      }
      /* After its end, and in a child process of the one that has it. */
      return status == OTEL_NO_SUCH_SPAN ? detail::start_remote(handle, kept_.view(), beginning, key) : status;
    };
    auto stands_for_parent = [this, &span](otel_handle *handle) {
      span.kept_.identity = kept_.identity;
      if (standing_ == Standing::open) {
        span.kept_.keep(handle, key_);
      } else {
        span.kept_ = kept_;
      }
    };
    span.begin("otel_start", {name, start, 0}, starts, stands_for_parent);
    return span;
  }

  template <typename Value, std::enable_if_t<std::is_constructible_v<Attribute, std::string_view, Value>, int> = 0>
  void set(std::string_view key, Value &&value) noexcept {
    edit("otel_set_attributes", [&](otel_handle *handle) {
      Attribute attribute(key, std::forward<Value>(value));
      detail::Handed handed(&attribute, 1);
      return otel_set_attributes_with(handle, key_, handed.data(), handed.size());
    });
  }
  /* A list in braces, of items of one type. */
  template <typename Item, std::enable_if_t<!std::is_same_v<Item, std::nullptr_t>, int> = 0>
  void set(std::string_view key, std::initializer_list<Item> items) noexcept {
    set<std::initializer_list<Item>>(key, std::move(items));
  }
  void set(const Attributes &attributes) noexcept {
    edit_with(attributes, "otel_set_attributes", [&](otel_handle *handle, const detail::Handed &handed) {
      return otel_set_attributes_with(handle, key_, handed.data(), handed.size());
    });
  }

  void add_event(std::string_view name, const Attributes &attributes = {}, Moment moment = Clock::now()) noexcept {
    std::uint64_t when = near(moment);
    edit_with(attributes, "otel_add_event", [&](otel_handle *handle, const detail::Handed &handed) {
      return otel_add_event_with(handle, key_, detail::bytes(name), name.size(), when, handed.data(), handed.size());
    });
  }

  void record_exception(std::string_view type, std::string_view message, std::string_view stacktrace = {},
                        Moment moment = Clock::now()) noexcept {
    std::uint64_t when = near(moment);
    edit("otel_record_exception", [&](otel_handle *handle) {
      return otel_record_exception(handle, key_, detail::bytes(type), type.size(), detail::bytes(message),
                                   message.size(), detail::bytes(stacktrace), stacktrace.size(), when);
    });
  }

  /* A link to another span, also to one that has ended, or of another pipeline. */
  void add_link(const Span &linked, const Attributes &attributes = {}) noexcept {
    if (linked.shared_ != shared_) {
      return add_link(linked.inject(), attributes);
    }
    edit_with(attributes, "otel_add_link", [&](otel_handle *handle, const detail::Handed &handed) {
      return linked.standing_ == Standing::open
                 ? otel_add_link_with(handle, key_, linked.key_, handed.data(), handed.size())
                 : detail::link_remote(handle, key_, linked.kept_.view(), handed);
    });
  }
  void add_link(const Headers &headers, const Attributes &attributes = {}) noexcept {
    edit_with(attributes, "otel_add_remote_link", [&](otel_handle *handle, const detail::Handed &handed) {
      detail::Remote remote(headers);
      return detail::link_remote(handle, key_, remote.view(), handed);
    });
  }

  void set_status(StatusCode code, std::string_view description = {}) noexcept {
    edit("otel_set_status", [&](otel_handle *handle) {
      return otel_set_status(handle, key_, static_cast<std::uint32_t>(code), detail::bytes(description),
                             description.size());
    });
  }

  void update_name(std::string_view name) noexcept {
    edit("otel_update_name",
         [&](otel_handle *handle) { return otel_update_name(handle, key_, detail::bytes(name), name.size()); });
  }

  /* The headers that hand the span on to another process, also after its end and that of the pipeline. */
  Headers inject() const noexcept {
    Headers headers;
    attempt("otel_inject", [&](otel_handle *handle) -> std::uint32_t {
      std::uint32_t status = OTEL_NO_SUCH_SPAN;
      if (standing_ == Standing::open) {
        std::string lines;
        status = detail::written(lines, [&](auto... buffer) { return otel_inject(handle, key_, buffer...); });
        if (status == OTEL_OK) {
          headers = detail::headers_of(lines);
          return status;
        }
      }
      headers = kept_.headers();
      return status == OTEL_NO_SUCH_SPAN ? static_cast<std::uint32_t>(OTEL_OK) : status;
    });
    return headers;
  }

  void end() noexcept { end_at(Clock::now()); }
  /* Ends the span. Where that fails it is abandoned, so that no span stays open for ever. */
  void end_at(Moment moment) noexcept { finish(moment, true); }
  void abandon() noexcept {
    edit("otel_abandon", [this](otel_handle *handle) {
      std::uint32_t kept = keep(handle), status = otel_abandon(handle, key_);
      return status != OTEL_OK ? status : kept;
    });
  }

private:
  friend class Starter;

  enum class Standing { unstarted, open, over };

  explicit Span(detail::SharedHandle shared) noexcept : shared_(std::move(shared)) {}

  template <typename Calls> void attempt(const char *name, Calls calls) const noexcept {
    if (shared_ != nullptr) {
      shared_->attempt(name, calls);
    }
  }

  /* Whether the span is nobody, as one that starts after a shutdown. */
  bool is_nobody() const noexcept {
    const Identity &identity = kept_.identity;
    return shared_->is_shut_down && (identity.trace_id_high | identity.trace_id_low) == 0;
  }

  /* Starts the span. Where that fails, or it is nobody, it stays unstarted, and something is done instead. */
  template <typename Starts, typename Instead>
  void begin(const char *call, detail::Beginning beginning, Starts starts, Instead instead) noexcept {
    beginning.moment = near(beginning.start.moment);
    attempt(call, [&](otel_handle *handle) -> std::uint32_t {
      std::uint32_t status = OTEL_OUT_OF_MEMORY;
      try {
        status = starts(handle, beginning, &key_);
      } catch (const std::bad_alloc &) {
      }
      bool is_started = status == OTEL_OK;
      if (is_started) {
        status = otel_identity(handle, key_, &kept_.identity);
      }
      if (status == OTEL_OK && !is_nobody()) {
        standing_ = Standing::open;
        return status;
      }
      if (is_started) {
        otel_abandon(handle, key_);
      }
      instead(handle);
      return status;
    });
  }
  void begin_root(std::string_view name, const Start &start) noexcept {
    auto starts = [](otel_handle *handle, const detail::Beginning &beginning, std::uint64_t *key) {
      return detail::start_here(handle, 0, beginning, key);
    };
    begin("otel_start", {name, start, 0}, starts, [](otel_handle *) {});
  }
  /* Where it cannot start it stands for its parent in another process. */
  void begin_remote(const Headers &headers, std::string_view name, const Start &start) noexcept {
    detail::Remote parent;
    auto starts = [&](otel_handle *handle, const detail::Beginning &beginning, std::uint64_t *key) {
      parent = detail::Remote(headers);
      return detail::start_remote(handle, parent.view(), beginning, key);
    };
    begin("otel_start_remote", {name, start, 0}, starts, [&](otel_handle *) { kept_.pass(std::move(parent)); });
  }

  /* A change of a span that did start; after its end that is a failure. */
  template <typename Calls> void edit(const char *name, Calls calls) noexcept {
    attempt(name, [&](otel_handle *handle) -> std::uint32_t {
      return standing_ == Standing::unstarted ? static_cast<std::uint32_t>(OTEL_OK) : calls(handle);
    });
  }
  template <typename Calls> void edit_with(const Attributes &attributes, const char *name, Calls calls) noexcept {
    edit(name, [&](otel_handle *handle) { return calls(handle, detail::Handed(attributes)); });
  }

  std::uint64_t near(Moment moment) const noexcept { return shared_ == nullptr ? 0 : shared_->near(moment); }

  /* Keeps who the span is, before its end. */
  std::uint32_t keep(otel_handle *handle) noexcept {
    if (standing_ == Standing::over) {
      return OTEL_OK;
    }
    std::uint32_t status = kept_.keep(handle, key_);
    standing_ = Standing::over;
    return status;
  }

  void finish(Moment moment, bool has_children_yet) noexcept {
    std::uint64_t when = near(moment);
    edit("otel_end", [&](otel_handle *handle) {
      std::uint32_t kept = has_children_yet ? keep(handle) : static_cast<std::uint32_t>(OTEL_OK);
      std::uint32_t status = otel_end(handle, key_, when);
      if (status != OTEL_OK) {
        otel_abandon(handle, key_);
      }
      standing_ = Standing::over;
      return status != OTEL_OK ? status : kept;
    });
  }

  void leave() noexcept {
    if (shared_ == nullptr || standing_ != Standing::open) {
      return;
    }
    if (std::uncaught_exceptions() > exceptions_) {
      record_exception({}, "an exception left the scope of the span");
      set_status(StatusCode::error);
    }
    finish(Clock::now(), false);
  }

  void take(Span &other) noexcept {
    shared_ = std::move(other.shared_);
    key_ = other.key_;
    standing_ = other.standing_.exchange(Standing::unstarted);
    exceptions_ = std::uncaught_exceptions();
    kept_ = std::exchange(other.kept_, detail::Kept());
  }

  detail::SharedHandle shared_;
  std::uint64_t key_ = 0;
  /* Another value comes under the lock alone. */
  std::atomic<Standing> standing_{Standing::unstarted};
  /* How many exceptions were on their way when the span came to this place. */
  int exceptions_ = std::uncaught_exceptions();
  /* Who it was, once it is over; who its parent is, where it could not start. */
  detail::Kept kept_;
};

} // namespace otel

#endif

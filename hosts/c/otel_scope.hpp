// SPDX-License-Identifier: Apache-2.0
/* The current span of a thread, and what starts spans. */
#ifndef OTEL_SCOPE_HPP
#define OTEL_SCOPE_HPP

#include "otel_span.hpp"

namespace otel {

/* While it is there its span is the current one of the thread: the parent of spans that the same pipeline or service
   starts in this thread without another parent. Scopes of a thread may stand within one another.

     otel::Scope scope(service.start("GET /cart"));
     otel::Span child = service.start("ask stock");

   It ends a span that it was given as a whole, as here. One that it was only shown is to stay where it is, as long as
   the scope is there. A scope stays in its thread. */
class [[nodiscard]] Scope {
public:
  explicit Scope(const Span &span) noexcept : span_(&span), before_(innermost_) { innermost_ = this; }
  explicit Scope(Span &&span) noexcept : own_(std::move(span)), span_(&*own_), before_(innermost_) {
    innermost_ = this;
  }
  Scope(const Scope &) = delete;
  Scope &operator=(const Scope &) = delete;
  ~Scope() {
    const Scope **at = &innermost_;
    while (*at != nullptr && *at != this) {
      at = &(*at)->before_;
    }
    if (*at == this) {
      *at = before_;
    }
  }

  /* The span that it was given as a whole, to set attributes and the like. Of one that it was shown there is none. */
  Span *operator->() noexcept { return own_ ? &*own_ : nullptr; }

  /* The current span of this thread; null where there is none. */
  static const Span *current() noexcept { return innermost_ == nullptr ? nullptr : innermost_->span_; }

private:
  friend class Starter;

  static inline thread_local const Scope *innermost_ = nullptr;

  std::optional<Span> own_;
  const Span *span_;
  mutable const Scope *before_;
};

/* What starts spans: a pipeline or a service. Starts throw nothing; what fails is counted. */
class Starter {
public:
  Tracer tracer(std::string_view name, std::string_view version = {}, std::string_view schema_url = {}) {
    Tracer tracer;
    shared().must("otel_tracer", [&](otel_handle *handle) {
      return otel_tracer(handle, detail::bytes(name), name.size(), detail::bytes(version), version.size(),
                         detail::bytes(schema_url), schema_url.size(), &tracer.number);
    });
    return tracer;
  }

  /* A child of the thread's current span, where it has one of this pipeline or service, and else a root. Where it
     cannot start it records nothing. */
  Span start(std::string_view name, const Start &start = {}) const noexcept {
    for (const Scope *it = Scope::innermost_; it != nullptr; it = it->before_) {
      if (shared_ != nullptr && it->span_->shared_ == shared_) {
        return it->span_->child(name, start);
      }
    }
    return start_root(name, start);
  }
  /* A root, whatever the current span is. */
  Span start_root(std::string_view name, const Start &start = {}) const noexcept {
    Span span(shared_);
    span.begin_root(name, start);
    return span;
  }
  /* A child of the span of another process, which the headers name; without a valid traceparent a root. Where it cannot
     start it passes the headers on. */
  Span start_remote(const Headers &headers, std::string_view name, const Start &start = {}) const noexcept {
    Span span(shared_);
    span.begin_remote(headers, name, start);
    return span;
  }

  /* How many calls of spans failed, which throw nothing. */
  std::uint64_t failed_calls() const noexcept { return shared_ == nullptr ? 0 : shared_->failed_calls(); }
  /* Why the last of them failed. */
  std::optional<Error> last_failure() const { return shared_ == nullptr ? std::nullopt : shared_->last_failure(); }

protected:
  explicit Starter(detail::SharedHandle shared) noexcept : shared_(std::move(shared)) {}
  Starter(Starter &&) noexcept = default;
  Starter &operator=(Starter &&) noexcept = default;
  ~Starter() = default;

  detail::Shared &shared() const {
    return shared_ == nullptr ? throw Error("a pipeline that was moved away", OTEL_CLOSED) : *shared_;
  }

  detail::SharedHandle shared_;
};

} // namespace otel

#endif

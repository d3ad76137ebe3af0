// SPDX-License-Identifier: Apache-2.0
/* OpenTelemetry's trace pipeline, proved, for C++17: the calls of otel.h, whose comments say what each does, with
   pipelines and spans that end themselves.

   Calls of a span, and those that start one, throw nothing: what fails is counted by Pipeline::failed_calls, and
   Pipeline::last_failure says why. Other calls of a pipeline throw otel::Error, and then have changed nothing. What
   builds the arguments of a call is the caller's, and may throw for want of memory.

   Threads may share a pipeline and its spans: each call takes the pipeline's lock. To move a span or a pipeline, or to
   destroy it, is for one thread alone. No handler of a signal may call them. After a fork all pipelines are the
   parent's: calls on them in the child are refused and counted, and the child opens one of its own. */
#ifndef OTEL_HPP
#define OTEL_HPP

#include "otel_scope.hpp"

#include <random>

namespace otel {

/* A seed for a pipeline, which no other process has. */
inline std::uint64_t random_seed() {
  std::random_device device;
  return static_cast<std::uint64_t>(device()) << 32 | device();
}

/* A pipeline. Its settings are those of otel_open; the resource says by telemetry.sdk.name, .version and .language that
   the SDK is this package, unless a setting says others. Where it goes out of scope it is closed: open spans are
   abandoned, and lines that nobody drained are lost, which a notice says; so call shutdown() and drain() before.

   A notice is a line of text, about the first spans that were dropped, the first batch that was not exported, and what
   was lost at the end; of each there is at most one a minute. It goes to standard error, or to what on_notice() is
   given. */
class Pipeline : public Starter {
public:
  explicit Pipeline(std::string_view settings, std::uint64_t seed = random_seed())
      : Pipeline(std::make_shared<detail::Owned>()) {
    std::string lines = detail::with_sdk(settings);
    detail::must_be_of_this_version();
    must("otel_open", [&](otel_handle *handle) { return otel_open(handle, detail::bytes(lines), lines.size(), seed); });
  }
  Pipeline(Pipeline &&) noexcept = default;
  Pipeline &operator=(Pipeline &&other) noexcept {
    if (this != &other) {
      leave();
      Starter::operator=(std::move(other));
      owned_ = std::move(other.owned_);
    }
    return *this;
  }
  ~Pipeline() { leave(); }

  /* The names of the settings that were ignored. */
  std::vector<std::string> ignored_settings() const {
    std::string lines;
    must("otel_ignored_settings", [&](otel_handle *handle) {
      return detail::written(lines, [&](auto... buffer) { return otel_ignored_settings(handle, buffer...); });
    });
    return detail::lines_of(lines);
  }

  /* Has notices go there, from any thread that is in a call of the pipeline; without a function to standard error. */
  void on_notice(Notice notice) { owned().on_notice(std::move(notice)); }

  void flush() { look_after("otel_flush", otel_flush); }
  /* Exports what is due, by a clock that never goes back: not that of the spans' moments, which is set now and then. */
  void run(Steady::time_point moment = Steady::now()) {
    auto count = std::chrono::duration_cast<std::chrono::nanoseconds>(moment.time_since_epoch()).count();
    std::uint64_t when = static_cast<std::uint64_t>(std::max<decltype(count)>(count, 0));
    look_after("otel_run", [when](otel_handle *handle) { return otel_run(handle, when); });
  }
  /* All lines that were exported. Where memory runs out on the way it hands out those before; the next call has the
     others. */
  std::string drain() {
    std::string lines;
    must("otel_drain_some", [&](otel_handle *handle) { return detail::drain(handle, lines); });
    return lines;
  }
  Numbers count() const {
    Numbers numbers;
    must("otel_count", [&](otel_handle *handle) { return otel_count(handle, &numbers, sizeof numbers); });
    return numbers;
  }
  void shutdown() {
    owned().is_shut_down = true;
    look_after("otel_shutdown", otel_shutdown);
  }
  void close() { detail::must("otel_close", owned().close()); }

private:
  explicit Pipeline(std::shared_ptr<detail::Owned> owned) noexcept : Starter(owned), owned_(std::move(owned)) {}

  detail::Owned &owned() const {
    shared();
    return *owned_;
  }

  template <typename Calls> void must(const char *name, Calls calls) const { shared().must(name, calls); }

  template <typename Calls> void look_after(const char *name, Calls calls) {
    detail::Owned &it = owned();
    try {
      it.must(name, calls);
    } catch (const Error &) {
      it.look();
      throw;
    }
    it.look();
  }

  void leave() noexcept {
    if (owned_ != nullptr) {
      owned_->close();
    }
  }

  std::shared_ptr<detail::Owned> owned_;
};

} // namespace otel

#endif

// SPDX-License-Identifier: Apache-2.0
/* What a pipeline of otel.hpp and its spans share: the handle behind a lock, a count of calls that failed without an
   error being thrown, and the word that is said when spans are lost. */
#ifndef OTEL_SHARED_HPP
#define OTEL_SHARED_HPP

#include "otel_values.hpp"

#include <atomic>
#include <cstdio>
#include <functional>
#include <memory>
#include <mutex>
#include <new>
#include <optional>

#if __has_include(<pthread.h>)
#include <pthread.h>
#endif

namespace otel {

/* Takes a notice: a line without its end. */
using Notice = std::function<void(const std::string &)>;

#define OTEL_DIGITS(number) #number
#define OTEL_DIGITS_OF(number) OTEL_DIGITS(number)
/* The version of this package, which is that of otel.h. */
inline constexpr std::string_view VERSION =
    OTEL_DIGITS_OF(OTEL_VERSION_MAJOR) "." OTEL_DIGITS_OF(OTEL_VERSION_MINOR) "." OTEL_DIGITS_OF(OTEL_VERSION_PATCH);
#undef OTEL_DIGITS_OF
#undef OTEL_DIGITS

namespace detail {

/* The settings, with what the resource says of the SDK, which OpenTelemetry asks of each that is not its own. Of two
   attributes the later counts, so the user's. */
inline std::string with_sdk(std::string_view settings) {
  constexpr std::string_view name = "OTEL_RESOURCE_ATTRIBUTES=";
  std::string about = std::string(name) + "telemetry.sdk.name=otel_proved,telemetry.sdk.language=cpp,";
  about.append("telemetry.sdk.version=").append(VERSION);
  std::string lines;
  bool is_said = false;
  while (!settings.empty()) {
    std::string_view line = settings.substr(0, settings.find('\n'));
    bool is_ours = line.substr(0, name.size()) == name;
    lines += is_ours ? about + "," + std::string(line.substr(name.size())) : std::string(line);
    lines += '\n';
    is_said = is_said || is_ours;
    settings.remove_prefix(std::min(line.size() + 1, settings.size()));
  }
  return is_said ? lines : lines + about + '\n';
}

/* What a notice may be about; of each there is at most one a minute. */
enum class About { drops, batches, end };

/* Says what matters, and not often. */
class Notices {
public:
  void set(Notice notice) {
    std::lock_guard<std::mutex> lock(mutex_);
    notice_ = std::move(notice);
  }

  /* Hands a notice to whoever takes them, or to standard error. What that throws goes no further. */
  void say(About about, const char *what, std::uint64_t count) noexcept {
    try {
      std::string text = what + (": " + std::to_string(count));
      std::optional<Notice> notice = due(about);
      if (notice && *notice) {
        (*notice)(text);
      } else if (notice) {
        std::fprintf(stderr, "otel_proved: %s\n", text.c_str());
      }
    } catch (...) {
    }
  }

private:
  std::optional<Notice> due(About about) {
    std::lock_guard<std::mutex> lock(mutex_);
    Steady::time_point now = Steady::now();
    std::optional<Steady::time_point> &next = next_[static_cast<std::size_t>(about)];
    if (next && now < *next) {
      return std::nullopt;
    }
    next = now + std::chrono::minutes(1);
    return notice_;
  }

  std::mutex mutex_;
  Notice notice_;
  std::optional<Steady::time_point> next_[3];
};

/* How many forks lie between this process and the one that began the program. */
inline std::atomic<unsigned> forks{0};
#if __has_include(<pthread.h>)
inline const bool hears_of_forks = pthread_atfork(nullptr, nullptr, [] { forks++; }) == 0;
#endif

/* A handle behind a lock, and how many calls on it failed. */
class Shared {
public:
  Shared() = default;
  Shared(const Shared &) = delete;
  Shared &operator=(const Shared &) = delete;
  virtual ~Shared() = default;

  /* Makes calls that no other thread comes between. They answer a status, which is thrown where it is an error. */
  template <typename Calls> void must(const char *name, Calls calls) {
    Held held(*this);
    if (held.handle == nullptr) {
      throw Error(FOREIGN, OTEL_CLOSED);
    }
    detail::must(name, calls(held.handle));
  }

  /* The same, but an error is counted. */
  template <typename Calls> void attempt(const char *name, Calls calls) noexcept {
    try {
      Held held(*this);
      if (held.handle == nullptr) {
        foreign_calls_++;
      } else {
        note(name, status_of(held.handle, calls));
      }
    } catch (...) { /* a mutex that the system cannot lock */
    }
  }

  /* A moment in nanoseconds. One that has no number counts as a failure, and now is meant. */
  std::uint64_t near(Moment moment) noexcept {
    std::optional<std::uint64_t> found = number_of(moment);
    if (!found) {
      attempt("a moment before 1970", [](otel_handle *) -> std::uint32_t { return OTEL_BAD_ARGUMENT; });
      found = number_of(Clock::now());
    }
    return found.value_or(0);
  }

  std::uint64_t failed_calls() {
    Held held(*this);
    return held.handle == nullptr ? foreign_calls_.load() : failed_calls_;
  }

  std::optional<Error> last_failure() {
    Held held(*this);
    if (held.handle == nullptr) {
      return foreign_calls_ == 0 ? std::nullopt : std::optional<Error>(Error(FOREIGN, OTEL_CLOSED));
    }
    return failed_calls_ == 0 ? std::nullopt : std::optional<Error>(Error(last_name_, last_status_));
  }

  /* Whether nobody is started any more. */
  std::atomic<bool> is_shut_down{false};

protected:
  /* Takes the lock, and answers the handle; null, without the lock, where that is another process's. */
  virtual otel_handle *lock() = 0;
  virtual void unlock() noexcept = 0;

private:
  static constexpr const char *FOREIGN = "a call on the pipeline of another process";

  /* The lock, as long as this is there. */
  struct Held {
    explicit Held(Shared &of) : shared(of), handle(of.lock()) {}
    Held(const Held &) = delete;
    ~Held() {
      if (handle != nullptr) {
        shared.unlock();
      }
    }
    Shared &shared;
    otel_handle *handle;
  };

  template <typename Calls> static std::uint32_t status_of(otel_handle *handle, Calls &calls) noexcept {
    try {
      return calls(handle);
    } catch (const Error &error) {
      return error.status();
    } catch (const std::bad_alloc &) {
      return OTEL_OUT_OF_MEMORY;
    } catch (...) {
      return OTEL_FAILED;
    }
  }

  void note(const char *name, std::uint32_t status) noexcept {
    if (status != OTEL_OK) {
      failed_calls_++;
      last_name_ = name;
      last_status_ = status;
    }
  }

  std::atomic<std::uint64_t> foreign_calls_{0};
  std::uint64_t failed_calls_ = 0;
  const char *last_name_ = "";
  std::uint32_t last_status_ = OTEL_OK;
};

/* A handle of its own. In a process made by a fork since, all here is the parent's and stays as it is: locks may have
   been held then. Calls are refused as on a pipeline that is closed. */
class Owned : public Shared {
public:
  ~Owned() override {
    if (!is_foreign()) {
      otel_close(&handle_);
    }
  }

  /* Says so where spans were dropped, refused or not exported since it looked last. */
  void look() noexcept {
    std::uint64_t dropped = 0, unkept = 0;
    if (is_foreign()) {
      return;
    }
    attempt("otel_count", [&](otel_handle *handle) -> std::uint32_t {
      otel_numbers numbers{};
      if (otel_count(handle, &numbers, sizeof numbers) == OTEL_OK) {
        std::uint64_t lost = numbers.dropped_spans + numbers.refused_spans;
        dropped = lost > seen_drops_ ? lost : 0;
        unkept = numbers.lost_spans > seen_unkept_ ? numbers.lost_spans : 0;
        seen_drops_ = lost;
        seen_unkept_ = numbers.lost_spans;
      }
      return OTEL_OK;
    });
    if (dropped > 0) {
      notices_.say(About::drops, "spans that are lost, since the queue was full or memory ran out", dropped);
    }
    if (unkept > 0) {
      notices_.say(About::batches, "spans of batches that were not exported, and are lost", unkept);
    }
  }

  /* Closes the handle, and says what is lost with it. */
  std::uint32_t close() noexcept {
    std::uint32_t status = OTEL_CLOSED;
    std::uint64_t lost = 0;
    if (is_foreign()) {
      return status;
    }
    attempt("otel_shutdown", [](otel_handle *handle) -> std::uint32_t {
      otel_shutdown(handle); /* an error says that it was shut down or closed before, or what look() finds */
      return OTEL_OK;
    });
    look();
    attempt("otel_close", [&](otel_handle *handle) -> std::uint32_t {
      otel_numbers numbers{};
      otel_count(handle, &numbers, sizeof numbers);
      lost = numbers.open_spans + numbers.waiting_spans + numbers.undrained_spans;
      status = otel_close(handle);
      return OTEL_OK;
    });
    if (lost > 0) {
      notices_.say(About::end, "spans that were open or not drained at the end, and are lost", lost);
    }
    return status;
  }

  void on_notice(Notice notice) {
    if (!is_foreign()) {
      notices_.set(std::move(notice));
    }
  }

protected:
  otel_handle *lock() override {
    if (is_foreign()) {
      return nullptr;
    }
    mutex_.lock();
    return &handle_;
  }
  void unlock() noexcept override { mutex_.unlock(); }

private:
  bool is_foreign() const noexcept { return forks_ != forks; }

  const unsigned forks_ = forks;
  Notices notices_;
  std::mutex mutex_;
  otel_handle handle_{};
  std::uint64_t seen_drops_ = 0, seen_unkept_ = 0;
};

/* Throws where the library is of another major or minor version than the headers. */
inline void must_be_of_this_version() {
  std::uint32_t major = 0, minor = 0, patch = 0;
  must("otel_version", otel_version(&major, &minor, &patch));
  if (major != OTEL_VERSION_MAJOR || minor != OTEL_VERSION_MINOR) {
    throw Error::of_version(std::to_string(major) + "." + std::to_string(minor) + "." + std::to_string(patch), VERSION);
  }
}

using SharedHandle = std::shared_ptr<Shared>;

} // namespace detail

} // namespace otel

#endif

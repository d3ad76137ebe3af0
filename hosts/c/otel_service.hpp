// SPDX-License-Identifier: Apache-2.0
/* A pipeline that looks after itself, for C++17: otel_service.h, whose comments say what happens, with the spans of
   otel.hpp. Link with otel_service, otel_c and -pthread.

   A child process made by fork has a service of its own in the place of its parent's, and needs no other. */
#ifndef OTEL_SERVICE_HPP
#define OTEL_SERVICE_HPP

#include "otel_scope.hpp"
#include "otel_service.h"

namespace otel {

using Milliseconds = std::chrono::milliseconds;
using ServiceNumbers = otel_service_numbers;

/* Why a service did not open, with its otel_service_status. */
class ServiceError : public std::runtime_error {
public:
  explicit ServiceError(std::uint32_t status)
      : std::runtime_error(std::string("otel_service_open: ") + otel_service_status_text(status)), status_(status) {}

  std::uint32_t status() const noexcept { return status_; }

private:
  std::uint32_t status_;
};

/* How a service works; see otel_service_options. */
struct ServiceOptions {
  /* Lines NAME=VALUE, in place of variables of the environment of the same names. */
  std::string settings = {};
  /* Where lines are posted to, with its path; empty for what the environment says. */
  std::string endpoint = {};
  /* Where notices go, from a thread of the service too; without a function to standard error. */
  Notice notice = {};
  /* How long the service may take to post what waits where it is destroyed, or the program ends. */
  Milliseconds exit_time{5000};
  bool closes_at_exit = false;
  Milliseconds interval{1000};
  Milliseconds request_time{10000};
  std::uint32_t tries = 8;
  Milliseconds first_wait{1000};
  Milliseconds longest_wait{60000};
  std::uint64_t waiting_bytes = 64 << 20;
  std::uint64_t waiting_lines = 4096;
};

namespace detail {

inline std::uint64_t milliseconds(Milliseconds time) noexcept {
  return static_cast<std::uint64_t>(std::max<Milliseconds::rep>(time.count(), 0));
}

/* The handle of a service, behind its lock. */
class Served : public Shared {
public:
  explicit Served(const ServiceOptions &options) : notice_(options.notice), exit_time_(options.exit_time) {
    otel_service_options plain = otel_service_options_of_defaults();
    plain.settings = options.settings.c_str();
    plain.endpoint = options.endpoint.empty() ? nullptr : options.endpoint.c_str();
    plain.language = "cpp";
    plain.notice = notice_ ? hand_on : nullptr;
    plain.notice_context = &notice_;
    plain.closes_at_exit = options.closes_at_exit;
    plain.exit_time = milliseconds(options.exit_time);
    plain.interval = milliseconds(options.interval);
    plain.request_time = milliseconds(options.request_time);
    plain.tries = options.tries;
    plain.first_wait = milliseconds(options.first_wait);
    plain.longest_wait = milliseconds(options.longest_wait);
    plain.waiting_bytes = options.waiting_bytes;
    plain.waiting_lines = options.waiting_lines;
    std::uint32_t status = otel_service_open(&service_, &plain);
    if (status != OTEL_SERVICE_OK) {
      throw ServiceError(status);
    }
  }
  ~Served() override { otel_service_free(service_); }

  otel_service *service() const noexcept { return service_; }
  Milliseconds exit_time() const noexcept { return exit_time_; }

protected:
  otel_handle *lock() override { return otel_service_lock(service_); }
  void unlock() noexcept override { otel_service_unlock(service_); }

private:
  /* What a notice throws goes no further. */
  static void hand_on(void *context, const char *text) {
    try {
      (*static_cast<const Notice *>(context))(text);
    } catch (...) {
    }
  }

  Notice notice_;
  Milliseconds exit_time_;
  otel_service *service_ = nullptr;
};

} // namespace detail

/* A service. Where it goes out of scope it is closed: it posts what waits, for as long as its options say.

   Spans start and end as those of a Pipeline do; threads may share them. */
class Service : public Starter {
public:
  /* Opens a service by the environment. Where that cannot be done it throws ServiceError. */
  static Service from_environment(const ServiceOptions &options = {}) {
    return Service(std::make_shared<detail::Served>(options));
  }
  Service(Service &&) noexcept = default;
  Service &operator=(Service &&other) noexcept {
    if (this != &other) {
      leave();
      Starter::operator=(std::move(other));
      served_ = std::move(other.served_);
    }
    return *this;
  }
  ~Service() { leave(); }

  /* The names of variables and settings that were ignored. */
  std::vector<std::string> ignored_settings() const {
    std::string lines(otel_service_ignored_settings(service(), nullptr, 0) + 1, '\0');
    lines.resize(std::min(otel_service_ignored_settings(service(), lines.data(), lines.size()), lines.size() - 1));
    return detail::lines_of(lines);
  }

  /* Exports all spans that have ended, and waits until they are posted or given up. False where the time ran out. */
  bool flush(Milliseconds time) { return otel_service_flush(service(), detail::milliseconds(time)) == OTEL_OK; }

  ServiceNumbers count() const {
    ServiceNumbers numbers{};
    detail::must("otel_service_count", otel_service_count(service(), &numbers, sizeof numbers));
    numbers.failed_calls = failed_calls();
    return numbers;
  }

  /* Posts what waits, as far as the time allows, and ends the thread. False where something was lost. */
  bool close(Milliseconds time) noexcept {
    return served_ != nullptr && otel_service_close(served_->service(), detail::milliseconds(time)) == OTEL_OK;
  }

private:
  explicit Service(std::shared_ptr<detail::Served> served) noexcept : Starter(served), served_(std::move(served)) {}

  otel_service *service() const {
    shared();
    return served_->service();
  }

  void leave() noexcept {
    if (served_ != nullptr) {
      close(served_->exit_time());
    }
  }

  std::shared_ptr<detail::Served> served_;
};

} // namespace otel

#endif

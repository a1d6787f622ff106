/// \file dmclock.hpp
/// The proved dmClock queue, service tracker and shard tracker for back ends in C++17: a header over dmclock.h, to link with libdmclock.
///
/// A server has a Queue, a client a Tracker. No call throws: a call that is refused has changed nothing and says why by its
/// Code. The one that throws is Result::value(), for callers who like exceptions.
///
///     dmclock::QueueConfig config = {1000};  // 1,000 ticks a second
///     config.shares = dmclock::Shares::Virtual;
///     auto queue = dmclock::Queue::make(config).value();
///     auto code = queue.register_client(client, {10, 1, std::nullopt}, now);
///     auto tags = queue.add_request(client, token, params, now);  // params of the client's tracker, or {delta, rho, cost}
///     auto pulled = queue.pull_request(now);
///     if (pulled && pulled->is_granted()) serve(pulled->client(), pulled->token());
///
/// One call at a time on one Queue, Tracker or ShardTracker. Each may move to another thread.
#ifndef DMCLOCK_HPP
#define DMCLOCK_HPP

#include "dmclock.h"

#include <cstddef>
#include <cstdint>
#include <cstdlib>
#include <functional>
#include <limits>
#include <optional>
#include <stdexcept>
#include <utility>

/// dmClock for storage back ends.
namespace dmclock {

/// What a call reports: that it is done, or why it is refused.
enum class Code : std::uint32_t {
  Ok = DMC_OK,                                  ///< done
  Memory = DMC_MEMORY,                          ///< an allocation failed
  NoneHeld = DMC_NONE_HELD,                     ///< the Queue, Tracker or ShardTracker is empty: it was moved from, or made by `{}`
  Held = DMC_HELD,                              ///< no call of this header reports it
  BadMoment = DMC_BAD_MOMENT,                   ///< a moment past 2^62
  BadParams = DMC_BAD_PARAMS,                   ///< a rho past its delta
  BadRate = DMC_BAD_RATE,                       ///< a rate of 0, or no such rate
  BadConfig = DMC_BAD_CONFIG,                   ///< a setting out of its limits
  BadPhase = DMC_BAD_PHASE,                     ///< a number that is no PhaseType
  Limit = DMC_LIMIT,                            ///< a tracker's servers, its shards or its `most` out of their limits
  BadCost = DMC_BAD_COST,                       ///< a cost of 0
  Known = DMC_KNOWN,                            ///< the client is registered already
  Unknown = DMC_UNKNOWN,                        ///< the client is not registered
  InexactReservation = DMC_INEXACT_RESERVATION, ///< the spacing hz/reservation is no value of the tags
  InexactWeight = DMC_INEXACT_WEIGHT,           ///< the spacing hz/weight is no value of the tags
  InexactLimit = DMC_INEXACT_LIMIT,             ///< the spacing hz/limit is no value of the tags
  Clients = DMC_CLIENTS,                        ///< 65,536 clients are registered
  QueueFull = DMC_QUEUE_FULL,                   ///< 2^20 requests are queued
  Range = DMC_RANGE,                            ///< a sum that the call needs is no value of the tags
  Busy = DMC_BUSY,            ///< an update gives or takes a reservation while the client has a queued request
  OverLimit = DMC_OVER_LIMIT, ///< with AtLimit::Reject: the request would wait for its client's limit longer than the threshold
  NoServer = DMC_NO_SERVER,   ///< the tracker has no such server, or no such shard
  TrackFull = DMC_TRACK_FULL, ///< a count of the tracker would pass its `most`, or a stamp's delta 2^32-1
  NotSent = DMC_NOT_SENT      ///< more is given back than was sent to the shard
};

/// A text for a code, such as "queue full".
inline const char *text(Code code) noexcept { return dmc_text(static_cast<std::uint32_t>(code)); }

/// Whether tags are whole ticks, for rates that divide hz, or fractions, for any rate.
enum class TagKind : std::uint32_t { Tick = DMC_TICK, Ratio = DMC_RATIO };

/// At the limit: a pull says when the next request is due, or grants the best by weight beyond its limit; or an add is refused
/// that would wait for its limit longer than QueueConfig::threshold.
enum class AtLimit : std::uint32_t { Wait = DMC_WAIT, Allow = DMC_ALLOW, Reject = DMC_REJECT };

/// How shares are compared: by the clock, as mClock does, or in the time of the service, in which what a client got before
/// others came is neither a credit nor a debt.
enum class Shares : std::uint32_t { Clock = DMC_CLOCK, Virtual = DMC_VIRTUAL };

/// Which completions a stamp counts: those at all servers, or the request itself and those at the others.
enum class Counting : std::uint32_t { All = DMC_ALL, Others = DMC_OTHERS };

/// Whether a request is granted by its client's reservation, or by weight.
enum class PhaseType : std::uint32_t { Reservation = DMC_RESERVATION, Priority = DMC_PRIORITY };

/// Ticks a second for rates that an operator typed: 1,344 rates divide it, every one from 1 to 18 among them.
inline constexpr std::uint32_t fine_hz = DMC_FINE_HZ;

/// A refusal as an exception, which Result::value() throws.
class Error : public std::runtime_error {
 public:
  /// The refusal of a code.
  explicit Error(Code code) : std::runtime_error(text(code)), code_(code) {}
  /// Why the call is refused.
  Code code() const noexcept { return code_; }

 private:
  Code code_;
};

/// What a call returns: a value, or the code of its refusal.
template <class T>
class [[nodiscard]] Result {
 public:
  /// Whether there is a value.
  bool ok() const noexcept { return code_ == Code::Ok; }
  /// Whether there is a value.
  explicit operator bool() const noexcept { return ok(); }
  /// Code::Ok, or why the call is refused.
  Code code() const noexcept { return code_; }

  /// The value, where ok() is true.
  const T &operator*() const & noexcept { return value_; }
  /// The value, where ok() is true.
  T &operator*() & noexcept { return value_; }
  /// The value, where ok() is true.
  T &&operator*() && noexcept { return std::move(value_); }
  /// A member of the value, where ok() is true.
  const T *operator->() const noexcept { return &value_; }
  /// A member of the value, where ok() is true.
  T *operator->() noexcept { return &value_; }

  /// The value; throws Error if there is none (and aborts if exceptions are switched off).
  const T &value() const & {
    check();
    return value_;
  }
  /// The value; throws Error if there is none (and aborts if exceptions are switched off).
  T &value() & {
    check();
    return value_;
  }
  /// The value; throws Error if there is none (and aborts if exceptions are switched off).
  T value() && {
    check();
    return std::move(value_);
  }

 private:
  friend struct Calls;
  Result() noexcept = default;
  void check() const {
    if (ok()) return;
#ifdef __cpp_exceptions
    throw Error(code_);
#else
    std::abort();
#endif
  }

  Code code_ = Code::Ok;
  T value_{};  // where the call is refused, it was not written
};

/// A number of one kind, which is not mixed up with another kind's.
template <class Kind, class Number>
class Strong {
 public:
  /// 0.
  constexpr Strong() noexcept = default;
  /// This number.
  constexpr explicit Strong(Number value) noexcept : value_(value) {}
  /// The number.
  constexpr Number value() const noexcept { return value_; }

  /// Compares the numbers.
  friend constexpr bool operator==(Kind a, Kind b) noexcept { return a.value() == b.value(); }
  /// Compares the numbers.
  friend constexpr bool operator!=(Kind a, Kind b) noexcept { return a.value() != b.value(); }
  /// Compares the numbers.
  friend constexpr bool operator<(Kind a, Kind b) noexcept { return a.value() < b.value(); }
  /// Compares the numbers.
  friend constexpr bool operator>(Kind a, Kind b) noexcept { return a.value() > b.value(); }
  /// Compares the numbers.
  friend constexpr bool operator<=(Kind a, Kind b) noexcept { return a.value() <= b.value(); }
  /// Compares the numbers.
  friend constexpr bool operator>=(Kind a, Kind b) noexcept { return a.value() >= b.value(); }

 private:
  Number value_ = 0;
};

/// A client of a queue, by a number of the caller's choice.
struct ClientId : Strong<ClientId, std::uint32_t> {
  using Strong::Strong;
};

/// A server of a tracker, or a shard of a server, which to the rules is a server: 0, 1, ..
struct ServerId : Strong<ServerId, std::uint32_t> {
  using Strong::Strong;
};

/// A request, by a number of the caller's choice.
struct Token : Strong<Token, std::uint32_t> {
  using Strong::Strong;
};

/// A moment in ticks, 0 to 2^62.
struct Moment : Strong<Moment, std::uint64_t> {
  using Strong::Strong;
  /// The moment of a clock that has counted `nanos` nanoseconds: the whole ticks that have passed. BadConfig (hz is not 1 to
  /// 1,000,000,000), BadMoment (past 2^62).
  static Result<Moment> from_nanos(std::uint64_t hz, std::uint64_t nanos) noexcept;
  /// The least nanoseconds after which the moment has come. BadConfig, BadMoment (past 2^62, or nanoseconds past 2^64-1).
  Result<std::uint64_t> to_nanos(std::uint64_t hz) const noexcept;
};

/// When the next request is due, in ticks: high * 2^64 + low, which may be past all moments.
struct Due {
  std::uint64_t high; ///< the upper 64 bits
  std::uint64_t low;  ///< the lower 64 bits
};

/// The least nanoseconds after which a request is due: who sleeps until then finds it due. BadConfig, BadMoment (nanoseconds
/// past 2^64-1).
Result<std::uint64_t> nanos_until(std::uint64_t hz, Due due) noexcept;

/// The greatest rate at most this one that divides hz: for a limit. BadConfig, BadRate (a rate of 0).
Result<std::uint32_t> rate_at_most(std::uint64_t hz, std::uint32_t rate) noexcept;

/// The least rate at least this one that divides hz: for a reservation. BadConfig, BadRate (a rate of 0, or past hz).
Result<std::uint32_t> rate_at_least(std::uint64_t hz, std::uint32_t rate) noexcept;

/// A tag in ticks: an exact fraction. Tags are compared exactly.
class Tag {
 public:
  /// The upper part of the numerator, which is high() * 2^64 + low().
  std::int64_t high() const noexcept { return tag_.high; }
  /// The lower part of the numerator.
  std::uint64_t low() const noexcept { return tag_.low; }
  /// The denominator, 1 or more; 1 where tags are whole ticks.
  std::uint64_t denom() const noexcept { return tag_.denom; }
  /// The nearest double or one beside it, for display.
  explicit operator double() const noexcept { return static_cast<double>(numer()) / static_cast<double>(tag_.denom); }

  /// Below 0, 0 or above 0, as this tag is before the other, the same or behind it.
  int compare(Tag other) const noexcept {
    // A numerator has an absolute value of at most 2^90, and a denominator is at most 2^32.
    const Int128 left = numer() * static_cast<Int128>(other.tag_.denom);
    const Int128 right = other.numer() * static_cast<Int128>(tag_.denom);
    return left < right ? -1 : left > right ? 1 : 0;
  }
  /// Compares exactly.
  friend bool operator==(Tag a, Tag b) noexcept { return a.compare(b) == 0; }
  /// Compares exactly.
  friend bool operator!=(Tag a, Tag b) noexcept { return a.compare(b) != 0; }
  /// Compares exactly.
  friend bool operator<(Tag a, Tag b) noexcept { return a.compare(b) < 0; }
  /// Compares exactly.
  friend bool operator>(Tag a, Tag b) noexcept { return a.compare(b) > 0; }
  /// Compares exactly.
  friend bool operator<=(Tag a, Tag b) noexcept { return a.compare(b) <= 0; }
  /// Compares exactly.
  friend bool operator>=(Tag a, Tag b) noexcept { return a.compare(b) >= 0; }

 private:
  friend class Tags;
  __extension__ using Int128 = __int128;
  explicit Tag(const dmc_tag &tag) noexcept : tag_(tag) {}
  Int128 numer() const noexcept { return static_cast<Int128>(tag_.high) * (static_cast<Int128>(1) << 64) + tag_.low; }
  dmc_tag tag_;
};

/// The tags of a request that is queued.
class Tags {
 public:
  /// The reservation tag, where the client has a reservation.
  std::optional<Tag> r() const noexcept { return tags_.reserved ? std::optional<Tag>(Tag(tags_.r)) : std::nullopt; }
  /// The limit tag.
  Tag l() const noexcept { return Tag(tags_.l); }
  /// The weight tag.
  Tag p() const noexcept { return Tag(tags_.p); }

 private:
  friend struct Calls;
  dmc_tags tags_;
};

/// What a pull returns: a grant, or when the next request is due, or that nothing is queued.
class Pulled {
 public:
  /// What it is.
  enum class Kind : std::uint32_t {
    Returning = DMC_GRANTED, ///< a request is granted: client(), token(), phase(), cost(), beyond()
    Future = DMC_FUTURE,     ///< one is due() later, and none before
    Nothing = DMC_NOTHING    ///< nothing is queued
  };
  /// What it is.
  Kind kind() const noexcept { return static_cast<Kind>(pulled_.kind); }
  /// Whether it is a grant.
  bool is_granted() const noexcept { return pulled_.kind == DMC_GRANTED; }
  /// Of a grant: whose request it is.
  ClientId client() const noexcept { return ClientId(pulled_.client); }
  /// Of a grant: which request it is.
  Token token() const noexcept { return Token(pulled_.token); }
  /// Of a grant: by reservation or by weight, which the client's tracker is to count.
  PhaseType phase() const noexcept { return static_cast<PhaseType>(pulled_.phase); }
  /// Of a grant: the cost of the request, which the client's tracker is to count.
  std::uint32_t cost() const noexcept { return pulled_.cost; }
  /// Of a grant: whether it is past its limit (AtLimit::Allow).
  bool beyond() const noexcept { return pulled_.beyond; }
  /// Of Kind::Future: when the next request is due.
  Due due() const noexcept { return {pulled_.due_high, pulled_.due_low}; }

 private:
  friend struct Calls;
  dmc_pulled pulled_;
};

/// What a clean did.
struct Cleaned {
  std::uint32_t idled;  ///< how many clients became idle
  std::uint32_t erased; ///< how many clients were erased
};

/// A client's rates, in units of cost a second: in requests a second if each request costs 1.
struct ClientInfo {
  std::optional<std::uint32_t> reservation; ///< at least this many, where there is one
  std::uint32_t weight;                     ///< its share of the rest
  std::optional<std::uint32_t> limit;       ///< at most this many, where there is one
};

/// What goes with a request to a server: the two counts of its stamp, and its cost. `{delta, rho}` is of a request of cost 1.
///
/// The cost is how much of its client's rates a request takes, 1 to 2^32-1 in units of the caller's choice: 1 if only requests
/// are counted, else blocks of 4 KiB, say. Counts are in these units, and rates and weights in these units a second.
struct ReqParams {
  std::uint32_t delta;    ///< completions since the last stamp to the same server
  std::uint32_t rho;      ///< those of them by reservation, at most delta
  std::uint32_t cost = 1; ///< of the request itself

  /// The same with the counts of another stamp to the same server besides, which no server took, since its request was refused or
  /// lost and is given up: the client's completions stay counted, and that request costs it nothing. BadConfig (a counting that
  /// is none), BadParams, BadCost, TrackFull.
  Result<ReqParams> with_returned(ReqParams returned, Counting counting) const noexcept;
};

/// How a queue is set up.
struct QueueConfig {
  std::uint64_t hz;                      ///< ticks a second, 1 to 1,000,000,000
  std::uint64_t idle_age = DMC_MAX_AGE;  ///< ticks without a request until clean() marks a client idle, 1 to DMC_MAX_AGE
  std::uint64_t erase_age = DMC_MAX_AGE; ///< ticks without a request until clean() erases it, idle_age to DMC_MAX_AGE
  AtLimit at_limit = AtLimit::Wait;      ///< what is done at the limit
  TagKind tags = TagKind::Tick;          ///< whole ticks or fractions
  Shares shares = Shares::Clock;         ///< by the clock or in the time of the service
  std::uint64_t threshold = 0;           ///< with AtLimit::Reject how many ticks a request may wait for its limit, 0 to 2^62
};

/// What a tracker knows of a server, and its completions at all servers, all in units of cost.
class TrackStatus {
 public:
  /// The delta that the next stamp to this server would carry; without the request itself in Counting::Others.
  std::uint64_t pending_delta() const noexcept { return track_.pending_delta; }
  /// The rho that the next stamp to this server would carry; without the request itself in Counting::Others.
  std::uint64_t pending_rho() const noexcept { return track_.pending_rho; }
  /// The sum of the deltas that were sent to this server.
  std::uint64_t sent_delta() const noexcept { return track_.sent_delta; }
  /// The sum of the rhos that were sent to this server.
  std::uint64_t sent_rho() const noexcept { return track_.sent_rho; }
  /// The completions at all servers.
  std::uint64_t completions() const noexcept { return track_.completions; }
  /// The completions at all servers by reservation.
  std::uint64_t reservation() const noexcept { return track_.reservation; }

 private:
  friend struct Calls;
  dmc_track track_;
};

/// \cond
/// How the calls below fill a Result.
struct Calls {
  template <class T, class Call>
  static Result<T> of(Call call) noexcept {
    Result<T> result;
    result.code_ = static_cast<Code>(call(inside(result.value_)));
    return result;
  }
  static dmc_tags *inside(Tags &tags) noexcept { return &tags.tags_; }
  static dmc_pulled *inside(Pulled &pulled) noexcept { return &pulled.pulled_; }
  static dmc_track *inside(TrackStatus &status) noexcept { return &status.track_; }
  template <class T>
  static T *inside(T &value) noexcept {
    return &value;
  }
  // What a call makes of a stamp.
  template <class Call>
  static Result<ReqParams> of_stamp(Call call, dmc_stamp stamp = {}) noexcept {
    return of<ReqParams>([&](ReqParams *params) {
      const std::uint32_t code = call(&stamp);
      *params = {stamp.delta, stamp.rho, stamp.cost};
      return code;
    });
  }
};
/// \endcond

/// The queue of a server.
class Queue {
 public:
  /// A queue with no client. BadConfig, Memory.
  static Result<Queue> make(const QueueConfig &config) noexcept {
    dmc_config asked = dmc_config_of(config.hz);
    asked.idle_age = config.idle_age;
    asked.erase_age = config.erase_age;
    asked.tag_kind = static_cast<std::uint32_t>(config.tags);
    asked.at_limit = static_cast<std::uint32_t>(config.at_limit);
    asked.threshold = config.threshold;
    asked.shares = static_cast<std::uint32_t>(config.shares);
    return Calls::of<Queue>([&](Queue *queue) { return dmc_queue_new(&queue->queue_, &asked); });
  }

  /// No queue: each call is NoneHeld.
  Queue() noexcept = default;
  /// Takes the queue of another, which is left with none.
  Queue(Queue &&other) noexcept : queue_(std::exchange(other.queue_, dmc_queue_none())) {}
  /// Ends its queue, and takes that of another, which is left with none.
  Queue &operator=(Queue &&other) noexcept {
    Queue taken(std::move(other));
    std::swap(queue_, taken.queue_);
    return *this;
  }
  Queue(const Queue &) = delete;
  Queue &operator=(const Queue &) = delete;
  /// Ends the queue, with all that is queued.
  ~Queue() { dmc_queue_free(&queue_); }

  /// Registers a client. NoneHeld, BadMoment, BadRate, Known, InexactReservation, InexactWeight, InexactLimit, Clients, Memory.
  [[nodiscard]] Code register_client(ClientId client, const ClientInfo &info, Moment at) noexcept {
    return static_cast<Code>(
        dmc_queue_register(&queue_, client.value(), rate(info.reservation), weight(info), rate(info.limit), at.value()));
  }

  /// Replaces a client's rates. NoneHeld, BadMoment, BadRate, Unknown, InexactReservation, InexactWeight, InexactLimit, Busy.
  [[nodiscard]] Code update_info(ClientId client, const ClientInfo &info, Moment at) noexcept {
    return static_cast<Code>(
        dmc_queue_update(&queue_, client.value(), rate(info.reservation), weight(info), rate(info.limit), at.value()));
  }

  /// Queues a request with the counts of its stamp and its cost, and returns its tags. NoneHeld, BadMoment, BadParams, BadCost,
  /// Unknown, QueueFull, Range, OverLimit, Memory.
  Result<Tags> add_request(ClientId client, Token token, ReqParams params, Moment at) noexcept {
    return Calls::of<Tags>([&](dmc_tags *tags) {
      return dmc_queue_add(&queue_, client.value(), token.value(), params.delta, params.rho, params.cost, at.value(), tags);
    });
  }

  /// Queues a request at a server that is its clients' only one: each request counts its own cost, and no tracker is needed. The
  /// same refusals.
  Result<Tags> add_request_single(ClientId client, Token token, Moment at, std::uint32_t cost = 1) noexcept {
    return add_request(client, token, {cost, cost, cost}, at);
  }

  /// Grants the next request, or says when one is due. NoneHeld, BadMoment, Range.
  Result<Pulled> pull_request(Moment at) noexcept {
    return Calls::of<Pulled>([&](dmc_pulled *pulled) { return dmc_queue_pull(&queue_, at.value(), pulled); });
  }

  /// Takes out a client's queued requests, and returns how many. NoneHeld, Unknown.
  Result<std::uint32_t> remove_by_client(ClientId client) noexcept {
    return Calls::of<std::uint32_t>([&](std::uint32_t *removed) { return dmc_queue_remove(&queue_, client.value(), removed); });
  }

  /// Takes back a client's queued requests with a token, wherever they are in the queue, when they are given up, and returns how
  /// many: none if they were granted before. `counting` is that of the tracker that stamped them, and Counting::Others
  /// after add_request_single. With Counting::Others a stamp counts its own request, so what they were charged is given back to the
  /// client's later requests: after it pull again, since one may be due earlier. With Counting::All they were not charged yet.
  /// NoneHeld, BadConfig (a counting that is none), Unknown.
  Result<std::uint32_t> cancel(ClientId client, Token token, Counting counting) noexcept {
    return Calls::of<std::uint32_t>([&](std::uint32_t *removed) {
      return dmc_queue_cancel(&queue_, client.value(), token.value(), static_cast<std::uint32_t>(counting), removed);
    });
  }

  /// Marks clients idle and erases old ones. NoneHeld, BadMoment.
  Result<Cleaned> clean(Moment at) noexcept {
    return Calls::of<Cleaned>(
        [&](Cleaned *cleaned) { return dmc_queue_clean(&queue_, at.value(), &cleaned->idled, &cleaned->erased); });
  }

  /// How many clients are registered. NoneHeld.
  Result<std::uint32_t> client_count() noexcept {
    std::uint32_t requests;
    return Calls::of<std::uint32_t>([&](std::uint32_t *clients) { return dmc_queue_counts(&queue_, clients, &requests); });
  }

  /// How many requests are queued. NoneHeld.
  Result<std::uint32_t> request_count() noexcept {
    std::uint32_t clients;
    return Calls::of<std::uint32_t>([&](std::uint32_t *requests) { return dmc_queue_counts(&queue_, &clients, requests); });
  }

 private:
  static std::uint32_t rate(std::optional<std::uint32_t> rate) noexcept { return rate.value_or(0); }
  // C takes a rate of 0 for none. Here it is refused, as a weight of 0 is.
  static std::uint32_t weight(const ClientInfo &info) noexcept {
    return info.reservation.value_or(1) == 0 || info.limit.value_or(1) == 0 ? 0 : info.weight;
  }

  dmc_queue queue_ = DMC_QUEUE_NONE;
};

/// The service tracker of a client.
class Tracker {
 public:
  /// A tracker of servers 0, 1, .. (1 to 64 of them), which counts completions of at most `most` units of cost (1 to 2^62).
  /// BadConfig, Limit, Memory.
  static Result<Tracker> make(std::uint32_t servers, std::uint64_t most, Counting counting) noexcept {
    return Calls::of<Tracker>([&](Tracker *tracker) {
      return dmc_tracker_new(&tracker->tracker_, servers, most, static_cast<std::uint32_t>(counting));
    });
  }

  /// No tracker: each call is NoneHeld.
  Tracker() noexcept = default;
  /// Takes the tracker of another, which is left with none.
  Tracker(Tracker &&other) noexcept : tracker_(std::exchange(other.tracker_, dmc_tracker_none())) {}
  /// Ends its tracker, and takes that of another, which is left with none.
  Tracker &operator=(Tracker &&other) noexcept {
    Tracker taken(std::move(other));
    std::swap(tracker_, taken.tracker_);
    return *this;
  }
  Tracker(const Tracker &) = delete;
  Tracker &operator=(const Tracker &) = delete;
  /// Ends the tracker.
  ~Tracker() { dmc_tracker_free(&tracker_); }

  /// Stamps a request of a cost to a server: what it returns has the cost too. NoneHeld, BadCost, NoServer, TrackFull.
  Result<ReqParams> get_req_params(ServerId server, std::uint32_t cost = 1) noexcept {
    return Calls::of_stamp([&](dmc_stamp *stamp) { return dmc_tracker_stamp(&tracker_, server.value(), cost, stamp); });
  }

  /// Skips what is pending at a server: the next stamp to it counts only later completions. It sends nothing. Where a stamp is
  /// TrackFull for its delta, this ends that. NoneHeld, NoServer.
  [[nodiscard]] Code skip(ServerId server) noexcept {
    return static_cast<Code>(dmc_tracker_skip(&tracker_, server.value()));
  }

  /// Counts a completion: the response to a request of a cost that a server granted in a phase. NoneHeld, BadPhase, BadCost,
  /// NoServer, TrackFull.
  [[nodiscard]] Code track_resp(ServerId server, PhaseType phase, std::uint32_t cost = 1) noexcept {
    return static_cast<Code>(dmc_tracker_respond(&tracker_, server.value(), static_cast<std::uint32_t>(phase), cost));
  }

  /// What it knows of a server. NoneHeld, NoServer.
  Result<TrackStatus> status(ServerId server) noexcept {
    return Calls::of<TrackStatus>([&](dmc_track *track) { return dmc_tracker_status(&tracker_, server.value(), track); });
  }

 private:
  dmc_tracker tracker_ = DMC_TRACKER_NONE;
};

/// The tracker of a client for the shards of one server, each with a queue of its own. To the rules a shard is a server: each queue
/// has the client's full rates.
class ShardTracker {
 public:
  /// A tracker of shards 0, 1, .. (1 to 64 of them), to which deltas of `most` in all can come (1 to 2^62). Limit, Memory.
  static Result<ShardTracker> make(std::uint32_t shards, std::uint64_t most) noexcept {
    return Calls::of<ShardTracker>([&](ShardTracker *made) { return dmc_shards_new(&made->shards_, shards, most); });
  }

  /// No tracker: each call is NoneHeld.
  ShardTracker() noexcept = default;
  /// Takes the tracker of another, which is left with none.
  ShardTracker(ShardTracker &&other) noexcept : shards_(std::exchange(other.shards_, dmc_shards_none())) {}
  /// Ends its tracker, and takes that of another, which is left with none.
  ShardTracker &operator=(ShardTracker &&other) noexcept {
    ShardTracker taken(std::move(other));
    std::swap(shards_, taken.shards_);
    return *this;
  }
  ShardTracker(const ShardTracker &) = delete;
  ShardTracker &operator=(const ShardTracker &) = delete;
  /// Ends the tracker.
  ~ShardTracker() { dmc_shards_free(&shards_); }

  /// A request that came in with this stamp goes to a shard: what it returns is the stamp for the shard's queue, with all
  /// that came in since the last stamp for this shard, and the request's cost. NoneHeld, BadParams, BadCost, NoServer,
  /// TrackFull.
  Result<ReqParams> arrive(ServerId shard, ReqParams params) noexcept {
    return Calls::of_stamp([&](dmc_stamp *stamp) { return dmc_shards_arrive(&shards_, shard.value(), stamp); },
                           {params.delta, params.rho, params.cost});
  }

  /// The stamp that arrive() would make; nothing changes. If the shard's queue refuses the request, it is then as if it had not come.
  /// NoneHeld, BadParams, BadCost, NoServer, TrackFull.
  Result<ReqParams> next(ServerId shard, ReqParams params) noexcept {
    return Calls::of_stamp([&](dmc_stamp *stamp) { return dmc_shards_next(&shards_, shard.value(), stamp); },
                           {params.delta, params.rho, params.cost});
  }

  /// The shard's queue refused the request of this stamp, which arrive() made: the next stamp for the shard carries its counts too.
  /// NoneHeld, BadParams, BadCost, NoServer, NotSent.
  [[nodiscard]] Code give_back(ServerId shard, ReqParams params) noexcept {
    const dmc_stamp stamp = {params.delta, params.rho, params.cost};
    return static_cast<Code>(dmc_shards_give_back(&shards_, shard.value(), &stamp));
  }

  /// Skips what is pending at a shard: the next stamp for it counts only what comes later. It sends nothing. If an arrival is
  /// TrackFull for its delta, since the client sent nothing to the shard for more than 2^32-1, this ends that. NoneHeld, NoServer.
  [[nodiscard]] Code skip(ServerId shard) noexcept { return static_cast<Code>(dmc_shards_skip(&shards_, shard.value())); }

  /// What it knows of a shard; its completions are what came in. NoneHeld, NoServer.
  Result<TrackStatus> status(ServerId shard) noexcept {
    return Calls::of<TrackStatus>([&](dmc_track *track) { return dmc_shards_status(&shards_, shard.value(), track); });
  }

 private:
  dmc_shards shards_ = DMC_SHARDS_NONE;
};

inline Result<ReqParams> ReqParams::with_returned(ReqParams returned, Counting counting) const noexcept {
  const dmc_stamp other = {returned.delta, returned.rho, returned.cost};
  return Calls::of_stamp(
      [&](dmc_stamp *stamp) { return dmc_stamp_with_returned(stamp, &other, static_cast<std::uint32_t>(counting)); },
      {delta, rho, cost});
}

inline Result<Moment> Moment::from_nanos(std::uint64_t hz, std::uint64_t nanos) noexcept {
  return Calls::of<Moment>([&](Moment *moment) {
    std::uint64_t ticks = 0;
    const std::uint32_t code = dmc_moment_from_nanos(hz, nanos, &ticks);
    *moment = Moment(ticks);
    return code;
  });
}

inline Result<std::uint64_t> Moment::to_nanos(std::uint64_t hz) const noexcept {
  return Calls::of<std::uint64_t>([&](std::uint64_t *nanos) { return dmc_nanos_from_moment(hz, value(), nanos); });
}

inline Result<std::uint64_t> nanos_until(std::uint64_t hz, Due due) noexcept {
  return Calls::of<std::uint64_t>([&](std::uint64_t *nanos) { return dmc_nanos_from_due(hz, due.low, due.high, nanos); });
}

inline Result<std::uint32_t> rate_at_most(std::uint64_t hz, std::uint32_t rate) noexcept {
  return Calls::of<std::uint32_t>([&](std::uint32_t *found) { return dmc_rate_at_most(hz, rate, found); });
}

inline Result<std::uint32_t> rate_at_least(std::uint64_t hz, std::uint32_t rate) noexcept {
  return Calls::of<std::uint32_t>([&](std::uint32_t *found) { return dmc_rate_at_least(hz, rate, found); });
}

}  // namespace dmclock

/// \cond
// Ids, tokens and moments as keys.
template <class Kind>
struct dmclock_hash {
  std::size_t operator()(Kind kind) const noexcept { return std::hash<decltype(kind.value())>()(kind.value()); }
};
template <>
struct std::hash<dmclock::ClientId> : dmclock_hash<dmclock::ClientId> {};
template <>
struct std::hash<dmclock::ServerId> : dmclock_hash<dmclock::ServerId> {};
template <>
struct std::hash<dmclock::Token> : dmclock_hash<dmclock::Token> {};
template <>
struct std::hash<dmclock::Moment> : dmclock_hash<dmclock::Moment> {};
/// \endcond

#endif

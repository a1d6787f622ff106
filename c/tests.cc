// The worked examples through dmclock.hpp, and what the header adds to the C calls: moves, results, strong types, tags. Link it
// with -Wl,--wrap=malloc.
#include "dmclock.hpp"

#include <algorithm>
#include <cstdio>
#include <cstdlib>
#include <functional>
#include <sstream>
#include <string>
#include <thread>
#include <type_traits>
#include <unordered_map>
#include <vector>

using namespace dmclock;

// ---- allocations that are refused

static bool refuses = false;

extern "C" void *__real_malloc(std::size_t size);
extern "C" void *__wrap_malloc(std::size_t size);
void *__wrap_malloc(std::size_t size) { return refuses ? nullptr : __real_malloc(size); }

// ---- what is compared

static int failed = 0;

static void expect(const char *name, bool holds) {
  std::printf("%s %s\n", holds ? "ok" : "FAILED", name);
  if (!holds) failed = 1;
}

static void expect_text(const char *name, const std::string &got, const std::string &want) {
  expect(name, got == want);
  if (got != want) std::printf("  got  %s\n  want %s\n", got.c_str(), want.c_str());
}

// ---- scripts

static std::string refused(Code code) { return std::string("refused ") + text(code); }

static std::string done(Code code, const char *reply) { return code == Code::Ok ? reply : refused(code); }

static std::string tag_text(Tag tag) {
  if (tag.high() != 0) return "far";
  const std::string whole = std::to_string(tag.low());
  return tag.denom() == 1 ? whole : whole + "/" + std::to_string(tag.denom());
}

static std::string reply(const Result<Tags> &tags) {
  if (!tags) return refused(tags.code());
  return "tags " + (tags->r() ? tag_text(*tags->r()) : "-") + " " + tag_text(tags->l()) + " " + tag_text(tags->p());
}

static std::string reply(const Result<Pulled> &pulled) {
  if (!pulled) return refused(pulled.code());
  switch (pulled->kind()) {
    case Pulled::Kind::Returning:
      return "grant " + std::to_string(pulled->client().value()) + " " + std::to_string(pulled->token().value()) +
             (pulled->phase() == PhaseType::Reservation ? " reservation" : " priority") + (pulled->beyond() ? " beyond" : "") +
             (pulled->cost() == 1 ? "" : " cost " + std::to_string(pulled->cost()));
    case Pulled::Kind::Future: return pulled->due().high != 0 ? "future far" : "future " + std::to_string(pulled->due().low);
    case Pulled::Kind::Nothing: return "none";
  }
  return "no kind";
}

// The words of a line: numbers, and rates that may be absent.
struct Words {
  std::istringstream line;
  template <class Number>
  Number number() {
    std::uint64_t number = 0;
    line >> number;
    return static_cast<Number>(number);
  }
  ClientId client() { return ClientId(number<std::uint32_t>()); }
  Moment at() { return Moment(number<std::uint64_t>()); }
  Counting counting() {
    std::string word;
    line >> word;
    return word == "all" ? Counting::All : word == "others" ? Counting::Others : static_cast<Counting>(2);
  }
  // The parameters of a request that ends with its moment, or with its moment and its cost.
  std::pair<ReqParams, Moment> request() {
    const auto delta = number<std::uint32_t>(), rho = number<std::uint32_t>();
    const Moment moment = at();
    std::string word;
    return {line >> word ? ReqParams{delta, rho, number<std::uint32_t>()} : ReqParams{delta, rho}, moment};
  }
  std::optional<std::uint32_t> rate() {
    std::string word;
    line >> word;
    return word == "-" ? std::nullopt : std::optional(static_cast<std::uint32_t>(std::stoul(word)));
  }
  ClientInfo info() {
    const auto reservation = rate();
    const auto weight = number<std::uint32_t>();
    return {reservation, weight, rate()};
  }
};

static std::string run_line(Queue &queue, const std::string &line) {
  Words words{std::istringstream(line)};
  std::string verb;
  words.line >> verb;
  if (verb == "pull") return reply(queue.pull_request(words.at()));
  if (verb == "clean") {
    const auto cleaned = queue.clean(words.at());
    return cleaned ? "cleaned " + std::to_string(cleaned->idled) + " " + std::to_string(cleaned->erased)
                   : refused(cleaned.code());
  }
  const ClientId client = words.client();
  if (verb == "drop") {
    const auto removed = queue.remove_by_client(client);
    return removed ? "dropped " + std::to_string(*removed) : refused(removed.code());
  }
  if (verb == "cancel") {
    const Token token(words.number<std::uint32_t>());
    const auto removed = queue.cancel(client, token, words.counting());
    return removed ? "dropped " + std::to_string(*removed) : refused(removed.code());
  }
  if (verb == "add") {
    const Token token(words.number<std::uint32_t>());
    const auto [params, at] = words.request();
    return reply(queue.add_request(client, token, params, at));
  }
  const ClientInfo info = words.info();
  return verb == "client" ? done(queue.register_client(client, info, words.at()), "ok")
                          : done(queue.update_info(client, info, words.at()), "updated");
}

// The replies to a script, whose lines are separated by "; ".
static std::string replies(const QueueConfig &config, const std::string &script) {
  Queue queue = Queue::make(config).value();
  std::string all;
  for (std::size_t from = 0; from < script.size();) {
    const std::size_t to = std::min(script.find(';', from), script.size());
    all += (from == 0 ? "" : "; ") + run_line(queue, script.substr(from, to - from));
    from = to + 1;
  }
  return all;
}

static const QueueConfig ticks = {1000};

static QueueConfig with(std::uint64_t hz, AtLimit at_limit, TagKind tags) {
  return {hz, DMC_MAX_AGE, DMC_MAX_AGE, at_limit, tags};
}

static void run_scripts() {
  const std::string greatest = "18446744073709551615";
  expect_text("granted_by_reservation", replies(ticks, "client 1 10 1 - 0; add 1 9 0 0 0; pull 0"),
              "ok; tags 0 0 0; grant 1 9 reservation");
  expect_text("granted_at_limit", replies(ticks, "client 1 10 1 20 0; add 1 7 1 1 0; pull 0; pull 50; pull 50"),
              "ok; tags 100 50 1000; future 50; grant 1 7 priority; none");
  expect_text("allowed_beyond",
              replies(with(1000, AtLimit::Allow, TagKind::Tick),
                      "client 1 10 1 20 0; add 1 1 1 1 0; add 1 2 1 1 0; pull 0; pull 100; pull 100"),
              "ok; tags 100 50 1000; tags 200 100 2000; grant 1 1 priority beyond; grant 1 2 reservation; none");
  QueueConfig reject = with(1000, AtLimit::Reject, TagKind::Tick);
  reject.threshold = 50;
  expect_text("refused_over_limit",
              replies(reject, "client 1 - 1 10 0; add 1 11 1 0 0; add 1 11 1 0 50; add 1 12 1 0 100; add 1 12 1 0 150; "
                              "pull 150; pull 199"),
              "ok; refused over limit; tags - 100 1000; refused over limit; tags - 200 2000; grant 1 11 priority; "
              "future 200");
  expect_text("updates",
              replies(ticks,
                      "client 1 - 1 - 0; add 1 1 1 0 0; update 1 - 2 - 0; add 1 2 1 0 0; update 1 10 2 - 0; drop 1; "
                      "update 1 10 2 - 0; add 1 3 1 1 0; update 1 - 3 - 0; update 2 - 1 - 0"),
              "ok; tags - 0 1000; updated; tags - 0 1500; refused busy; dropped 2; updated; tags 100 0 2000; "
              "refused inexact weight; refused unknown");
  expect_text("exact_thirds",
              replies(with(1000, AtLimit::Wait, TagKind::Ratio), "client 1 - 3 - 0; add 1 1 1 0 0; add 1 2 1 0 0; add 1 3 1 0 0"),
              "ok; tags - 0 1000/3; tags - 0 2000/3; tags - 0 1000");
  expect_text("a_request_of_four",
              replies(ticks,
                      "client 1 100 1 - 0; client 2 - 1 - 0; add 1 11 0 0 0 cost 4; add 1 12 4 0 0 cost 4; add 2 21 0 0 0; pull 0; "
                      "pull 0; pull 0; pull 0"),
              "ok; ok; tags 0 0 0; tags 0 0 4000; tags - 0 0; grant 1 11 reservation cost 4; grant 1 12 reservation cost 4; "
              "grant 2 21 priority; none");
  const std::string three = "client 1 10 1 - 0; add 1 11 0 0 0; add 1 12 8 8 0 cost 4; add 1 13 4 4 0; pull 0; pull 0; ";
  const std::string two_of_three =
      "ok; tags 0 0 0; tags 800 0 8000; tags 1200 0 12000; grant 1 11 reservation; grant 1 12 priority cost 4; ";
  expect_text("reduced_by_the_cost", replies(ticks, three + "pull 799"), two_of_three + "grant 1 13 priority");
  expect_text("reduced_by_the_cost, a tick later", replies(ticks, three + "pull 800"), two_of_three + "grant 1 13 reservation");
  const std::string four = "client 1 - 1 10 0; add 1 11 1 1 0; add 1 12 1 1 0; add 1 13 1 1 0; add 1 14 1 1 250; ";
  const std::string four_tags = "ok; tags - 100 1000; tags - 200 2000; tags - 300 3000; tags - 400 4000; ";
  expect_text("cancelled",
              replies(ticks, four + "cancel 1 12 others; pull 100; pull 200; pull 299; cancel 1 14 others; add 1 15 1 1 299"),
              four_tags + "dropped 1; grant 1 11 priority; grant 1 13 priority; future 300; dropped 1; tags - 350 3000");
  expect_text("cancelled, idle between",
              replies(ticks,
                      "client 1 - 1 10 0; add 1 11 1 1 0; add 1 12 1 1 200; add 1 13 1 1 200; cancel 1 12 others; "
                      "cancel 1 11 others; pull 250; pull 300"),
              "ok; tags - 100 1000; tags - 200 2000; tags - 300 3000; dropped 1; dropped 1; future 300; grant 1 13 priority");
  expect_text("cancelled, all", replies(ticks, four + "cancel 1 12 all; pull 100; pull 200; pull 299; pull 300"),
              four_tags + "dropped 1; grant 1 11 priority; future 300; future 300; grant 1 13 priority");
  expect_text("idle_then_erased",
              replies({1000, 100, 1000},
                      "client 1 - 1 - 0; clean 100; add 1 1 0 0 100; pull 100; clean 199; clean 200; clean 1099; clean 1100; "
                      "add 1 2 0 0 1100"),
              "ok; cleaned 0 0; tags - 100 100; grant 1 1 priority; cleaned 0 0; cleaned 1 0; cleaned 0 0; cleaned 0 1; "
              "refused unknown");
  expect_text("reduction_out_of_range",
              replies(with(1, AtLimit::Wait, TagKind::Ratio),
                      "client 1 65537 1 - 0; add 1 1 1 1 0; add 1 2 1 1 0; update 1 65539 1 - 0; pull 0; pull 1; pull 1"),
              "ok; tags 1/65537 0 1; tags 2/65537 0 2; updated; refused range; grant 1 1 reservation; grant 1 2 reservation");
  expect_text("refused_values",
              replies(ticks, "client 1 - 1 - 0; client 1 - 0 - " + greatest + "; client 1 - 0 - 0; client 1 3 3 3 0; " +
                                 "client 2 3 3 3 0; client 2 10 3 3 0; client 2 10 1 3 0; add 2 1 0 1 " + greatest +
                                 "; add 2 1 0 1 0; add 2 1 0 1 0 cost 0; add 2 1 0 0 0 cost 0; add 2 1 0 0 0; pull " + greatest + "; clean " + greatest +
                                 "; drop 2; cancel 2 1 none; cancel 2 1 others; cancel 1 1 others"),
              "ok; refused bad moment; refused bad rate; refused known; refused inexact reservation; refused inexact weight; "
              "refused inexact limit; refused bad moment; refused bad params; refused bad params; refused bad cost; "
              "refused unknown; refused bad moment; refused bad moment; refused unknown; refused bad config; refused unknown; "
              "dropped 0");
  expect_text("a rate of 0 that is there",
              replies(ticks, "client 1 0 1 - 0; client 1 - 1 0 " + greatest + "; client 1 - 1 - 0; update 1 0 1 - 0; update 1 - 1 0 0"),
              "refused bad rate; refused bad moment; ok; refused bad rate; refused bad rate");
}

// A client is alone, and another comes.
static void run_newcomers() {
  const std::string newcomer =
      "client 1 - 1 - 0; client 2 - 1 - 0; add 1 11 1 1 0; add 1 12 1 1 0; pull 0; pull 0; add 2 21 1 1 0; add 1 13 1 1 0; "
      "add 2 22 1 1 0; pull 0; pull 0; pull 0";
  const std::string alone = "ok; ok; tags - 0 1000; tags - 0 2000; grant 1 11 priority; grant 1 12 priority; ";
  expect_text("newcomer_clock", replies(ticks, newcomer),
              alone + "tags - 0 1000; tags - 0 3000; tags - 0 2000; grant 2 21 priority; grant 2 22 priority; grant 1 13 priority");
  QueueConfig served = ticks;
  served.shares = Shares::Virtual;
  expect_text("newcomer_virtual", replies(served, newcomer),
              alone + "tags - 0 2000; tags - 0 3000; tags - 0 3000; grant 2 21 priority; grant 1 13 priority; grant 2 22 priority");
}

static void run_configs() {
  QueueConfig config = ticks;
  config.shares = static_cast<Shares>(2);
  const bool shares = Queue::make(config).code() == Code::BadConfig;
  expect("a configuration out of its limits", shares && Queue::make({0}).code() == Code::BadConfig &&
                                                  Queue::make({1000, 2, 1}).code() == Code::BadConfig &&
                                                  Queue::make({1000, 1, DMC_MAX_AGE + 1}).code() == Code::BadConfig &&
                                                  Queue::make(with(1000, AtLimit::Wait, static_cast<TagKind>(2))).code() == Code::BadConfig &&
                                                  Queue::make(with(1000, static_cast<AtLimit>(3), TagKind::Tick)).code() == Code::BadConfig);
}

// ---- trackers

static std::string reply(const Result<ReqParams> &params) {
  if (!params) return refused(params.code());
  return "(" + std::to_string(params->delta) + "," + std::to_string(params->rho) + ")" +
         (params->cost == 1 ? "" : " cost " + std::to_string(params->cost)) + "; ";
}

static std::string stamp(Tracker &tracker, std::uint32_t server) { return reply(tracker.get_req_params(ServerId(server))); }

static std::string shown(const TrackStatus &s) {
  const auto pair = [](std::uint64_t a, std::uint64_t b) { return "(" + std::to_string(a) + "," + std::to_string(b) + ")"; };
  return "sent " + pair(s.sent_delta(), s.sent_rho()) + " pending " + pair(s.pending_delta(), s.pending_rho()) +
         " completions " + pair(s.completions(), s.reservation()) + "; ";
}

static std::string status(Tracker &tracker, std::uint32_t server) { return shown(tracker.status(ServerId(server)).value()); }

static std::string three_stamps(Counting counting) {
  Tracker tracker = Tracker::make(2, 10, counting).value();
  std::string all = stamp(tracker, 0);
  all += done(tracker.track_resp(ServerId(0), PhaseType::Reservation), "ok; ");
  all += stamp(tracker, 1);
  all += done(tracker.track_resp(ServerId(1), PhaseType::Priority), "ok; ");
  all += stamp(tracker, 0);
  return all + status(tracker, 0) + status(tracker, 1);
}

/// Two responses of server 0, a skip of server 1, and a stamp to each.
static std::string skip_between(Counting counting) {
  Tracker tracker = Tracker::make(2, std::uint64_t(1) << 62, counting).value();
  std::string all = done(tracker.track_resp(ServerId(0), PhaseType::Reservation), "ok; ");
  all += done(tracker.track_resp(ServerId(0), PhaseType::Priority), "ok; ");
  all += done(tracker.skip(ServerId(1)), "ok; ");
  all += status(tracker, 1);
  all += stamp(tracker, 0);
  return all + stamp(tracker, 1);
}

// A stamp of this cost and its response, another stamp and a response of another request, and a last stamp.
static std::string stamps_of_costs(Counting counting, std::uint32_t first, std::uint32_t second, std::uint32_t other,
                                   std::uint32_t last) {
  Tracker tracker = Tracker::make(2, 100, counting).value();
  std::string all = reply(tracker.get_req_params(ServerId(0), first));
  all += done(tracker.track_resp(ServerId(0), PhaseType::Reservation, first), "ok; ");
  all += reply(tracker.get_req_params(ServerId(1), second));
  all += done(tracker.track_resp(ServerId(1), PhaseType::Priority, other), "ok; ");
  all += reply(tracker.get_req_params(ServerId(0), last));
  return all + status(tracker, 0);
}

static void run_costs() {
  expect_text("costs_are_counted", stamps_of_costs(Counting::All, 8, 1, 2, 1),
              "(0,0) cost 8; ok; (8,8); ok; (10,8); sent (10,8) pending (0,0) completions (10,8); ");
  expect_text("costs_are_counted, others", stamps_of_costs(Counting::Others, 8, 3, 3, 1),
              "(8,8) cost 8; ok; (11,11) cost 3; ok; (4,1); sent (12,9) pending (0,0) completions (11,8); ");
  Tracker tracker = Tracker::make(1, 9, Counting::All).value();
  expect("no cost", tracker.get_req_params(ServerId(9), 0).code() == Code::BadCost &&
                        tracker.track_resp(ServerId(9), static_cast<PhaseType>(2), 0) == Code::BadPhase &&
                        tracker.track_resp(ServerId(9), PhaseType::Priority, 0) == Code::BadCost &&
                        tracker.track_resp(ServerId(0), PhaseType::Priority, 10) == Code::TrackFull);
  const ClientId client(1);
  const Moment zero(0);
  Queue queue = Queue::make(ticks).value();
  bool all = queue.register_client(client, {std::nullopt, 1, 10}, zero) == Code::Ok;
  all = tracker.track_resp(ServerId(0), PhaseType::Priority, 3) == Code::Ok && all;
  const ReqParams params = tracker.get_req_params(ServerId(0), 5).value();
  expect_text("a stamp has its cost", reply(queue.add_request(client, Token(1), params, zero)), "tags - 300 3000");
  expect_text("a grant has it too", reply(queue.pull_request(Moment(300))), "grant 1 1 priority cost 5");
  expect_text("a single server", reply(queue.add_request_single(client, Token(2), zero)), "tags - 400 4000");
  expect_text("a single server counts costs", reply(queue.add_request_single(client, Token(3), zero, 4)), "tags - 800 8000");
  const bool refused = queue.add_request_single(client, Token(4), zero, 0).code() == Code::BadCost;
  const Pulled pulled = queue.pull_request(zero).value();
  expect("only a grant has a cost", all && refused && pulled.kind() == Pulled::Kind::Future && pulled.cost() == 0);
}

static void run_returned() {
  const ReqParams params = {3, 1, 2}, returned = {7, 5, 4};
  expect_text("returned", reply(params.with_returned(returned, Counting::All)), "(10,6) cost 2; ");
  expect_text("returned, others", reply(params.with_returned(returned, Counting::Others)), "(6,2) cost 2; ");
  const ReqParams full = {~0u - 6, 0};
  expect_text("returned to the greatest delta", reply(full.with_returned({6, 2}, Counting::All)), "(4294967295,2); ");
  expect_text("returned to the greatest delta, others", reply(full.with_returned({7, 3}, Counting::Others)), "(4294967295,2); ");
  expect("returned past the greatest delta", full.with_returned({7, 2}, Counting::All).code() == Code::TrackFull &&
                                                 full.with_returned({8, 3}, Counting::Others).code() == Code::TrackFull);
  const ReqParams no_counts = {0, 1, 0}, no_cost = {0, 0, 0};
  expect("returned values", no_counts.with_returned(no_counts, static_cast<Counting>(2)).code() == Code::BadConfig &&
                                no_counts.with_returned(no_cost, Counting::All).code() == Code::BadParams &&
                                no_cost.with_returned(no_counts, Counting::All).code() == Code::BadCost &&
                                params.with_returned(no_counts, Counting::All).code() == Code::BadParams &&
                                params.with_returned(no_cost, Counting::All).code() == Code::BadCost);
}

static void run_trackers() {
  expect_text("two_server_tracker", three_stamps(Counting::All),
              "(0,0); ok; (1,1); ok; (2,1); sent (2,1) pending (0,0) completions (2,1); "
              "sent (1,1) pending (1,0) completions (2,1); ");
  expect_text("others_tracker", three_stamps(Counting::Others),
              "(1,1); ok; (2,2); ok; (2,1); sent (3,2) pending (0,0) completions (2,1); "
              "sent (2,2) pending (0,0) completions (2,1); ");
  expect_text("skipped_server", skip_between(Counting::All),
              "ok; ok; ok; sent (0,0) pending (0,0) completions (2,1); (2,1); (0,0); ");
  expect_text("skipped_server, others", skip_between(Counting::Others),
              "ok; ok; ok; sent (0,0) pending (0,0) completions (2,1); (1,1); (1,1); ");
  Tracker tracker = Tracker::make(2, 1, Counting::Others).value();
  const std::string first = stamp(tracker, 0);
  expect_text("others_tracker, most 1", first + stamp(tracker, 0), "(1,1); refused tracker full");
  expect("no phase", tracker.track_resp(ServerId(9), static_cast<PhaseType>(2)) == Code::BadPhase);
  expect("no server", tracker.track_resp(ServerId(2), PhaseType::Priority) == Code::NoServer &&
                          tracker.get_req_params(ServerId(2)).code() == Code::NoServer &&
                          tracker.skip(ServerId(2)) == Code::NoServer &&
                          tracker.status(ServerId(2)).code() == Code::NoServer);
  expect("65 servers", Tracker::make(65, 1, Counting::All).code() == Code::Limit);
  const std::uint64_t most = std::uint64_t(1) << 62;
  expect("a tracker of 2^62", Tracker::make(1, most, Counting::All).ok() &&
                                  Tracker::make(1, most + 1, Counting::All).code() == Code::Limit);
  expect("no form", Tracker::make(65, 1, static_cast<Counting>(2)).code() == Code::BadConfig);
}

// ---- shards

static std::string status(ShardTracker &shards, std::uint32_t shard) { return shown(shards.status(ServerId(shard)).value()); }

// A request to shard 0, one to shard 1 that its queue refuses, and one to shard 1 again.
static void run_shards() {
  ShardTracker shards = ShardTracker::make(2, 6).value();
  std::string all = reply(shards.arrive(ServerId(0), {2, 1}));
  const ReqParams refused = shards.arrive(ServerId(1), {3, 0, 4}).value();
  all += done(shards.give_back(ServerId(1), refused), "ok; ");
  all += reply(shards.arrive(ServerId(1), {1, 1, 2}));
  expect_text("two_shards", all + status(shards, 0) + status(shards, 1),
              "(2,1); ok; (6,2) cost 2; sent (2,1) pending (4,1) completions (6,2); "
              "sent (6,2) pending (0,0) completions (6,2); ");
  expect("not sent", refused.delta == 5 && refused.rho == 1 && refused.cost == 4 &&
                         shards.give_back(ServerId(0), refused) == Code::NotSent);
  expect("shards full", shards.arrive(ServerId(0), {1, 0}).code() == Code::TrackFull &&
                            shards.arrive(ServerId(2), {1, 0}).code() == Code::NoServer &&
                            shards.status(ServerId(2)).code() == Code::NoServer);
  ShardTracker fresh = ShardTracker::make(2, 6).value();
  all = reply(fresh.next(ServerId(1), {2, 1, 3}));
  all += status(fresh, 1);
  all += reply(fresh.arrive(ServerId(1), {2, 1, 3}));
  expect_text("next_stamp", all, "(2,1) cost 3; sent (0,0) pending (0,0) completions (0,0); (2,1) cost 3; ");
  ShardTracker stuck = ShardTracker::make(2, std::uint64_t(1) << 62).value();
  const ReqParams widest = stuck.arrive(ServerId(0), {UINT32_MAX, 1}).value();
  const bool refuses_next = stuck.arrive(ServerId(1), {1, 0}).code() == Code::TrackFull;
  all = done(stuck.skip(ServerId(1)), "ok; ");
  all += reply(stuck.arrive(ServerId(1), {1, 0}));
  expect_text("skipped_shard", all + status(stuck, 1), "ok; (1,0); sent (1,0) pending (0,0) completions (4294967296,1); ");
  expect("a shard that is not used", widest.delta == UINT32_MAX && refuses_next && stuck.skip(ServerId(2)) == Code::NoServer &&
                                         ShardTracker().skip(ServerId(0)) == Code::NoneHeld);
  ShardTracker other = std::move(shards);
  expect("a shard tracker moved", other.status(ServerId(0)).ok() && shards.status(ServerId(0)).code() == Code::NoneHeld &&
                                      ShardTracker().arrive(ServerId(0), {1, 1}).code() == Code::NoneHeld);
  expect("65 shards", ShardTracker::make(65, 1).code() == Code::Limit);
}

// ---- limits

static void run_limits() {
  const Moment zero(0);
  Queue queue = Queue::make(ticks).value();
  bool all = true;
  for (std::uint32_t client = 0; client < 65536; client++)
    all = queue.register_client(ClientId(client), {std::nullopt, 1, std::nullopt}, zero) == Code::Ok && all;
  expect("65,537 clients", queue.register_client(ClientId(65536), {std::nullopt, 1, std::nullopt}, zero) == Code::Clients);
  for (std::uint32_t token = 0; token < 1048576; token++)
    all = queue.add_request(ClientId(1), Token(token), {1, 0}, zero).ok() && all;
  expect("1,048,577 requests", queue.add_request(ClientId(1), Token(0), {1, 0}, zero).code() == Code::QueueFull);
  expect("queue_limits", all && queue.client_count().value() == 65536 && queue.request_count().value() == 1048576);
  expect("one less", queue.pull_request(zero).ok() && queue.add_request(ClientId(1), Token(0), {1, 0}, zero).ok());
}

// ---- rates and clocks

static void run_rates() {
  expect("rates", rate_at_least(fine_hz, 1234).value() == 1248 && rate_at_most(fine_hz, 777).value() == 770);
  expect("no rate", rate_at_least(1000, 1001).code() == Code::BadRate && rate_at_most(1000, 0).code() == Code::BadRate);
  expect("no hz", rate_at_least(0, 1).code() == Code::BadConfig && Moment::from_nanos(0, 1).code() == Code::BadConfig);
  expect("a clock in thirds", Moment::from_nanos(3, 333333333).value() == Moment(0) &&
                                  Moment(1).to_nanos(3).value() == 333333334 &&
                                  Moment::from_nanos(3, 333333334).value() == Moment(1));
  expect("past the last moment", Moment((1ull << 62) + 1).to_nanos(1000).code() == Code::BadMoment);
  expect("due", nanos_until(1000, {0, 2}).value() == 2000000 && nanos_until(1000, {1, 0}).code() == Code::BadMoment);
}

// ---- what the header adds

static_assert(!std::is_copy_constructible_v<Queue> && !std::is_copy_assignable_v<Queue>);
static_assert(!std::is_copy_constructible_v<Tracker> && !std::is_copy_assignable_v<Tracker>);
static_assert(std::is_nothrow_move_constructible_v<Queue> && std::is_nothrow_move_assignable_v<Queue>);
static_assert(std::is_nothrow_move_constructible_v<Tracker> && std::is_nothrow_move_assignable_v<Tracker>);
static_assert(sizeof(Queue) == sizeof(dmc_queue) && sizeof(Tracker) == sizeof(dmc_tracker));
static_assert(!std::is_convertible_v<std::uint32_t, ClientId> && !std::is_convertible_v<ClientId, std::uint32_t>);
static_assert(!std::is_constructible_v<ClientId, Token> && !std::is_constructible_v<ClientId, ServerId>);
static_assert(!std::is_convertible_v<std::uint64_t, Moment>);
static_assert(ReqParams{2, 1}.cost == 1 && ReqParams{2, 1, 3}.cost == 3 && std::is_aggregate_v<ReqParams>);
static_assert(ClientId(1) < ClientId(2) && Moment(2) >= Moment(2) && Token(3) != Token(4));

static void run_moves() {
  const ClientId client(1);
  const Moment zero(0);
  Queue first = Queue::make(ticks).value();
  expect("registered", first.register_client(client, {std::nullopt, 1, std::nullopt}, zero) == Code::Ok);
  Queue second(std::move(first));
  expect("moved", second.client_count().value() == 1 && first.client_count().code() == Code::NoneHeld);
  Queue third = Queue::make(ticks).value();
  third = std::move(second);
  expect("moved over another", third.client_count().value() == 1 && second.pull_request(zero).code() == Code::NoneHeld);
  Queue &same = third;
  third = std::move(same);
  expect("moved to itself", third.client_count().value() == 1);
  std::vector<Queue> many;
  for (int n = 0; n < 9; n++) many.push_back(Queue::make(ticks).value());
  many[3] = std::move(third);
  expect("in a vector", many[3].client_count().value() == 1 && many[8].client_count().value() == 0);
  std::uint32_t count = 0;
  std::thread([&count, queue = std::move(many[3])]() mutable { count = queue.client_count().value(); }).join();
  expect("in another thread", count == 1);
  expect("none", Queue().client_count().code() == Code::NoneHeld &&
                     Queue().cancel(client, Token(1), static_cast<Counting>(2)).code() == Code::NoneHeld &&
                     Queue().register_client(client, {0, 1, {}}, zero) == Code::NoneHeld &&
                     Tracker().get_req_params(ServerId(0)).code() == Code::NoneHeld &&
                     Tracker().skip(ServerId(0)) == Code::NoneHeld &&
                     Tracker().track_resp(ServerId(0), PhaseType::Priority) == Code::NoneHeld);
  Tracker tracker = Tracker::make(1, 9, Counting::All).value(), other = std::move(tracker);
  tracker = std::move(other);
  expect("a tracker moved", tracker.status(ServerId(0)).ok() && other.status(ServerId(0)).code() == Code::NoneHeld);
}

static void run_results() {
  const Result<Queue> none = Queue::make({0});
  bool thrown = false;
  try {
    none.value();
  } catch (const Error &error) {
    thrown = error.code() == Code::BadConfig && std::string(error.what()) == "bad config";
  }
  expect("a value that is not there", thrown && !none && none.code() == Code::BadConfig);
  Result<Queue> made = Queue::make(ticks);
  expect("a value that stays in its result", made.value().register_client(ClientId(1), {std::nullopt, 1, std::nullopt}, Moment(0)) == Code::Ok &&
                                                 made.value().client_count().value() == 1);
  refuses = true;
  const bool refused = Queue::make(ticks).code() == Code::Memory && Tracker::make(1, 1, Counting::All).code() == Code::Memory;
  refuses = false;
  expect("out of memory", refused);
}

static void run_tags() {
  const ClientId client(1);
  const Moment zero(0);
  Queue queue = Queue::make(with(1000, AtLimit::Wait, TagKind::Ratio)).value();
  expect("a client in thirds", queue.register_client(client, {7, 3, std::nullopt}, zero) == Code::Ok);
  const Tags one = queue.add_request(client, Token(1), {1, 1}, zero).value();
  const Tags two = queue.add_request(client, Token(2), {1, 1}, zero).value();
  const Tag third = one.p(), seventh = *one.r();  // 1000/3, 1000/7
  expect("tags in order", third < two.p() && third <= third && third == third && third != two.p() && two.p() > third &&
                              two.p() >= third && seventh < third && !(third < seventh) && two.r()->compare(third) < 0);
  expect("a tag as a double", double(third) > 333.33 && double(third) < 333.34 && double(one.l()) == 0);
  // 2^62 ticks and more: a double is too coarse for the parts of a tick.
  const Result<Tags> far = queue.add_request(client, Token(3), {4294967295u, 4294967295u}, Moment(1ull << 62));
  expect("a far tag", far && far->p() >= far->l() && double(far->p()) >= 4611686018427387904.0);
  Queue slow = Queue::make(with(1000000000, AtLimit::Wait, TagKind::Tick)).value();
  bool all = slow.register_client(client, {std::nullopt, 1, 1}, zero) == Code::Ok;
  for (std::uint32_t token = 0; token < 4; token++) all = slow.add_request(client, Token(token), {~0u, 0}, zero).ok() && all;
  all = slow.remove_by_client(client).value() == 4 && all;
  const Tag last = slow.add_request(client, Token(4), {~0u, 0}, zero).value().l();  // 5 * (2^32 - 1) * 10^9
  const Due due = slow.pull_request(zero).value().due();
  expect("due past 2^64", all && due.high == 1 && due.low == 3028092401290448384 && last.high() == 1 && last.low() == due.low);
  std::unordered_map<ClientId, int> served;
  served[client]++;
  expect("a client as a key", served[ClientId(1)] == 1 && served.count(ClientId(2)) == 0);
}

int main() {
  run_scripts();
  run_newcomers();
  run_configs();
  run_trackers();
  run_shards();
  run_costs();
  run_returned();
  run_rates();
  run_limits();
  run_moves();
  run_results();
  run_tags();
  return failed;
}

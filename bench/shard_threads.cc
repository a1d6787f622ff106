// Threads at the shards of a server, each a queue in C++ in the design of Ceph's library behind a std::mutex, for a comparison with the
// load `shards` of dmc_bench: shard_threads THREADS SHARDS REQUESTS. The threads share the requests. Each has a client of its own, whose
// requests go to one of the shards, and adds one and pulls one there by turns. It records nothing, and no shard knows of another.
#include "shared_heaps.hpp"

#include <cstdio>
#include <cstdlib>
#include <ctime>
#include <mutex>
#include <thread>

namespace {

// In cache lines of its own.
struct alignas(128) Shard {
  std::mutex lock;
  shared_heaps::Queue queue;
};

std::uint64_t nanos() {
  timespec time;
  clock_gettime(CLOCK_MONOTONIC, &time);
  return static_cast<std::uint64_t>(time.tv_sec) * 1000000000u + static_cast<std::uint64_t>(time.tv_nsec);
}

// A client's requests at its shard. Each call takes the lock, as each call of the library does.
void serve(Shard &shard, std::uint32_t client, std::uint32_t requests, std::uint64_t &sum) {
  std::uint64_t granted = 0;
  for (std::uint32_t i = 0; i < requests; i++) {
    {
      const std::lock_guard<std::mutex> guard(shard.lock);
      shard.queue.add(client, client, 0, 1, 1);
    }
    std::uint32_t whose, token;
    const std::lock_guard<std::mutex> guard(shard.lock);
    if (shard.queue.pull(0, whose, token)) granted++;
  }
  sum = granted;
}

} // namespace

int main(int count, char **words) {
  if (count != 4) return 2;
  const auto threads = static_cast<std::uint32_t>(std::atoi(words[1])), shards = static_cast<std::uint32_t>(std::atoi(words[2]));
  const auto requests = static_cast<std::uint32_t>(std::atoi(words[3]));
  std::vector<Shard> all(shards);
  for (Shard &shard : all)
    for (std::uint32_t client = 0; client < threads; client++) shard.queue.add_client(client, 0, 1, 0);
  std::vector<std::uint64_t> granted(threads);
  std::vector<std::thread> running;
  const std::uint64_t begun = nanos();
  for (std::uint32_t client = 0; client < threads; client++)
    running.emplace_back(serve, std::ref(all[client % shards]), client, requests / threads, std::ref(granted[client]));
  for (std::thread &thread : running) thread.join();
  std::fprintf(stderr, "request %u %llu\n", requests, static_cast<unsigned long long>(nanos() - begun));
  std::uint64_t sum = 0;
  for (const std::uint64_t part : granted) sum += part;
  std::printf("%llu\n", static_cast<unsigned long long>(sum));
}

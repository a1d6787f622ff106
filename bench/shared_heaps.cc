// The load of bench/calls.c at a queue in C++ in the design of Ceph's library, for a comparison: shared_heaps CLIENTS ROUNDS [LIMIT].
#include "shared_heaps.hpp"

#include <cstdio>
#include <cstdlib>
#include <ctime>
#include <malloc.h>

namespace {

using shared_heaps::hz;
using shared_heaps::Queue;

std::uint64_t nanos() {
  timespec time;
  clock_gettime(CLOCK_MONOTONIC, &time);
  return static_cast<std::uint64_t>(time.tv_sec) * 1000000000u + static_cast<std::uint64_t>(time.tv_nsec);
}

void print(const char *part, std::uint32_t calls, std::uint64_t taken) {
  std::fprintf(stderr, "%s %u %llu\n", part, calls, static_cast<unsigned long long>(taken));
}

// Batches of pulls and adds, one moment each, of about half of the clients.
std::uint64_t serve(Queue &queue, std::uint32_t clients, std::uint32_t rounds, std::uint32_t limit) {
  const std::uint32_t batch = std::min(clients / 2 + 1, rounds), batches = rounds / batch;
  const double step = limit == 0 ? 1 / hz : 0.5 / limit;
  std::vector<std::uint32_t> granted(batch);
  std::uint64_t pulling = 0, adding = 0, checksum = 0;
  for (std::uint32_t round = 0; round < batches; round++) {
    const double at = step * round;
    std::uint32_t count = 0, token;
    std::uint64_t begun = nanos();
    for (std::uint32_t i = 0; i < batch; i++)
      if (queue.pull(at, granted[count], token)) count++;
    pulling += nanos() - begun;
    begun = nanos();
    for (std::uint32_t i = 0; i < count; i++) {
      queue.add(granted[i], granted[i], at, 1, 1);
      checksum = checksum * 31 + granted[i];
    }
    adding += nanos() - begun;
  }
  print("pull", batches * batch, pulling);
  print("add", batches * batch, adding);
  return checksum;
}

} // namespace

int main(int count, char **words) {
  if (count < 3) return 2;
  const auto clients = static_cast<std::uint32_t>(std::atoi(words[1])), rounds = static_cast<std::uint32_t>(std::atoi(words[2]));
  const auto limit = static_cast<std::uint32_t>(count > 3 ? std::atoi(words[3]) : 0);
  Queue queue;
  std::uint64_t begun = nanos();
  for (std::uint32_t id = 0; id < clients; id++) queue.add_client(id, 10, 1, limit);
  print("register", clients, nanos() - begun);
  begun = nanos();
  // The least tag is the first one's throughout. To look for it at each newcomer takes minutes at 65,536 clients, before what is compared.
  queue.add(0, 0, 0, 1, 1);
  const double least = queue.least_proportion();
  for (std::uint32_t id = 1; id < clients; id++) queue.add_newcomer(id, id, 0, least);
  print("newcomer", clients, nanos() - begun);
  const struct mallinfo2 info = mallinfo2();
  print("memory", clients, info.uordblks + info.hblkhd);
  std::printf("%llu\n", static_cast<unsigned long long>(serve(queue, clients, rounds, limit)));
}

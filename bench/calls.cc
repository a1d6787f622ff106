// The load `heap` of bench/calls.c through dmclock.hpp: calls CLIENTS ROUNDS. Its checksum is that of bench/calls.c.
#include "dmclock.hpp"

#include <algorithm>
#include <cstdlib>
#include <iostream>
#include <vector>

using namespace dmclock;

static constexpr std::uint32_t hz = 1000000;

static void add(Queue &queue, ClientId client, Moment at) {
  const auto tags = queue.add_request(client, Token(client.value()), {1, 1}, at);
  if (!tags) throw Error(tags.code());
}

// Batches of pulls and adds, one moment each, of about half of the clients.
static std::uint64_t serve(Queue &queue, std::uint32_t clients, std::uint32_t rounds) {
  const std::uint32_t batch = std::min(clients / 2 + 1, rounds), batches = rounds / batch;
  std::vector<ClientId> granted(batch);
  std::uint64_t checksum = 0;
  for (std::uint32_t round = 0; round < batches; round++) {
    const Moment at(round);
    std::size_t count = 0;
    for (std::uint32_t i = 0; i < batch; i++) {
      const auto pulled = queue.pull_request(at);
      if (pulled && pulled->is_granted()) granted[count++] = pulled->client();
    }
    for (std::size_t i = 0; i < count; i++) {
      add(queue, granted[i], at);
      checksum = checksum * 31 + granted[i].value();
    }
  }
  return checksum;
}

int main(int count, char **words) {
  if (count < 3) return 2;
  const auto clients = static_cast<std::uint32_t>(std::atoi(words[1])), rounds = static_cast<std::uint32_t>(std::atoi(words[2]));
  Queue queue = Queue::make({hz}).value();
  for (std::uint32_t id = 0; id < clients; id++)
    if (Code code = queue.register_client(ClientId(id), {10, 1, std::nullopt}, Moment(0)); code != Code::Ok) throw Error(code);
  for (std::uint32_t id = 0; id < clients; id++) add(queue, ClientId(id), Moment(0));
  std::cout << serve(queue, clients, rounds) << "\n";
  return 0;
}

// A queue in C++ in the design of Ceph's library, for comparisons: tags of doubles, records that a map and three heaps share, a heap for
// each order over all registered clients, and a deque of requests for each client. It was written for them from that library's
// published design. It proves nothing and locks nothing.
#pragma once
#include <algorithm>
#include <cstdint>
#include <deque>
#include <limits>
#include <map>
#include <memory>
#include <vector>

namespace shared_heaps {


constexpr double hz = 1e6;
constexpr double never = std::numeric_limits<double>::infinity();

struct Tag {
  double reservation, proportion, limit;
  bool is_ready;
};

struct Request {
  Tag tag;
  std::uint32_t token;
};

// How far apart the tags of a client's requests are, in seconds; 0 where it has no such rate.
struct Spacings {
  double reservation, weight, limit;
};

struct Client {
  std::uint32_t id;
  Spacings spacings;
  Tag previous{0, 0, 0, false};
  double shift = 0; // of the tags of weight, since the client was idle
  bool is_idle = true;
  std::deque<Request> requests{};
  std::size_t by_reservation = 0, by_limit = 0, by_readiness = 0; // its indexes in the heaps

  bool has_request() const { return !requests.empty(); }
  const Tag &next() const { return requests.front().tag; }
  double proportion() const { return next().proportion + shift; }
};

using Shared = std::shared_ptr<Client>;

// Orders of two clients. One without a request is last.
struct ByReservation {
  bool operator()(const Client &a, const Client &b) const {
    if (!a.has_request() || !b.has_request()) return a.has_request();
    return a.next().reservation < b.next().reservation;
  }
};

struct ByLimit {
  bool operator()(const Client &a, const Client &b) const {
    if (!a.has_request() || !b.has_request()) return a.has_request();
    if (a.next().is_ready != b.next().is_ready) return b.next().is_ready;
    return a.next().limit < b.next().limit;
  }
};

struct ByReadiness {
  bool operator()(const Client &a, const Client &b) const {
    if (!a.has_request() || !b.has_request()) return a.has_request();
    if (a.next().is_ready != b.next().is_ready) return a.next().is_ready;
    return a.proportion() < b.proportion();
  }
};

// A heap of shared records, each of which knows its index.
template <std::size_t Client::*place, typename Before>
class Heap {
 public:
  void push(const Shared &client) {
    (*client).*place = clients.size();
    clients.push_back(client);
    rise(clients.size() - 1);
  }

  Client &top() { return *clients.front(); }

  // The record has changed.
  void adjust(Client &client) {
    const std::size_t at = client.*place;
    if (at > 0 && before(*clients[at], *clients[(at - 1) / 2]))
      rise(at);
    else
      sink(at);
  }

 private:
  std::vector<Shared> clients;
  Before before;

  void put(std::size_t at, Shared client) {
    (*client).*place = at;
    clients[at] = std::move(client);
  }

  void rise(std::size_t at) {
    Shared client = std::move(clients[at]);
    while (at > 0 && before(*client, *clients[(at - 1) / 2])) {
      put(at, std::move(clients[(at - 1) / 2]));
      at = (at - 1) / 2;
    }
    put(at, std::move(client));
  }

  void sink(std::size_t at) {
    Shared client = std::move(clients[at]);
    for (std::size_t child = 2 * at + 1; child < clients.size(); child = 2 * at + 1) {
      if (child + 1 < clients.size() && before(*clients[child + 1], *clients[child])) child++;
      if (!before(*clients[child], *client)) break;
      put(at, std::move(clients[child]));
      at = child;
    }
    put(at, std::move(client));
  }
};

class Queue {
 public:
  void add_client(std::uint32_t id, double reservation, double weight, double limit) {
    auto spacing = [](double rate) { return rate > 0 ? 1 / rate : 0; };
    auto client = std::make_shared<Client>(Client{id, {spacing(reservation), spacing(weight), spacing(limit)}});
    clients.emplace(id, client);
    reservations.push(client);
    limits.push(client);
    readiness.push(client);
  }

  void add(std::uint32_t id, std::uint32_t token, double at, std::uint32_t delta, std::uint32_t rho) {
    Client &client = *clients.at(id);
    if (client.is_idle) wake(client, at, least_proportion());
    add_awake(client, token, at, delta, rho);
  }

  // Adds the first request of a client, where the least of the others is known.
  void add_newcomer(std::uint32_t id, std::uint32_t token, double at, double least) {
    Client &client = *clients.at(id);
    wake(client, at, least);
    add_awake(client, token, at, 1, 1);
  }

  // The least tag of weight of the clients that are not idle.
  double least_proportion() const {
    double least = never;
    for (const auto &client : clients)
      if (!client.second->is_idle)
        least = std::min(least, (client.second->has_request() ? client.second->next() : client.second->previous).proportion + client.second->shift);
    return least;
  }

  // Grants a request that is due, if there is one.
  bool pull(double at, std::uint32_t &id, std::uint32_t &token) {
    Client &reserved = reservations.top();
    if (reserved.has_request() && reserved.next().reservation <= at) return grant(reserved, id, token);
    make_ready(at);
    Client &ready = readiness.top();
    if (!ready.has_request() || !ready.next().is_ready) return false;
    const double spacing = ready.spacings.reservation;
    grant(ready, id, token);
    take_off_reservations(ready, spacing);
    return true;
  }

 private:
  std::map<std::uint32_t, Shared> clients;
  Heap<&Client::by_reservation, ByReservation> reservations;
  Heap<&Client::by_limit, ByLimit> limits;
  Heap<&Client::by_readiness, ByReadiness> readiness;

  static Tag tag(const Client &client, double at, std::uint32_t delta, std::uint32_t rho) {
    const Spacings &by = client.spacings;
    auto next = [at](double previous, double spacing, std::uint32_t count, double none) {
      return spacing == 0 ? none : std::max(at, previous + spacing * count);
    };
    return {next(client.previous.reservation, by.reservation, rho, never), next(client.previous.proportion, by.weight, delta, never),
            next(client.previous.limit, by.limit, delta, 0), false};
  }

  // An idle client begins where the least of the others is.
  void wake(Client &client, double at, double least) {
    client.shift = least < never ? least - at : 0;
    client.is_idle = false;
  }

  void add_awake(Client &client, std::uint32_t token, double at, std::uint32_t delta, std::uint32_t rho) {
    client.previous = tag(client, at, delta, rho);
    client.requests.push_back({client.previous, token});
    if (client.requests.size() == 1) adjust(client);
  }

  void adjust(Client &client) {
    reservations.adjust(client);
    limits.adjust(client);
    readiness.adjust(client);
  }

  // Marks the clients whose limit lets them be granted.
  void make_ready(double at) {
    for (Client *client = &limits.top(); client->has_request() && !client->next().is_ready && client->next().limit <= at; client = &limits.top()) {
      client->requests.front().tag.is_ready = true;
      readiness.adjust(*client);
      limits.adjust(*client);
    }
  }

  bool grant(Client &client, std::uint32_t &id, std::uint32_t &token) {
    id = client.id;
    token = client.requests.front().token;
    client.requests.pop_front();
    adjust(client);
    return true;
  }

  // A grant by weight is not one of the reservation.
  void take_off_reservations(Client &client, double spacing) {
    for (Request &request : client.requests) request.tag.reservation -= spacing;
    client.previous.reservation -= spacing;
    reservations.adjust(client);
  }
};

} // namespace shared_heaps

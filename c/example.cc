// A queue and a tracker in C++17, by dmclock.hpp. A request costs 1 for each block of 4 KiB.
#include "dmclock.hpp"

#include <iostream>
#include <optional>

using namespace dmclock;

int main() {
  const ClientId client(1);
  const ServerId server(0);
  try {
    QueueConfig config = {1000};
    config.at_limit = AtLimit::Allow;
    Queue queue = Queue::make(config).value();
    Tracker tracker = Tracker::make(1, 1000, Counting::All).value();
    const ClientInfo info = {10, 1, 20};  // at least 10 blocks a second, a weight of 1, at most 20
    if (Code code = queue.register_client(client, info, Moment(0)); code != Code::Ok) throw Error(code);
    for (std::uint32_t token = 0; token < 4; ++token) {
      const Moment at(30 * token);
      const std::uint32_t blocks = token == 1 ? 3 : 1;
      const ReqParams params = tracker.get_req_params(server, blocks).value();
      const Tags tags = queue.add_request(client, Token(token), params, at).value();
      std::cout << "token " << token << " cost " << params.cost << " tags " << double(*tags.r()) << " " << double(tags.l()) << " "
                << double(tags.p()) << "\n";
      // A device would do the work here. The response goes to the client's tracker.
      for (auto pulled = queue.pull_request(at); pulled && pulled->is_granted(); pulled = queue.pull_request(at)) {
        std::cout << "granted token " << pulled->token().value()
                  << (pulled->phase() == PhaseType::Reservation ? " by reservation" : " by weight")
                  << (pulled->beyond() ? ", beyond its limit\n" : "\n");
        if (Code code = tracker.track_resp(server, pulled->phase(), pulled->cost()); code != Code::Ok) throw Error(code);
      }
    }
    const TrackStatus status = tracker.status(server).value();
    std::cout << "completions " << status.completions() << ", by reservation " << status.reservation() << "\n";
    const Code again = queue.register_client(client, info, Moment(90));
    std::cout << "registered twice: " << text(again) << "\n";
  } catch (const Error &refused) {
    std::cerr << "refused: " << refused.what() << "\n";
    return 1;
  }
  return 0;
}

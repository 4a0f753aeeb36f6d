// A peer in C++ as Debian has it: a client and a server of iceoryx, the library before iceoryx2, in
// one thread of one process. They need its daemon, iox-roudi, which hands out their shared memory.
// exchange ROUNDS prints the sum of the responses, and the nanoseconds a round. It prints 0 where it
// gave up. A round is that of ../ports/src/work.rt.in: each response is one more than its request.
#include "iceoryx_posh/popo/client.hpp"
#include "iceoryx_posh/popo/server.hpp"
#include "iceoryx_posh/runtime/posh_runtime.hpp"
#include <chrono>
#include <cstdint>
#include <cstdio>
#include <cstdlib>
#include <thread>

using Client = iox::popo::Client<uint64_t, uint64_t>;
using Server = iox::popo::Server<uint64_t, uint64_t>;

// A request of that number is loaned, written and sent.
static bool ask(Client &client, uint64_t value) {
    auto loan = client.loan();
    if (loan.has_error()) return false;
    *loan.value() = value;
    return !loan.value().send().has_error();
}

// The next request is received and read, a response to it loaned, written and sent. Then the request
// is released: its value ends.
static bool serve(Server &server) {
    auto request = server.take();
    if (request.has_error()) return false;
    const uint64_t value = *request.value();
    auto loan = server.loan(request.value());
    if (loan.has_error()) return false;
    *loan.value() = value + 1;
    return !loan.value().send().has_error();
}

// The next response is received, read and released.
static bool hear(Client &client, uint64_t &value) {
    auto response = client.take();
    if (response.has_error()) return false;
    value = *response.value();
    return true;
}

// The rounds: one call, so that it stands by its name in a profile.
extern "C" __attribute__((noinline)) uint64_t exchanges(Client &client, Server &server, uint64_t rounds) {
    uint64_t sum = 0, heard = 0;
    for (uint64_t value = 0; value < rounds; ++value) {
        if (!ask(client, value) || !serve(server) || !hear(client, heard)) return 0;
        sum += heard;
    }
    return sum;
}

// Whether the daemon has connected both: it looks for new ports ten times a second.
static bool are_connected(const Client &client, const Server &server) {
    for (int tries = 0; tries < 3000; ++tries) {
        if (client.getConnectionState() == iox::ConnectionState::CONNECTED && server.hasClients()) return true;
        std::this_thread::sleep_for(std::chrono::milliseconds(10));
    }
    return false;
}

int main(int count, char **words) {
    if (count != 2) return 1;
    const uint64_t rounds = std::strtoull(words[1], nullptr, 10);
    iox::runtime::PoshRuntime::initRuntime("bench-exchange");
    // Up to four requests and two responses of a client wait, as where a service of iceoryx2 sets
    // nothing. A full queue pushes the oldest out: that is what iceoryx does where it is told nothing.
    iox::popo::ServerOptions answers;
    answers.requestQueueCapacity = 4;
    iox::popo::ClientOptions asks;
    asks.responseQueueCapacity = 2;
    const iox::capro::ServiceDescription service{"bench", "exchange", "numbers"};
    Server server{service, answers};
    Client client{service, asks};
    if (!are_connected(client, server)) return 1;
    const auto start = std::chrono::steady_clock::now();
    const uint64_t sum = exchanges(client, server, rounds);
    const std::chrono::duration<double, std::nano> time = std::chrono::steady_clock::now() - start;
    std::printf("%llu %.3f\n", (unsigned long long)sum, time.count() / double(rounds));
    return 0;
}

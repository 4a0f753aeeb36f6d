// Rounds of work at a hub in C++, as src/work.rt.in has them for the library.
#pragma once
#include <cstdint>
#include <optional>
#include <vector>

template <class Hub> struct Work {
    using Handle = typename Hub::Handle;
    using Kind = typename Hub::Kind;
    using PortName = typename Hub::PortName;
    Hub hub;
    PortName client{}, server;

    Work(uint64_t clients, uint64_t active) : hub({clients, active}), server(hub.make_server()) {
        for (uint64_t made = 0; made < clients; ++made) client = hub.make_client();
    }
    std::optional<Handle> ask(uint64_t value) {
        if (!hub.has_port(client)) return std::nullopt;
        std::optional<Handle> loan = hub.loan_request(client);
        if (!loan) return std::nullopt;
        hub.write(*loan, value);
        if (hub.calls >= uint64_t(1) << 56 || !hub.send_request(*loan)) return std::nullopt;
        return loan;
    }
    std::optional<Handle> receive() {
        if (hub.calls >= uint64_t(1) << 56 || !hub.has_port(server)) return std::nullopt;
        return hub.receive_request(server);
    }
    bool serve() {
        std::optional<Handle> request = receive();
        if (!request) return false;
        uint64_t value = hub.read(*request);
        bool answered = false;
        if (std::optional<Handle> loan = hub.loan_response(*request)) {
            hub.write(*loan, value + 1);
            answered = hub.calls < uint64_t(1) << 56 && hub.send_response(*loan);
        }
        hub.release_active(*request);
        return answered;
    }
    std::optional<uint64_t> hear(Handle pending) {
        if (hub.calls >= uint64_t(1) << 56 || !hub.has(pending, Kind::Pending)) return std::nullopt;
        std::optional<Handle> response = hub.receive_response(pending);
        if (!response) return std::nullopt;
        uint64_t value = hub.read(*response);
        hub.release_response(*response);
        return value;
    }

    uint64_t exchanges(uint64_t rounds) {
        uint64_t sum = 0;
        for (uint64_t value = 0; value < rounds; ++value) {
            std::optional<Handle> pending = ask(value);
            if (!pending) return 0;
            bool answered = serve();
            std::optional<uint64_t> heard = hear(*pending);
            hub.release_pending(*pending);
            if (!answered || !heard) return 0;
            sum += *heard;
        }
        return sum;
    }
    uint64_t request_loans(uint64_t waiting, uint64_t rounds) {
        for (; waiting > 0; --waiting)
            if (!ask(waiting)) return 0;
        for (uint64_t round = 0; round < rounds; ++round) {
            if (!hub.has_port(client)) return 0;
            std::optional<Handle> loan = hub.loan_request(client);
            if (!loan) return 0;
            hub.release_loan(*loan);
        }
        return rounds;
    }
    uint64_t response_loans(uint64_t rounds) {
        uint64_t count = 0;
        if (!ask(1)) return 0;
        std::optional<Handle> request = receive();
        if (!request) return 0;
        for (uint64_t round = 0; round < rounds; ++round) {
            if (!hub.has(*request, Kind::Active)) return 0;
            std::optional<Handle> loan = hub.loan_response(*request);
            if (!loan) return 0;
            hub.release_loan(*loan);
            ++count;
        }
        return count;
    }
};

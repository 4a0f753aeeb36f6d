// Further rounds of work at a hub in C++, as src/several.rt.in and src/given_back.rt.in have them
// for the library.
#pragma once
#include "plan.hpp"
#include "searches.hpp"
#include "work.hpp"

// A server is made, and clients that are there are connected to it.
inline same::PortName make_server(same::Hub &hub) { return hub.make_server(); }
inline plan::PortName make_server(plan::Hub &hub) {
    plan::PortName server = hub.make_server();
    for (uint32_t client : hub.clients) {
        uint64_t active = hub.sizes.active, lanes = hub.lanes_of_client();
        hub.ports[server.place].incoming.push_back(hub.pipe(client, 1, lanes, active, active));
        hub.ports[client].incoming.push_back(
            hub.pipe(server.place, lanes, 0, plan::Hub::buffer, plan::Hub::borrowed));
    }
    return server;
}

// With more than two servers a client has as many lanes as with two: nothing is counted of them.
template <class Hub> struct Further : Work<Hub> {
    using Base = Work<Hub>;
    using typename Base::Handle;
    using typename Base::Kind;
    using typename Base::PortName;
    using Base::hub;
    std::vector<PortName> others;

    Further(uint64_t servers, uint64_t active) : Base(1, active) {
        for (uint64_t made = 1; made < servers; ++made) others.push_back(make_server(hub));
    }

    // at several servers
    bool serve_all() {
        bool answered = this->serve();
        const PortName first = this->server;
        for (PortName other : others) {
            this->server = other;
            answered = this->serve() && answered;
        }
        this->server = first;
        return answered;
    }
    uint64_t exchanges_with_all(uint64_t rounds) {
        uint64_t sum = 0;
        for (uint64_t value = 0; value < rounds; ++value) {
            std::optional<Handle> pending = this->ask(value);
            if (!pending) return 0;
            bool answered = serve_all();
            for (size_t left = others.size() + 1; left > 0; --left) {
                std::optional<uint64_t> heard = this->hear(*pending);
                answered = heard && answered;
                sum += heard.value_or(0);
            }
            hub.release_pending(*pending);
            if (!answered) return 0;
        }
        return sum;
    }

    // after a response was given back
    bool respond(Handle request, uint64_t value) {
        if (!hub.has(request, Kind::Active)) return false;
        std::optional<Handle> loan = hub.loan_response(request);
        if (!loan) return false;
        hub.write(*loan, value);
        return hub.calls < uint64_t(1) << 56 && hub.send_response(*loan);
    }
    bool loan_response(Handle request) {
        if (!hub.has(request, Kind::Active)) return false;
        std::optional<Handle> loan = hub.loan_response(request);
        if (!loan) return false;
        hub.release_loan(*loan);
        return true;
    }
    uint64_t loans_after(uint64_t lane, uint64_t rounds) {
        for (; lane > 0; --lane) {
            std::optional<Handle> request = this->ask(lane) ? this->receive() : std::nullopt;
            if (!request) return 0;
            hub.release_active(*request);
        }
        std::optional<Handle> pending = this->ask(0);
        std::optional<Handle> request = pending ? this->receive() : std::nullopt;
        if (!request) return 0;
        for (uint64_t value = 0; value < rounds; ++value) {
            if (!respond(*request, value) || !this->hear(*pending)) return 0;
            if (!loan_response(*request)) return 0;
        }
        return rounds;
    }
};

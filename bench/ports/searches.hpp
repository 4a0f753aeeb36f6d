// The calls of the library's hub over its tables in C++, none of them inlined.
#pragma once
#include "tables.hpp"

namespace same {

struct Got { size_t pool; uint64_t slot; };

struct Hub : Tables {
    using Tables::Tables;

    // ---- questions

    TWIN_CALL bool has_port(PortName name) const {
        std::optional<size_t> place = port_at(name.number);
        return place && ports[*place].info.held && ports[*place].info.node == name.node;
    }
    bool is_there(Handle handle, Kind kind) const {
        if (port_at(handle.number)) return false;
        std::optional<size_t> place = place_of(handle.number);
        return place && places[*place]->node == handle.node && places[*place]->kind == kind;
    }
    TWIN_CALL bool has(Handle handle, Kind kind) const { return is_there(handle, kind); }
    TWIN_CALL uint64_t read(Handle handle) const {
        Entry e = entry(handle);
        return words[e.pool][e.slot][0];
    }

    // ---- loans

    size_t requests_on_loan(uint64_t client) const {
        return count_if([&](const Entry &e) {
            return e.port == client && (e.kind == Kind::RequestLoan || e.kind == Kind::Request);
        });
    }
    static bool is_response_loan(const Entry &e) {
        return e.kind == Kind::ResponseLoan || e.kind == Kind::Answer;
    }
    bool has_all_responses(uint64_t server, uint64_t client, uint64_t request) const {
        size_t to_this = count_if([&](const Entry &e) {
            return e.port == server && is_response_loan(e) && e.client == client
                && label(e.pool, e.slot).request == request;
        });
        size_t all =
            count_if([&](const Entry &e) { return e.port == server && is_response_loan(e); });
        return to_this >= to_one || all >= to_one * sizes.active * sizes.clients;
    }
    bool is_lane_taken(uint64_t client, uint64_t lane) const {
        return count_if([&](const Entry &e) {
            bool holds = e.kind == Kind::RequestLoan || e.kind == Kind::Request
                || e.kind == Kind::Pending;
            return e.port == client && holds && label(e.pool, e.slot).lane == lane;
        }) > 0;
    }
    std::optional<Handle> lend(
        const PortInfo &port, uint64_t client, uint64_t lane, uint64_t request) {
        get_all_back_to(port.number);
        if (port.role == Role::Client)
            for (lane = 0; lane < port.size && is_lane_taken(port.number, lane); ++lane) {}
        Pool &pool = *pools[port.pool];
        if (pool.free.empty()) return std::nullopt;
        uint64_t slot = pool.free.back();
        pool.free.pop_back();
        pool.slots[slot] = {port.loans, lane, request, 1, pool.slots[slot].holders + 1};
        ++ports[*port_at(port.number)].info.loans;
        ++calls;
        words[port.pool][slot].clear();
        Kind kind = port.role == Role::Client ? Kind::RequestLoan : Kind::ResponseLoan;
        return add({port.node, 0, kind, port.number, port.pool, slot, client, 0});
    }
    TWIN_CALL std::optional<Handle> loan_request(PortName client) {
        PortInfo info = port(client.number);
        if (calls >= uint64_t(1) << 56 || requests_on_loan(info.number) >= loaned)
            return std::nullopt;
        return lend(info, info.number, 0, info.loans % (uint64_t(1) << 62));
    }
    TWIN_CALL std::optional<Handle> loan_response(Handle request) {
        Entry e = entry(request);
        PortInfo info = port(e.port);
        Label asked = label(e.pool, e.slot);
        if (calls >= uint64_t(1) << 56 || has_all_responses(info.number, e.client, asked.request))
            return std::nullopt;
        return lend(info, e.client, asked.lane, asked.request);
    }
    TWIN_CALL void write(Handle loan, uint64_t value) {
        Entry e = entry(loan);
        if (pools[e.pool]->slots[e.slot].elements != 1) abort();
        e.kind = e.kind == Kind::RequestLoan ? Kind::Request : Kind::Answer;
        change(e);
        words[e.pool][e.slot].clear();
        words[e.pool][e.slot].push_back(value);
    }

    // ---- sends

    TWIN_CALL bool send_request(Handle request) {
        Entry e = entry(request);
        size_t pending = count_if([&](const Entry &other) {
            return other.port == e.port && other.kind == Kind::Pending;
        });
        if (pending >= sizes.active) return false;
        get_all_back_to(e.port);
        Label asked = label(e.pool, e.slot);
        on_each_server(e.port, asked.lane, [&](RequestState &state) {
            state = {true, false, asked.request};
        });
        for (size_t at = 0; at < ports.size(); ++at) {
            if (ports[at].info.role != Role::Server) continue;
            ++pools[e.pool]->slots[e.slot].holders;
            if (std::optional<uint64_t> oldest = offer(pipe_of(ports[at], e.port), 0, e.slot))
                let_go(e.pool, *oldest);
            ++e.connections;
        }
        e.kind = Kind::Pending;
        change(e);
        ++calls;
        return true;
    }
    TWIN_CALL bool send_response(Handle response) {
        Entry e = entry(response);
        Label asked = label(e.pool, e.slot);
        Way way{e.port, e.client, asked.lane};
        ++calls;
        if (port_at(e.client) && names(*state_on(way), asked.request)) {
            get_all_back(way, e.pool);
            if (std::optional<uint64_t> oldest = offer(pipe_on(way), asked.lane, e.slot))
                let_go(e.pool, *oldest);
        } else {
            let_go(e.pool, e.slot);
        }
        remove(e.number);
        disconnect_if_unused(e.port);
        return true;
    }

    // ---- receives

    template <class Wanted>
    std::optional<Got> visit(Incoming &pipes, uint64_t lane, Wanted wanted) {
        for (Pipe &pipe : pipes) {
            pipe.none_below = std::min<size_t>(pipe.none_below, lane);
            Lane &it = pipe.lanes[lane];
            if (it.taken.size() >= it.limit) continue;
            while (std::optional<uint64_t> slot = it.waiting.pop()) {
                if (wanted(label(it.pool, *slot))) {
                    it.taken.push_back(*slot);
                    return Got{it.pool, *slot};
                }
                it.given_back.push(*slot);
            }
        }
        return std::nullopt;
    }
    template <class Wanted>
    std::optional<Handle> receive(
        uint64_t node, uint64_t number, Kind kind, uint64_t lane, Wanted wanted) {
        Port &port = ports[*port_at(number)];
        std::optional<Got> got = visit(port.expired, lane, wanted);
        if (!got) got = visit(port.incoming, lane, wanted);
        ++calls;
        if (!got) return std::nullopt;
        uint64_t client = kind == Kind::Active ? pools[got->pool]->port : number;
        ++pools[got->pool]->slots[got->slot].holders;
        return add({node, 0, kind, number, got->pool, got->slot, client, 0});
    }
    TWIN_CALL std::optional<Handle> receive_request(PortName server) {
        return receive(server.node, server.number, Kind::Active, 0, [](Label) { return true; });
    }
    TWIN_CALL std::optional<Handle> receive_response(Handle pending) {
        Entry e = entry(pending);
        Label asked = label(e.pool, e.slot);
        return receive(e.node, e.port, Kind::Response, asked.lane,
            [&](Label label) { return label.request == asked.request; });
    }

    // ---- releases

    void disconnect_if_unused(uint64_t number) {
        PortInfo info = port(number);
        size_t handles = count_if([&](const Entry &e) { return e.port == number; });
        if (!info.held && handles == 0) abort();
    }
    void release(Handle handle, Kind kind) {
        if (!is_there(handle, kind)) return;
        Entry e = entry(handle);
        Label asked = label(e.pool, e.slot);
        if (kind == Kind::Pending) {
            on_each_server(e.port, asked.lane, [&](RequestState &state) {
                if (names(state, asked.request)) state.named = false;
            });
        } else if (kind == Kind::Active) {
            give_back({e.client, e.port, 0}, e.slot);
            RequestState *state = state_on({e.port, e.client, asked.lane});
            if (names(*state, asked.request)) state->named = false;
        } else if (kind == Kind::Response) {
            give_back({pools[e.pool]->port, e.port, asked.lane}, e.slot);
        }
        let_go(e.pool, e.slot);
        remove(e.number);
        disconnect_if_unused(e.port);
        if (is_idle(e.pool) && !port_at(pools[e.pool]->port)) abort();
    }
    TWIN_CALL void release_loan(Handle loan) {
        release(loan, entry(loan).kind);
    }
    TWIN_CALL void release_response(Handle response) { release(response, Kind::Response); }
    TWIN_CALL void release_active(Handle request) { release(request, Kind::Active); }
    TWIN_CALL void release_pending(Handle pending) { release(pending, Kind::Pending); }
};

} // namespace same

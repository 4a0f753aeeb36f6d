// The tables of the library's hub, and the searches of its calls, in C++: a port is looked for
// among all ports, a handle among all handles, and loans are counted by a walk over all handles.
// They lack: ports that go, growth, user headers, payloads of more than one element, lengths and
// layouts of messages, a position past which a queue takes nothing, and a test of places.
#pragma once
#include "ring.hpp"
#include <algorithm>
#include <cstdint>
#include <cstdlib>
#include <optional>
#include <vector>

namespace same {

enum class Kind : uint8_t { RequestLoan, Request, ResponseLoan, Answer, Pending, Active, Response };
enum class Role : uint8_t { Client, Server };
struct Handle { uint64_t node, number; };
using PortName = Handle;
struct Id { uint64_t words[3]; };

struct Entry {
    uint64_t node, number;
    Kind kind;
    uint64_t port;
    size_t pool;
    uint64_t slot, client, connections;
};
struct Slot { uint64_t serial, lane, request, elements, holders; };
struct Pool {
    uint64_t port;
    Id node_id, port_id;
    std::vector<Slot> slots;
    std::vector<uint64_t> free;
};
struct RequestState { bool named = false, hinted = false; uint64_t id = 0; };
struct Lane {
    size_t pool;
    Ring waiting, given_back;
    std::vector<uint64_t> taken;
    size_t buffer, limit;
};
struct Pipe {
    uint64_t sender;
    std::vector<Lane> lanes;
    std::vector<RequestState> states;
    size_t none_below = 0;
};
using Incoming = std::vector<Pipe>;
struct PortInfo {
    uint64_t number, node;
    Role role;
    Id node_id, id;
    size_t pool, size;
    uint64_t longest;
    bool grows, discards;
    uint64_t loaned_responses;
    bool held;
    uint64_t loans;
};
struct Port { PortInfo info; Incoming expired, incoming; };
struct Way { uint64_t sender, receiver, lane; };
struct Label { uint64_t lane, request; };
struct Sizes { uint64_t clients, active; };

// The tables, how ports are made, and parts of calls.
struct Tables {
    using Handle = same::Handle;
    using PortName = same::PortName;
    using Kind = same::Kind;
    static constexpr uint64_t loaned = 2, servers = 2, to_one = 2, buffer = 2, borrowed = 2;
    Sizes sizes;
    uint64_t calls = 0, next = 0;
    std::vector<Port> ports;
    std::vector<std::optional<Entry>> places;
    std::vector<size_t> vacant;
    std::vector<std::optional<Pool>> pools;
    std::vector<std::vector<std::vector<uint64_t>>> words;

    explicit Tables(Sizes sizes) : sizes(sizes) {}

    // ---- making

    uint64_t lanes_of_client() const { return loaned + sizes.active + 2 * servers * sizes.active; }
    uint64_t slots_of_server() const {
        return to_one * sizes.active * sizes.clients
            + sizes.clients * lanes_of_client() * (buffer + borrowed);
    }
    static Pipe pipe(const Port &from, size_t lanes, size_t states, size_t buffer, size_t limit) {
        Pipe pipe{from.info.number, {}, std::vector<RequestState>(states)};
        for (size_t lane = 0; lane < lanes; ++lane) {
            pipe.lanes.push_back(
                {from.info.pool, Ring(buffer), Ring(buffer + limit), {}, buffer, limit});
            pipe.lanes.back().taken.reserve(limit);
        }
        return pipe;
    }
    PortName make(Role role, uint64_t node, size_t slots) {
        Pool pool{next, {}, {}, std::vector<Slot>(slots), {}};
        for (size_t slot = 0; slot < slots; ++slot) pool.free.push_back(slot);
        Port port{};
        port.info = {
            next, node, role, {}, {}, pools.size(), slots, 1, false, false, to_one, true, 0};
        pools.push_back(std::move(pool));
        words.emplace_back(slots);
        for (std::vector<uint64_t> &message : words.back()) message.reserve(1);
        places.reserve(places.capacity() + slots);
        vacant.reserve(vacant.capacity() + slots);
        for (Port &other : ports) {
            if (other.info.role == role) continue;
            Port &client = role == Role::Client ? port : other;
            Port &server = role == Role::Client ? other : port;
            server.incoming.push_back(
                pipe(client, 1, lanes_of_client(), sizes.active, sizes.active));
            client.incoming.push_back(pipe(server, lanes_of_client(), 0, buffer, borrowed));
        }
        ports.push_back(std::move(port));
        return {node, next++};
    }
    PortName make_client() { return make(Role::Client, 0, lanes_of_client()); }
    PortName make_server() { return make(Role::Server, 1, slots_of_server()); }

    // ---- handles

    std::optional<size_t> place_of(uint64_t number) const {
        for (size_t place = 0; place < places.size(); ++place)
            if (places[place] && places[place]->number == number) return place;
        return std::nullopt;
    }
    Entry entry(Handle handle) const {
        std::optional<size_t> place = place_of(handle.number);
        if (!place || places[*place]->node != handle.node) abort();
        return *places[*place];
    }
    Handle add(Entry entry) {
        entry.number = next++;
        if (vacant.empty()) {
            places.push_back(entry);
        } else {
            places[vacant.back()] = entry;
            vacant.pop_back();
        }
        return {entry.node, entry.number};
    }
    void remove(uint64_t number) {
        size_t place = *place_of(number);
        places[place].reset();
        vacant.push_back(place);
    }
    void change(const Entry &entry) {
        std::optional<size_t> old = place_of(entry.number);
        if (old && places[*old]->node == entry.node) places[*place_of(entry.number)] = entry;
    }
    template <class Test> size_t count_if(Test test) const {
        size_t count = 0;
        for (const std::optional<Entry> &place : places)
            if (place && test(*place)) ++count;
        return count;
    }

    // ---- slots

    Label label(size_t pool, uint64_t slot) const {
        const Slot &it = pools[pool]->slots[slot];
        return {it.lane, it.request};
    }
    void let_go(size_t pool, uint64_t slot) {
        if (--pools[pool]->slots[slot].holders == 0) pools[pool]->free.push_back(slot);
    }
    bool is_idle(size_t pool) const {
        return pools[pool]->free.size() == pools[pool]->slots.size();
    }

    // ---- ports and lanes

    std::optional<size_t> port_at(uint64_t number) const {
        for (size_t place = 0; place < ports.size(); ++place)
            if (ports[place].info.number == number) return place;
        return std::nullopt;
    }
    PortInfo port(uint64_t number) const {
        std::optional<size_t> place = port_at(number);
        if (!place) abort();
        return ports[*place].info;
    }
    static Pipe *from(Incoming &pipes, uint64_t sender) {
        for (Pipe &pipe : pipes)
            if (pipe.sender == sender) return &pipe;
        return nullptr;
    }
    static Pipe *pipe_of(Port &port, uint64_t sender) {
        Pipe *pipe = from(port.expired, sender);
        return pipe ? pipe : from(port.incoming, sender);
    }
    Pipe *pipe_on(Way way) { return pipe_of(ports[*port_at(way.receiver)], way.sender); }
    RequestState *state_on(Way way) {
        return &pipe_of(ports[*port_at(way.sender)], way.receiver)->states[way.lane];
    }
    std::optional<uint64_t> get_back(Way way) {
        return pipe_on(way)->lanes[way.lane].given_back.pop();
    }
    void get_all_back(Way way, size_t pool) {
        while (std::optional<uint64_t> slot = get_back(way)) let_go(pool, *slot);
    }
    std::optional<size_t> lane_to_get(uint64_t sender, uint64_t receiver) {
        Pipe *pipe = pipe_on({sender, receiver, 0});
        size_t lane = pipe->none_below;
        while (lane < pipe->lanes.size() && pipe->lanes[lane].given_back.length == 0) ++lane;
        pipe->none_below = lane;
        if (lane < pipe->lanes.size()) return lane;
        return std::nullopt;
    }
    void get_all_back_to(uint64_t number) {
        PortInfo sender = port(number);
        for (size_t at = 0; at < ports.size(); ++at) {
            PortInfo to = ports[at].info;
            if (to.role == sender.role) continue;
            if (sender.role == Role::Client) {
                get_all_back({sender.number, to.number, 0}, sender.pool);
                continue;
            }
            while (std::optional<size_t> lane = lane_to_get(sender.number, to.number))
                get_all_back({sender.number, to.number, *lane}, sender.pool);
        }
    }
    static void push(Lane &lane, uint64_t slot) {
        size_t there = lane.waiting.length + lane.given_back.length + lane.taken.size();
        if (there < lane.buffer + lane.limit) lane.waiting.push(slot);
    }
    std::optional<uint64_t> offer(Pipe *pipe, size_t number, uint64_t slot) {
        Lane &lane = pipe->lanes[number];
        std::optional<uint64_t> oldest;
        if (lane.waiting.length >= lane.buffer) oldest = lane.waiting.pop();
        push(lane, slot);
        return oldest;
    }
    void give_back(Way way, uint64_t slot) {
        Pipe *pipe = pipe_on(way);
        pipe->none_below = std::min<size_t>(pipe->none_below, way.lane);
        Lane &lane = pipe->lanes[way.lane];
        auto taken = std::find(lane.taken.begin(), lane.taken.end(), slot);
        if (taken == lane.taken.end()) return;
        *taken = lane.taken.back();
        lane.taken.pop_back();
        lane.given_back.push(slot);
    }
    template <class Do> void on_each_server(uint64_t client, uint64_t lane, Do change) {
        for (Port &port : ports)
            if (port.info.role == Role::Server) change(pipe_of(port, client)->states[lane]);
    }
    static bool names(const RequestState &state, uint64_t request) {
        return state.named && state.id == request;
    }
};

} // namespace same

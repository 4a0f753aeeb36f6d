// A hub in C++ whose tables need no search: what each call needs, a handle or a port names by its
// place. It counts loans where the library counts handles, keeps the lanes that are free, and what
// receivers gave back in one list of each pipe.
// It lacks: growth, ports that go, expired pipes, user headers, payloads of more than one element,
// the lengths and layouts of messages, the refusals of a spent counter, and a test of places.
#pragma once
#include "ring.hpp"
#include <cstdint>
#include <cstdlib>
#include <optional>
#include <vector>

namespace plan {

enum class Kind : uint32_t {
    RequestLoan, Request, Pending, Active, ResponseLoan, Answer, Response
};
struct Handle { uint64_t number; uint32_t place; };
using PortName = Handle;

struct Lane { uint32_t pool; Ring waiting; std::vector<uint64_t> taken; size_t buffer, limit; };
struct RequestState { bool open = false, hinted = false; uint64_t id = 0; };
struct Given { uint32_t lane, slot; };
struct Pipe {
    uint64_t sender;
    std::vector<Given> given_back;
    std::vector<Lane> lanes;
    std::vector<RequestState> states;
};
struct Slot { uint64_t serial, lane, request, elements; uint32_t holders; };
struct Pool { uint64_t port; std::vector<Slot> slots; std::vector<uint32_t> free; };
struct Entry {
    uint64_t number, node;
    Kind kind;
    uint32_t port, pool, slot, client, connections;
};
// A port: of a client the lanes that are free, lowest first in the beginning.
struct Port {
    uint64_t number, node, loans = 0;
    uint32_t pool, rank, loaned = 0, active = 0;
    bool held = true;
    Ring lanes;
    std::vector<Pipe> incoming;
};

struct Sizes { uint64_t clients, active; };

// The tables, how ports are made, and parts of calls.
struct Tables {
    using PortName = plan::PortName;
    static constexpr uint64_t loaned = 2, servers_most = 2, response_loans = 2;
    static constexpr uint64_t buffer = 2, borrowed = 2;
    Sizes sizes;
    std::vector<Port> ports;
    std::vector<Pool> pools;
    std::vector<std::vector<uint64_t>> words;
    std::vector<Entry> table;
    std::vector<uint32_t> vacant, clients, servers;
    uint64_t calls = 0, next = 0;

    explicit Tables(Sizes sizes) : sizes(sizes) {}

    // ---- making

    uint64_t lanes_of_client() const {
        return loaned + sizes.active + 2 * servers_most * sizes.active;
    }
    uint64_t slots_of_server() const {
        return response_loans * sizes.active * sizes.clients
            + sizes.clients * lanes_of_client() * (buffer + borrowed);
    }
    Pipe pipe(uint32_t from, size_t lanes, size_t states, size_t buffer, size_t limit) {
        Pipe pipe{ports[from].number, {}, {}, std::vector<RequestState>(states)};
        for (size_t lane = 0; lane < lanes; ++lane) {
            pipe.lanes.push_back({ports[from].pool, Ring(buffer), {}, buffer, limit});
            pipe.lanes.back().taken.reserve(limit);
        }
        pipe.given_back.reserve(lanes * (buffer + limit));
        return pipe;
    }
    uint32_t port(uint64_t node, size_t slots, size_t lanes) {
        uint32_t place = ports.size();
        Pool pool{next, std::vector<Slot>(slots), {}};
        for (size_t slot = slots; slot > 0; --slot) pool.free.push_back(slot - 1);
        pools.push_back(std::move(pool));
        words.emplace_back(slots);
        Port port{};
        port.number = next++;
        port.node = node;
        port.pool = place;
        port.held = true;
        port.lanes = Ring(lanes);
        for (size_t lane = 0; lane < lanes; ++lane) port.lanes.push(lane);
        ports.push_back(std::move(port));
        for (size_t more = 0; more < slots; ++more) {
            vacant.push_back(table.size());
            table.push_back({UINT64_MAX, 0, Kind::Request, 0, 0, 0, 0, 0});
        }
        return place;
    }
    PortName make_client() {
        uint32_t client = port(0, lanes_of_client(), lanes_of_client());
        ports[client].rank = clients.size();
        clients.push_back(client);
        for (uint32_t server : servers) {
            ports[server].incoming.push_back(
                pipe(client, 1, lanes_of_client(), sizes.active, sizes.active));
            ports[client].incoming.push_back(pipe(server, lanes_of_client(), 0, buffer, borrowed));
        }
        return {ports[client].number, client};
    }
    PortName make_server() {
        uint32_t server = port(1, slots_of_server(), 0);
        ports[server].rank = servers.size();
        servers.push_back(server);
        return {ports[server].number, server};
    }

    // ---- parts of calls

    Entry &entry(Handle handle) {
        Entry &entry = table[handle.place];
        if (entry.number != handle.number) abort();
        return entry;
    }
    Handle add(Entry entry) {
        uint32_t place = vacant.back();
        vacant.pop_back();
        entry.number = next++;
        table[place] = entry;
        return {entry.number, place};
    }
    void remove(uint32_t place) {
        table[place].number = UINT64_MAX;
        vacant.push_back(place);
    }
    void let_go(uint32_t pool, uint32_t slot) {
        if (--pools[pool].slots[slot].holders == 0) pools[pool].free.push_back(slot);
    }
    void get_back(Pipe &pipe, uint32_t pool) {
        for (Given given : pipe.given_back) let_go(pool, given.slot);
        pipe.given_back.clear();
    }
    void get_back_on(Pipe &pipe, uint32_t pool, uint32_t lane) {
        size_t left = 0;
        for (Given given : pipe.given_back) {
            if (given.lane == lane) let_go(pool, given.slot);
            else pipe.given_back[left++] = given;
        }
        pipe.given_back.resize(left);
    }
    std::optional<uint32_t> slot_for(Port &port, uint64_t lane, uint64_t request) {
        Pool &pool = pools[port.pool];
        if (pool.free.empty()) return std::nullopt;
        uint32_t slot = pool.free.back();
        pool.free.pop_back();
        pool.slots[slot] = {port.loans++, lane, request, 1, 1};
        ++port.loaned;
        ++calls;
        return slot;
    }
    static void give_back(Pipe &pipe, Lane &lane, uint32_t number, uint32_t slot) {
        for (uint64_t &taken : lane.taken) {
            if (taken != slot) continue;
            taken = lane.taken.back();
            lane.taken.pop_back();
            break;
        }
        pipe.given_back.push_back({number, slot});
    }
    static void close(RequestState &state, uint64_t id) {
        if (state.open && state.id == id) state.open = false;
    }
};

// The calls, none of them inlined.
struct Hub : Tables {
    using Handle = plan::Handle;
    using Kind = plan::Kind;
    using Tables::Tables;

    TWIN_CALL bool has_port(PortName port) const {
        return ports[port.place].number == port.number && ports[port.place].held;
    }
    TWIN_CALL bool has(Handle handle, Kind kind) const {
        const Entry &entry = table[handle.place];
        return entry.number == handle.number && entry.kind == kind;
    }
    TWIN_CALL std::optional<Handle> loan_request(PortName client) {
        Port &port = ports[client.place];
        if (port.loaned >= loaned) return std::nullopt;
        for (uint32_t server : servers) get_back(ports[server].incoming[port.rank], port.pool);
        std::optional<uint64_t> lane = port.lanes.pop();
        if (!lane) return std::nullopt;
        std::optional<uint32_t> slot = slot_for(port, *lane, port.loans);
        if (!slot) return std::nullopt;
        return add({0, port.node, Kind::RequestLoan, client.place, port.pool, *slot,
            client.place, 0});
    }
    TWIN_CALL void write(Handle loan, uint64_t value) {
        Entry &e = entry(loan);
        words[e.pool][e.slot] = value;
        e.kind = e.kind == Kind::RequestLoan ? Kind::Request : Kind::Answer;
    }
    TWIN_CALL bool send_request(Handle request) {
        Entry &e = entry(request);
        Port &port = ports[e.port];
        if (port.active >= sizes.active) return false;
        Slot &slot = pools[e.pool].slots[e.slot];
        for (uint32_t server : servers) get_back(ports[server].incoming[port.rank], e.pool);
        for (uint32_t server : servers) {
            Pipe &pipe = ports[server].incoming[port.rank];
            Lane &lane = pipe.lanes[0];
            pipe.states[slot.lane] = {true, false, slot.request};
            if (lane.waiting.length >= lane.buffer) let_go(e.pool, *lane.waiting.pop());
            lane.waiting.push(e.slot);
            ++slot.holders;
            ++e.connections;
        }
        --port.loaned;
        ++port.active;
        ++calls;
        e.kind = Kind::Pending;
        return true;
    }
    TWIN_CALL std::optional<Handle> receive_request(PortName server) {
        Port &port = ports[server.place];
        ++calls;
        for (Pipe &pipe : port.incoming) {
            Lane &lane = pipe.lanes[0];
            if (lane.taken.size() >= lane.limit) continue;
            std::optional<uint64_t> slot = lane.waiting.pop();
            if (!slot) continue;
            lane.taken.push_back(*slot);
            uint32_t got = *slot, client = lane.pool;
            ++pools[lane.pool].slots[got].holders;
            return add({0, port.node, Kind::Active, server.place, lane.pool, got, client, 0});
        }
        return std::nullopt;
    }
    TWIN_CALL uint64_t read(Handle handle) {
        Entry &e = entry(handle);
        return words[e.pool][e.slot];
    }
    TWIN_CALL std::optional<Handle> loan_response(Handle request) {
        Entry e = entry(request);
        Port &port = ports[e.port];
        if (port.loaned >= response_loans * sizes.active * sizes.clients) return std::nullopt;
        for (uint32_t client : clients) get_back(ports[client].incoming[port.rank], port.pool);
        Slot &asked = pools[e.pool].slots[e.slot];
        std::optional<uint32_t> slot = slot_for(port, asked.lane, asked.request);
        if (!slot) return std::nullopt;
        return add({0, port.node, Kind::ResponseLoan, e.port, port.pool, *slot, e.client, 0});
    }
    TWIN_CALL bool send_response(Handle response) {
        Entry &e = entry(response);
        Port &port = ports[e.port], &client = ports[e.client];
        Slot &slot = pools[e.pool].slots[e.slot];
        RequestState state = port.incoming[client.rank].states[slot.lane];
        if (state.open && state.id == slot.request) {
            Pipe &pipe = client.incoming[port.rank];
            Lane &lane = pipe.lanes[slot.lane];
            get_back_on(pipe, e.pool, slot.lane);
            if (lane.waiting.length >= lane.buffer) let_go(e.pool, *lane.waiting.pop());
            lane.waiting.push(e.slot);
            ++slot.holders;
        }
        --port.loaned;
        ++calls;
        let_go(e.pool, e.slot);
        remove(response.place);
        return true;
    }
    TWIN_CALL std::optional<Handle> receive_response(Handle pending) {
        Entry e = entry(pending);
        Port &port = ports[e.port];
        Slot &asked = pools[e.pool].slots[e.slot];
        uint32_t number = asked.lane;
        ++calls;
        for (Pipe &pipe : port.incoming) {
            Lane &lane = pipe.lanes[number];
            if (lane.taken.size() >= lane.limit) continue;
            while (std::optional<uint64_t> slot = lane.waiting.pop()) {
                uint32_t got = *slot;
                if (pools[lane.pool].slots[got].request == asked.request) {
                    lane.taken.push_back(got);
                    ++pools[lane.pool].slots[got].holders;
                    return add({0, port.node, Kind::Response, e.port, lane.pool, got, e.port, 0});
                }
                pipe.given_back.push_back({number, got});
            }
        }
        return std::nullopt;
    }
    TWIN_CALL void release_loan(Handle loan) {
        Entry &e = entry(loan);
        Port &port = ports[e.port];
        --port.loaned;
        if (e.kind == Kind::RequestLoan) port.lanes.push(pools[e.pool].slots[e.slot].lane);
        let_go(e.pool, e.slot);
        remove(loan.place);
    }
    TWIN_CALL void release_response(Handle response) {
        Entry &e = entry(response);
        Pipe &pipe = ports[e.port].incoming[ports[e.pool].rank];
        uint32_t number = pools[e.pool].slots[e.slot].lane;
        give_back(pipe, pipe.lanes[number], number, e.slot);
        let_go(e.pool, e.slot);
        remove(response.place);
    }
    TWIN_CALL void release_active(Handle request) {
        Entry &e = entry(request);
        Pipe &pipe = ports[e.port].incoming[ports[e.client].rank];
        Slot &slot = pools[e.pool].slots[e.slot];
        give_back(pipe, pipe.lanes[0], 0, e.slot);
        close(pipe.states[slot.lane], slot.request);
        let_go(e.pool, e.slot);
        remove(request.place);
    }
    TWIN_CALL void release_pending(Handle pending) {
        Entry &e = entry(pending);
        Port &port = ports[e.port];
        Slot &slot = pools[e.pool].slots[e.slot];
        for (uint32_t server : servers)
            close(ports[server].incoming[port.rank].states[slot.lane], slot.request);
        --port.active;
        port.lanes.push(slot.lane);
        let_go(e.pool, e.slot);
        remove(pending.place);
    }
};

} // namespace plan

// Where calls go on, for steps.cpp alone: what each place has to do beside its access.
#pragma once
#include "wire.hpp"

namespace wire {

Progress Wire::take_slot(Node& x) {
    Port& port = *x.port;
    if (port.free.empty()) return answer(x, Answer::OutOfMemory);
    x.entry.slot = port.free.front();
    port.free.pop_front();
    port.serials[x.entry.slot] = port.loans;
    port.uses[x.entry.slot] = 1;
    if (port.plan.role == Role::Client) port.free_lanes.pop_front();
    x.first = port.region + x.entry.slot * port.plan.slot_words;
    x.next = 0;
    return go(x, Place::Stores);
}

Progress Wire::start_send(Node& x) {
    ++x.port->loans;
    if (x.port->plan.role == Role::Server) {
        const Port& client = ports_[x.entry.client];
        x.at = response_way(client, *x.port, x.entry.lane);
        x.state = x.at->base + responses_.state;
        return go(x, Place::ResponseAsks);
    }
    if (limits_.active_requests <= x.port->pending) return give_up(x, Answer::ExceedsMaxActiveRequests);
    x.deliveries = 0;
    if (servers_ == 0) return end_request(x);
    visits(x, &request_ways_[x.port->rank * servers_], 1, servers_);
    x.queue = x.at->base + requests_.back;
    return go(x, Place::RequestRead);
}

Progress Wire::look(Node& x) {
    x.fulls.assign(servers_, false);
    x.seen_full = 0;
    visits(x, &request_ways_[x.port->rank * servers_], 1, servers_);
    if (limits_.request_overflow) return open(x);
    x.queue = x.at->base;
    return go(x, Place::RequestLookWrite);
}

Progress Wire::open(Node& x) {
    visits(x, response_way(*x.port, *x.port, x.entry.lane) - x.port->rank, 1, servers_);
    x.state = x.at->base + responses_.state;
    return go(x, Place::Opens);
}

Progress Wire::deliver_first(Node& x) {
    visits(x, &request_ways_[x.port->rank * servers_], 1, servers_);
    if (x.seen_full != 0 && x.fulls[0]) return deliver_next(x);
    x.queue = x.at->base;
    return go(x, Place::RequestPushWrite);
}

Progress Wire::deliver_next(Node& x) {
    do {
        if (!next(x)) return end_request(x);
    } while (x.seen_full != 0 && x.fulls[servers_ - x.left]);
    x.queue = x.at->base;
    return go(x, Place::RequestPushWrite);
}

Progress Wire::end_request(Node& x) {
    x.entry.connections = x.deliveries;
    x.entries.push_back(x.entry);
    ++x.handles_made;
    ++x.port->pending;
    return answer(x, Answer::Handle, x.entry.number);
}

Progress Wire::end_response(Node& x, Answer told) {
    use_less(*x.port, x.entry.slot);
    return answer(x, told);
}

Progress Wire::give_up(Node& x, Answer told) {
    x.port->free_lanes.push_back(x.entry.lane);
    use_less(*x.port, x.entry.slot);
    return answer(x, told);
}

// It visits the way: at the borrow limit it looks, else it pops.
void Wire::enter(Node& x) {
    const u64 limit = x.port->plan.role == Role::Server ? limits_.active_requests : limits_.borrowed_responses;
    x.queue = x.at->base;
    x.place = limit <= x.at->borrowed ? Place::LookRead : Place::PopRead;
}

Progress Wire::visit_next(Node& x) {
    if (!next(x)) return answer(x, x.waiting ? Answer::ExceedsMaxBorrows : Answer::Nothing);
    enter(x);
    return going;
}

// The header of what it took is loaded.
Progress Wire::loaded(Node& x) {
    if (x.port->plan.role == Role::Server) {
        if (limits_.fire_and_forget) return take(x);
        const Port& client = ports_[x.at->way.sender];
        x.state = response_way(client, *x.port, x.message[4])->base + responses_.state;
        return go(x, Place::Asks);
    }
    if (x.message[4] == x.entry.request) return take(x);
    x.queue = x.at->base + x.queues->back;
    return go(x, Place::ReturnWrite);
}

Progress Wire::take(Node& x) {
    const Way& way = x.at->way;
    const u64 number = first_number_ + x.handles_made, port = x.port->plan.number;
    if (x.port->plan.role == Role::Server) {
        x.entries.push_back({number, Kind::ActiveRequest, port, way.sender, x.value, way.sender, x.message[4],
                             x.message[5], x.message[6], 0});
    } else {
        x.entries.push_back({number, Kind::Response, port, way.sender, x.value, port, way.lane, x.message[4],
                             x.message[5], 0});
    }
    ++x.at->borrowed;
    ++x.handles_made;
    return answer(x, Answer::Handle, number);
}

// What it received is given up.
Progress Wire::drop(Node& x) {
    --x.at->borrowed;
    remove(x, x.entry.number);
    return answer(x, Answer::Done);
}

}  // namespace wire

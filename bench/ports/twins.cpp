// The twins of bench/ports: the same rounds at a hub in C++.
#define TWIN_CALL __attribute__((noinline))
#include "plan.hpp"
#include "searches.hpp"
#include "work.hpp"

// How many active requests make so many lanes of a client.
static uint64_t active_for(uint64_t lanes) { return (lanes - 2) / 5; }

#define TWINS(NAME, HUB) \
    extern "C" uint64_t NAME##_exchange(uint64_t clients, uint64_t rounds) { \
        return Work<HUB>(clients, 4).exchanges(rounds); \
    } \
    extern "C" uint64_t NAME##_exchange_lanes(uint64_t lanes, uint64_t rounds) { \
        return Work<HUB>(1, active_for(lanes)).exchanges(rounds); \
    } \
    extern "C" uint64_t NAME##_request_loan(uint64_t clients, uint64_t rounds) { \
        return Work<HUB>(clients, 4).request_loans(0, rounds); \
    } \
    extern "C" uint64_t NAME##_request_loan_waiting(uint64_t waiting, uint64_t rounds) { \
        return Work<HUB>(1, 16).request_loans(waiting, rounds); \
    } \
    extern "C" uint64_t NAME##_response_loan(uint64_t clients, uint64_t rounds) { \
        return Work<HUB>(clients, 4).response_loans(rounds); \
    } \
    extern "C" uint64_t NAME##_response_loan_lanes(uint64_t lanes, uint64_t rounds) { \
        return Work<HUB>(1, active_for(lanes)).response_loans(rounds); \
    }

TWINS(plan, plan::Hub)
TWINS(same, same::Hub)

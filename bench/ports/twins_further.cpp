// The twins of further rounds. They stand apart, so that those of twins.cpp are built as they were.
#define TWIN_CALL __attribute__((noinline))
#include "further.hpp"

// How many active requests make so many lanes of a client.
static uint64_t active_for(uint64_t lanes) { return (lanes - 2) / 5; }

#define TWINS(NAME, HUB) \
    extern "C" uint64_t NAME##_exchange_servers(uint64_t servers, uint64_t rounds) { \
        return Further<HUB>(servers, 4).exchanges_with_all(rounds); \
    } \
    extern "C" uint64_t NAME##_request_loan_servers(uint64_t servers, uint64_t rounds) { \
        return Further<HUB>(servers, 4).request_loans(0, rounds); \
    } \
    extern "C" uint64_t NAME##_response_loan_after(uint64_t lane, uint64_t rounds) { \
        return Further<HUB>(1, 72).loans_after(lane, rounds); \
    } \
    extern "C" uint64_t NAME##_response_loan_after_lanes(uint64_t lanes, uint64_t rounds) { \
        return Further<HUB>(1, active_for(lanes)).loans_after(63, rounds); \
    }

TWINS(plan, plan::Hub)
TWINS(same, same::Hub)

// Peers in C++ as Debian has them: the FiFo and the SoFi of iceoryx, the library before iceoryx2,
// both for two threads. Rounds as in ../twins.cpp.
#include "iceoryx_hoofs/internal/concurrent/fifo.hpp"
#include "iceoryx_hoofs/internal/concurrent/sofi.hpp"
#include <cstdint>
#include <cstdlib>

// The one function of its library that the headers call: a test that never fails here.
namespace iox::cxx::internal {
void Require(bool holds, const char *, int, const char *, const char *) noexcept {
    if (!holds) abort();
}
} // namespace iox::cxx::internal

extern "C" uint64_t peer_fifo(uint64_t rounds) {
    static iox::concurrent::FiFo<uint64_t, 128> queue;
    uint64_t sum = 0;
    for (uint64_t value = 0; value < 64; ++value) queue.push(value);
    for (uint64_t value = 0; value < rounds; ++value) {
        queue.push(value);
        if (auto popped = queue.pop()) sum += *popped;
    }
    return sum;
}

extern "C" uint64_t peer_sofi(uint64_t rounds) {
    static iox::concurrent::SoFi<uint64_t, 128> queue;
    uint64_t sum = 0, old;
    for (uint64_t value = 0; value < 64; ++value) queue.push(value, old);
    for (uint64_t value = 0; value < rounds; ++value) {
        queue.push(value, old);
        if (queue.pop(old)) sum += old;
    }
    return sum;
}

extern "C" uint64_t peer_sofi_full(uint64_t rounds) {
    static iox::concurrent::SoFi<uint64_t, 128> queue;
    uint64_t sum = 0, old;
    for (uint64_t value = 0; value < 128; ++value) queue.push(value, old);
    for (uint64_t value = 0; value < rounds; ++value)
        if (!queue.push(value, old)) sum += old;
    return sum;
}

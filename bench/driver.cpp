// The rows of queues, sets and machines: driver.hpp says how it is called.
#include "driver.hpp"

#define ROWS(ROW) \
    ROW(iox_index_queue) ROW(iox_fixed_index_queue) \
    ROW(iox_index_queue_by_calls) ROW(iox_fixed_index_queue_by_calls) ROW(iox_overflowing_queue) \
    ROW(iox_overflowing_queue_full) ROW(iox_value_queue) ROW(iox_unique_index_set) \
    ROW(iox_unique_index_option) ROW(iox_unique_index_window) \
    ROW(iox_robust_unique_index_set) ROW(iox_bit_set) ROW(iox_large_bit_set) ROW(iox_bit_set_all) \
    ROW(iox_counting_bit_set_all) ROW(iox_fixed_whole_calls) ROW(iox_fixed_overflowing_whole_calls) \
    ROW(iox_queue_machine) ROW(iox_cell_machine) ROW(iox_stored_steps) \
    ROW(iox_container) ROW(iox_container_find) ROW(iox_container_state) \
    ROW(twin_boost_spsc_queue) ROW(twin_boost_fixed_spsc_queue) \
    ROW(twin_ring) ROW(twin_positions) ROW(twin_ring_by_calls) \
    ROW(twin_fixed_ring_by_calls) ROW(twin_fixed_boost_by_calls) \
    ROW(twin_optional_ring) ROW(twin_overflowing_ring) ROW(twin_overflowing_ring_full) ROW(twin_sofi) \
    ROW(twin_sofi_full) ROW(twin_stack) ROW(twin_stack_window) \
    ROW(twin_owners) ROW(twin_bit_set) ROW(twin_large_bit_set) ROW(twin_bit_set_all) \
    ROW(twin_counting_bit_set_all) ROW(twin_fixed_whole_calls) ROW(twin_fixed_overflowing_whole_calls) \
    ROW(twin_queue_machine) ROW(twin_cell_machine) ROW(twin_stored_steps) \
    ROW(twin_container) ROW(twin_container_find) ROW(twin_container_state)
#ifdef PEERS
#define PEER_ROWS(ROW) \
    ROW(peer_ck_ring) ROW(peer_dpdk_ring) ROW(peer_fifo) ROW(peer_sofi) ROW(peer_sofi_full)
#else
#define PEER_ROWS(ROW)
#endif
#ifdef RUST
#define RUST_ROWS(ROW) ROW(rust_ring) ROW(rust_deque)
#else
#define RUST_ROWS(ROW)
#endif
#define SIZED_ROWS(ROW) \
    ROW(iox_index_queue_waiting) ROW(iox_overflowing_queue_waiting) \
    ROW(twin_ring_waiting) ROW(twin_boost_waiting) ROW(twin_overflowing_ring_waiting) \
    ROW(iox_any_index_queue) ROW(iox_whole_calls) ROW(iox_overflowing_whole_calls) ROW(iox_evicting_whole_calls) \
    ROW(twin_any_ring) ROW(twin_any_positions) ROW(twin_any_boost) ROW(twin_whole_calls) \
    ROW(twin_overflowing_whole_calls) ROW(twin_evicting_whole_calls)

extern "C" {
#define DECLARED(NAME) uint64_t NAME(uint64_t rounds);
ROWS(DECLARED)
PEER_ROWS(DECLARED)
RUST_ROWS(DECLARED)
#define SIZED_DECLARED(NAME) uint64_t NAME(uint64_t capacity, uint64_t rounds);
SIZED_ROWS(SIZED_DECLARED)
}

int main(int count, char **words) {
#define LISTED(NAME) {#NAME, NAME, nullptr},
#define SIZED_LISTED(NAME) {#NAME, nullptr, NAME},
    const Row rows[] = {ROWS(LISTED) PEER_ROWS(LISTED) RUST_ROWS(LISTED) SIZED_ROWS(SIZED_LISTED)};
    return drive(rows, count, words);
}

/* Peers in C as Debian has them: Concurrency Kit's ck_ring and DPDK's rte_ring, both of one
   producer and one consumer, in two threads at most. Rounds as in ../twins.cpp: 64 numbers wait.
   Their sizes are powers of two, so they have room for more than 128. */
#include <ck_ring.h>
#include <rte_ring.h>
#include <rte_ring_elem.h>
#include <stdint.h>

uint64_t peer_ck_ring(uint64_t rounds) {
    static ck_ring_buffer_t cells[256];
    ck_ring_t ring;
    uint64_t sum = 0;
    void *popped;
    ck_ring_init(&ring, 256);
    for (uint64_t value = 0; value < 64; ++value) ck_ring_enqueue_spsc(&ring, cells, (void *)value);
    for (uint64_t value = 0; value < rounds; ++value) {
        ck_ring_enqueue_spsc(&ring, cells, (void *)value);
        if (ck_ring_dequeue_spsc(&ring, cells, &popped)) sum += (uint64_t)popped;
    }
    return sum;
}

/* What rte_ring_init makes of RING_F_SP_ENQ and RING_F_SC_DEQ, with no library. */
static struct rte_ring *dpdk_ring(void) {
    static union { struct rte_ring ring; char room[sizeof(struct rte_ring) + 256 * 8]; } it;
    it.ring.size = 256;
    it.ring.mask = 255;
    it.ring.capacity = 255;
    it.ring.prod.head = it.ring.prod.tail = it.ring.cons.head = it.ring.cons.tail = 0;
    it.ring.prod.sync_type = it.ring.cons.sync_type = RTE_RING_SYNC_ST;
    return &it.ring;
}

uint64_t peer_dpdk_ring(uint64_t rounds) {
    struct rte_ring *ring = dpdk_ring();
    uint64_t sum = 0, popped;
    for (uint64_t value = 0; value < 64; ++value) rte_ring_sp_enqueue_elem(ring, &value, 8);
    for (uint64_t value = 0; value < rounds; ++value) {
        rte_ring_sp_enqueue_elem(ring, &value, 8);
        if (rte_ring_sc_dequeue_elem(ring, &popped, 8) == 0) sum += popped;
    }
    return sum;
}

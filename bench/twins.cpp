// The twins: the same work in C++, and boost's spsc_queue. Each answers the sum that its Rattle counterpart answers.
#include "parties.hpp"
#include "queues.hpp"
#include <boost/lockfree/spsc_queue.hpp>
#include <cstdint>
#include <optional>

namespace {

// A push and a pop a round, at a queue in which so many wait.
template <class Push, class Pop>
__attribute__((always_inline)) inline uint64_t push_and_pop(uint64_t rounds, Push push, Pop pop, uint64_t waiting = 64) {
    for (uint64_t value = 0; value < waiting; ++value) push(value);
    uint64_t sum = 0;
    for (uint64_t value = 0; value < rounds; ++value) {
        push(value);
        if (std::optional<uint64_t> popped = pop()) sum += *popped;
    }
    return sum;
}

template <class Q>
__attribute__((always_inline)) inline uint64_t push_and_pop(Q &&queue, uint64_t rounds, uint64_t waiting = 64) {
    return push_and_pop(rounds, [&](uint64_t value) { queue.push(value); }, [&] { return queue.pop(); }, waiting);
}

template <class Q> uint64_t boost_push_and_pop(Q &&queue, uint64_t rounds, uint64_t waiting = 64) {
    return push_and_pop(rounds, [&](uint64_t value) { queue.push(value); }, [&]() -> std::optional<uint64_t> {
        uint64_t popped;
        if (!queue.pop(popped)) return std::nullopt;
        return popped;
    }, waiting);
}

// A push a round, at a queue that is full.
template <class Q> uint64_t push_over(Q &&queue, uint64_t rounds, uint64_t capacity = 128) {
    for (uint64_t value = 0; value < capacity; ++value) queue.push(value);
    uint64_t sum = 0;
    for (uint64_t value = 0; value < rounds; ++value)
        if (std::optional<uint64_t> old = queue.push(value)) sum += *old;
    return sum;
}

__attribute__((noinline)) std::optional<uint32_t> call_acquire(Stack &set) { return set.acquire(); }
__attribute__((noinline)) bool call_push(Ring &ring, uint64_t value) { return ring.push(value); }
__attribute__((noinline)) std::optional<uint64_t> call_pop(Ring &ring) { return ring.pop(); }

__attribute__((noinline)) bool call_push(FixedRing &ring, uint64_t value) { return ring.push(value); }
__attribute__((noinline)) std::optional<uint64_t> call_pop(FixedRing &ring) { return ring.pop(); }
using FixedBoost = boost::lockfree::spsc_queue<uint64_t, boost::lockfree::capacity<128>>;
__attribute__((noinline)) bool call_push(FixedBoost &queue, uint64_t value) { return queue.push(value); }
__attribute__((noinline)) std::optional<uint64_t> call_pop(FixedBoost &queue) {
    uint64_t popped;
    if (!queue.pop(popped)) return std::nullopt;
    return popped;
}

__attribute__((noinline)) Answer call_step_push(Stored &queue) { return queue.step_push(); }
__attribute__((noinline)) Answer call_step_pop(Stored &queue) { return queue.step_pop(); }

template <class Q> uint64_t push_and_pop_by_calls(Q &&queue, uint64_t rounds) {
    return push_and_pop(rounds, [&](uint64_t value) { call_push(queue, value); }, [&] { return call_pop(queue); });
}

// Whole calls on the words of a queue in which half as many wait as may.
__attribute__((always_inline)) inline uint64_t whole_calls(uint64_t capacity, uint64_t rounds) {
    Words words(false, capacity);
    return push_and_pop(rounds, [&](uint64_t value) { words.pushed(value); }, [&] { return words.pop(); }, capacity / 2);
}
__attribute__((always_inline)) inline uint64_t overflowing_whole_calls(uint64_t capacity, uint64_t rounds) {
    return push_and_pop(Words(true, capacity), rounds, capacity / 2);
}

uint64_t bits(size_t capacity, uint64_t rounds) {
    Bits set(capacity);
    uint64_t sum = 0;
    for (uint64_t round = 0; round < rounds; ++round) {
        size_t id = round % 2048 * 37 % capacity;
        if (id < capacity) set.set(id);
        if (auto lowest = set.reset_next()) sum += *lowest;
    }
    return sum;
}

// A container of 128 slots of which the lowest 64 have entries.
Container half_full() {
    Container container(128, 1);
    for (uint64_t value = 0; value < 64; ++value) container.add(value, 7);
    return container;
}

} // namespace

extern "C" {

uint64_t twin_boost_spsc_queue(uint64_t rounds) {
    return boost_push_and_pop(boost::lockfree::spsc_queue<uint64_t>(128), rounds);
}
uint64_t twin_boost_fixed_spsc_queue(uint64_t rounds) {
    return boost_push_and_pop(FixedBoost(), rounds);
}
uint64_t twin_ring(uint64_t rounds) { return push_and_pop(Ring(128), rounds); }
uint64_t twin_ring_waiting(uint64_t waiting, uint64_t rounds) { return push_and_pop(Ring(128), rounds, waiting); }
uint64_t twin_boost_waiting(uint64_t waiting, uint64_t rounds) {
    return boost_push_and_pop(boost::lockfree::spsc_queue<uint64_t>(128), rounds, waiting);
}
uint64_t twin_positions(uint64_t rounds) { return push_and_pop(Positions(128), rounds); }
uint64_t twin_any_ring(uint64_t capacity, uint64_t rounds) { return push_and_pop(Ring(capacity), rounds, capacity / 2); }
uint64_t twin_any_positions(uint64_t capacity, uint64_t rounds) {
    return push_and_pop(Positions(capacity), rounds, capacity / 2);
}
uint64_t twin_any_boost(uint64_t capacity, uint64_t rounds) {
    return boost_push_and_pop(boost::lockfree::spsc_queue<uint64_t>(capacity), rounds, capacity / 2);
}
uint64_t twin_optional_ring(uint64_t rounds) { return push_and_pop(RingOf<std::optional<uint64_t>>(128), rounds); }
uint64_t twin_overflowing_ring(uint64_t rounds) { return push_and_pop(Overflowing(128), rounds); }
uint64_t twin_overflowing_ring_waiting(uint64_t waiting, uint64_t rounds) {
    return push_and_pop(Overflowing(128), rounds, waiting);
}
uint64_t twin_overflowing_ring_full(uint64_t rounds) { return push_over(Overflowing(128), rounds); }
uint64_t twin_sofi(uint64_t rounds) { return push_and_pop(SoFi(128), rounds); }
uint64_t twin_sofi_full(uint64_t rounds) { return push_over(SoFi(128), rounds); }
uint64_t twin_ring_by_calls(uint64_t rounds) {
    return push_and_pop_by_calls(Ring(128), rounds);
}
uint64_t twin_fixed_ring_by_calls(uint64_t rounds) { return push_and_pop_by_calls(FixedRing(), rounds); }
uint64_t twin_fixed_boost_by_calls(uint64_t rounds) { return push_and_pop_by_calls(FixedBoost(), rounds); }
uint64_t twin_whole_calls(uint64_t capacity, uint64_t rounds) { return whole_calls(capacity, rounds); }
uint64_t twin_fixed_whole_calls(uint64_t rounds) { return whole_calls(128, rounds); }
uint64_t twin_overflowing_whole_calls(uint64_t capacity, uint64_t rounds) {
    return overflowing_whole_calls(capacity, rounds);
}
uint64_t twin_fixed_overflowing_whole_calls(uint64_t rounds) { return overflowing_whole_calls(127, rounds); }
uint64_t twin_evicting_whole_calls(uint64_t capacity, uint64_t rounds) {
    return push_over(Words(true, capacity), rounds, capacity);
}
uint64_t twin_stack(uint64_t rounds) {
    Stack set(128);
    for (int i = 0; i < 64; ++i) set.acquire();
    uint64_t sum = 0;
    for (uint64_t round = 0; round < rounds; ++round) {
        if (auto index = call_acquire(set)) {
            sum += *index;
            set.release(*index);
        }
    }
    return sum;
}
uint64_t twin_stack_window(uint64_t rounds) {
    Stack set(128);
    std::optional<uint32_t> window[64] = {};
    uint64_t draw = 1, sum = 0;
    for (uint64_t round = 0; round < rounds; ++round) {
        draw = draw * 1664525 + 1013904223;
        std::optional<uint32_t> &place = window[draw >> 58], next;
        if (place) {
            set.release(*place);
        } else if (auto index = set.acquire()) {
            sum += *index;
            next = index;
        }
        place = next;
    }
    return sum;
}
uint64_t twin_owners(uint64_t rounds) {
    Owners set(128);
    for (int i = 0; i < 100; ++i) set.acquire(7);
    uint64_t sum = 0;
    for (uint64_t round = 0; round < rounds; ++round) {
        if (auto index = set.acquire(7)) {
            sum += *index;
            set.release(*index);
        }
    }
    for (size_t index = 0; index < 128; ++index)
        if (set.owners[index] && *set.owners[index] == 7) sum += index;
    return sum;
}
uint64_t twin_bit_set(uint64_t rounds) { return bits(128, rounds); }
uint64_t twin_large_bit_set(uint64_t rounds) { return bits(1024, rounds); }
uint64_t twin_bit_set_all(uint64_t rounds) {
    Bits set(1024);
    uint64_t sum = 0;
    for (uint64_t round = 0; round < rounds; ++round) {
        for (uint64_t bit = 0; bit < 32; ++bit) set.set(bit * 37 % 1024);
        set.reset_all([&](size_t id) { sum += id; });
        sum += round;
    }
    return sum;
}
uint64_t twin_counting_bit_set_all(uint64_t rounds) {
    Counts set(1024);
    uint64_t sum = 0;
    for (uint64_t round = 0; round < rounds; ++round) {
        for (uint64_t bit = 0; bit < 32; ++bit) set.set(bit * 37 % 1024);
        set.reset_all([&](size_t, uint64_t count) { sum += count; });
        sum += round;
    }
    return sum;
}
uint64_t twin_queue_machine(uint64_t rounds) {
    Machine machine(false, 128);
    uint64_t sum = 0;
    for (uint64_t value = 0; value < rounds; ++value) {
        if (!machine.begin(0, At::PushLoadsWrite, value)) return 0;
        for (int i = 0; i < 4; ++i) if (machine.step(0).says == Says::Refused) return 0;
        if (!machine.begin(1, At::PopLoadsRead, 0)) return 0;
        for (int i = 0; i < 4; ++i) {
            Answer answer = machine.step(1);
            if (answer.says == Says::Gives) sum += answer.value;
        }
    }
    return sum;
}
uint64_t twin_cell_machine(uint64_t rounds) {
    CellMachine<2> machine(128);
    uint64_t sum = 0;
    for (uint64_t value = 0; value < rounds; ++value) {
        if (!machine.begin(0, At::PushLoadsWrite, {value, 0})) return 0;
        for (int i = 0; i < 5; ++i) if (machine.step(0).says == Says::Refused) return 0;
        if (!machine.begin(1, At::PopLoadsRead, {})) return 0;
        for (int i = 0; i < 5; ++i) {
            auto said = machine.step(1);
            if (said.says == Says::Gives) sum += said.value[0];
        }
    }
    return sum;
}
uint64_t twin_stored_steps(uint64_t rounds) {
    Stored queue(false, 128);
    uint64_t sum = 0;
    for (uint64_t value = 0; value < rounds; ++value) {
        if (!queue.begin(queue.pusher, At::PushLoadsWrite, value)) return 0;
        for (int i = 0; i < 4; ++i) if (call_step_push(queue).says == Says::Gives) return 0;
        if (!queue.begin(queue.popper, At::PopLoadsRead, 0)) return 0;
        for (int i = 0; i < 4; ++i) {
            Answer answer = call_step_pop(queue);
            if (answer.says == Says::Gives) sum += answer.value;
        }
    }
    return sum;
}

uint64_t twin_container(uint64_t rounds) {
    Container container = half_full();
    uint64_t sum = 0;
    for (uint64_t value = 0; value < rounds; ++value)
        if (auto handle = container.add(value, 7)) {
            sum += handle->index;
            container.remove(*handle);
        }
    return sum;
}
uint64_t twin_container_find(uint64_t rounds) {
    Container container = half_full();
    uint64_t sum = 0;
    for (uint64_t round = 0; round < rounds; ++round) {
        uint64_t wanted = round % 64;
        if (auto handle = container.find([&](uint64_t value, const Container::Handle &) { return value == wanted; }))
            sum += handle->index + 1;
    }
    return sum;
}
uint64_t twin_container_state(uint64_t rounds) {
    Container container = half_full();
    Container::State state = container.slots;
    uint64_t sum = 0;
    for (uint64_t value = 0; value < rounds; ++value)
        if (auto handle = container.add(value, 7)) {
            if (container.update(state)) sum += handle->index;
            container.remove(*handle);
        }
    return sum;
}

}

// Queues and sets in C++. Above each stands what it lacks. None tests its places: a vector is indexed as it is.
#pragma once
#include <array>
#include <atomic>
#include <cstdint>
#include <optional>
#include <vector>

namespace {

// A ring of first place and length. `Cell` is a value or a std::optional of one; `Cells` is a vector, or an array whose
// size the compiler sees. It lacks a last position: it takes values for ever, where a Rattle queue ends after 2^64 - 1.
template <class Cell, class Cells = std::vector<Cell>> struct RingOf {
    Cells cells{};
    size_t oldest = 0;
    size_t len = 0;
    RingOf() = default;
    explicit RingOf(size_t capacity) : cells(capacity) {}
    bool push(uint64_t value) {
        if (len == cells.size()) return false;
        size_t place = oldest + len;
        if (place >= cells.size()) place -= cells.size();
        cells[place] = value;
        len += 1;
        return true;
    }
    std::optional<uint64_t> pop() {
        if (len == 0) return std::nullopt;
        Cell value = cells[oldest];
        oldest += 1;
        if (oldest == cells.size()) oldest = 0;
        len -= 1;
        return value;
    }
};
using Ring = RingOf<uint64_t>;
using FixedRing = RingOf<uint64_t, std::array<uint64_t, 128>>;

// The same, where a push into a full ring takes the place of the oldest and hands it back. It lacks what the ring lacks.
struct Overflowing : Ring {
    using Ring::Ring;
    std::optional<uint64_t> push(uint64_t value) {
        if (Ring::push(value)) return std::nullopt;
        uint64_t old = cells[oldest];
        cells[oldest] = value;
        oldest += 1;
        if (oldest == cells.size()) oldest = 0;
        return old;
    }
};

// A ring of two positions and `%`, as upstream's queue. It lacks a last position, and that its positions are atomic.
struct Positions {
    std::vector<uint64_t> cells;
    uint64_t write = 0;
    uint64_t read = 0;
    explicit Positions(size_t capacity) : cells(capacity) {}
    bool push(uint64_t value) {
        if (write - read == cells.size()) return false;
        cells[write % cells.size()] = value;
        write += 1;
        return true;
    }
    std::optional<uint64_t> pop() {
        if (write == read) return std::nullopt;
        uint64_t value = cells[read % cells.size()];
        read += 1;
        return value;
    }
};

// A ring of two atomic positions and `%`, with one cell more than its capacity, as SoFi of iceoryx. Like boost's queue it
// serves two threads, which the rows and the other twins do not. It lacks a last position.
struct SoFi {
    std::vector<uint64_t> cells;
    std::atomic<uint64_t> write{0};
    std::atomic<uint64_t> read{0};
    explicit SoFi(size_t capacity) : cells(capacity + 1) {}
    std::optional<uint64_t> push(uint64_t value) {
        uint64_t position = write.load(std::memory_order_relaxed);
        cells[position % cells.size()] = value;
        write.store(position + 1, std::memory_order_release);
        uint64_t first = read.load(std::memory_order_acquire);
        if (position + 1 < first + cells.size()) return std::nullopt;
        uint64_t next = first + 1;
        if (!read.compare_exchange_strong(first, next, std::memory_order_acq_rel, std::memory_order_acquire))
            return std::nullopt;
        return cells[first % cells.size()];
    }
    std::optional<uint64_t> pop() {
        uint64_t first = read.load(std::memory_order_acquire);
        while (first != write.load(std::memory_order_acquire)) {
            uint64_t value = cells[first % cells.size()];
            if (read.compare_exchange_weak(first, first + 1, std::memory_order_acq_rel, std::memory_order_acquire))
                return value;
        }
        return std::nullopt;
    }
};

// Free indices on a stack. It lacks the lock, and a bound: a released index finds room even where none was taken.
struct Stack {
    std::vector<uint32_t> free;
    explicit Stack(uint32_t capacity) {
        for (uint32_t index = capacity; index > 0; --index) free.push_back(index - 1);
    }
    std::optional<uint32_t> acquire() {
        if (free.empty()) return std::nullopt;
        uint32_t index = free.back();
        free.pop_back();
        return index;
    }
    void release(uint32_t index) { free.push_back(index); }
};

// Bits in words. It lacks a test that the bit is one of its bits.
struct Bits {
    std::vector<uint64_t> words;
    explicit Bits(size_t capacity) : words((capacity + 63) / 64) {}
    bool set(size_t id) {
        uint64_t word = words[id / 64], mask = uint64_t(1) << (id % 64);
        words[id / 64] = word | mask;
        return (word & mask) == 0;
    }
    std::optional<size_t> reset_next() {
        for (size_t place = 0; place < words.size(); ++place) {
            uint64_t word = words[place];
            if (word != 0) {
                words[place] = word & (word - 1);
                return place * 64 + size_t(__builtin_ctzll(word));
            }
        }
        return std::nullopt;
    }
    template <class F> void reset_all(F f) {
        for (size_t place = 0; place < words.size(); ++place) {
            uint64_t word = words[place];
            words[place] = 0;
            for (; word != 0; word &= word - 1) f(place * 64 + size_t(__builtin_ctzll(word)));
        }
    }
};

// A count for each id. It lacks a test that the id is one of its ids.
struct Counts {
    std::vector<uint64_t> counts;
    explicit Counts(size_t capacity) : counts(capacity) {}
    bool set(size_t id) {
        if (counts[id] == UINT64_MAX) return false;
        counts[id] += 1;
        return true;
    }
    template <class F> void reset_all(F f) {
        for (size_t id = 0; id < counts.size(); ++id) {
            if (counts[id] != 0) {
                f(id, counts[id]);
                counts[id] = 0;
            }
        }
    }
};

// Owners of indices, and a bit for each free index. It lacks the lock, and a test that a released index is held.
struct Owners {
    std::vector<std::optional<uint64_t>> owners;
    Bits free;
    explicit Owners(size_t capacity) : owners(capacity), free(capacity) {
        for (size_t id = 0; id < capacity; ++id) free.set(id);
    }
    std::optional<uint32_t> acquire(uint64_t owner) {
        auto index = free.reset_next();
        if (!index) return std::nullopt;
        owners[*index] = owner;
        return uint32_t(*index);
    }
    void release(uint32_t index) {
        owners[index] = std::nullopt;
        free.set(index);
    }
};

// Entries under handles that are never given twice; the lowest free slot is taken. It lacks a last ticket, the lock,
// and owners whose entries are recovered: an owner stands in its entry alone.
struct Container {
    struct Entry {
        uint64_t value, owner, ticket;
        bool operator==(const Entry &other) const {
            return value == other.value && owner == other.owner && ticket == other.ticket;
        }
    };
    struct Handle { uint64_t container; size_t index; uint64_t ticket; };
    using State = std::vector<std::optional<Entry>>;
    uint64_t id, next = 0;
    State slots;
    Bits free;
    Container(size_t capacity, uint64_t id) : id(id), slots(capacity), free(capacity) {
        for (size_t index = 0; index < capacity; ++index) free.set(index);
    }
    std::optional<Handle> add(uint64_t value, uint64_t owner) {
        auto index = free.reset_next();
        if (!index) return std::nullopt;
        slots[*index] = Entry{value, owner, next};
        return Handle{id, *index, next++};
    }
    bool remove(const Handle &handle) {
        if (handle.container != id || handle.index >= slots.size()) return false;
        auto &slot = slots[handle.index];
        if (!slot || slot->ticket != handle.ticket) return false;
        slot = std::nullopt;
        free.set(handle.index);
        return true;
    }
    template <class F> std::optional<Handle> find(F accepts) const {
        for (size_t index = 0; index < slots.size(); ++index) {
            if (!slots[index]) continue;
            Handle handle{id, index, slots[index]->ticket};
            if (accepts(slots[index]->value, handle)) return handle;
        }
        return std::nullopt;
    }
    bool update(State &state) const {
        bool changed = false;
        for (size_t index = 0; index < slots.size(); ++index)
            if (!(state[index] == slots[index])) {
                state[index] = slots[index];
                changed = true;
            }
        return changed;
    }
};

} // namespace

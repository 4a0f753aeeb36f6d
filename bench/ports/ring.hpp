// A ring of numbers that holds its first and its length.
#pragma once
#include <cstddef>
#include <cstdint>
#include <optional>
#include <vector>

struct Ring {
    std::vector<uint64_t> cells;
    size_t first = 0, length = 0;
    Ring() = default;
    explicit Ring(size_t capacity) : cells(capacity) {}
    bool push(uint64_t value) {
        if (length == cells.size()) return false;
        size_t place = first + length;
        if (place >= cells.size()) place -= cells.size();
        cells[place] = value;
        ++length;
        return true;
    }
    std::optional<uint64_t> pop() {
        if (length == 0) return std::nullopt;
        uint64_t value = cells[first];
        if (++first == cells.size()) first = 0;
        --length;
        return value;
    }
};

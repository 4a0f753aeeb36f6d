// Runs one row: driver NAME ROUNDS SIZE. It prints the sum and the nanoseconds a round. The size is
// for the rows that are told theirs as the program runs. With no name it prints the names.
#pragma once
#include <chrono>
#include <cstdint>
#include <cstdio>
#include <cstdlib>
#include <cstring>

struct Row {
    const char *name;
    uint64_t (*call)(uint64_t rounds);
    uint64_t (*sized)(uint64_t size, uint64_t rounds);
};

template <size_t COUNT> int drive(const Row (&rows)[COUNT], int count, char **words) {
    if (count != 4) {
        for (const Row &row : rows) std::printf("%s\n", row.name);
        return 0;
    }
    const uint64_t rounds = std::strtoull(words[2], nullptr, 10);
    const uint64_t size = std::strtoull(words[3], nullptr, 10);
    for (const Row &row : rows) {
        if (std::strcmp(row.name, words[1]) != 0) continue;
        const auto start = std::chrono::steady_clock::now();
        const uint64_t sum = row.call ? row.call(rounds) : row.sized(size, rounds);
        const std::chrono::duration<double, std::nano> time =
            std::chrono::steady_clock::now() - start;
        std::printf("%llu %.3f\n", (unsigned long long)sum, time.count() / double(rounds));
        return 0;
    }
    return 1;
}

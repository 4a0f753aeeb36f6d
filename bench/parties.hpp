// A queue among words in C++: whole calls, and its parties access by access. Above each stands what it lacks.
// None tests its places.
#pragma once
#include <array>
#include <cstdint>
#include <optional>
#include <vector>

namespace {

// Where a queue stands among words: the write position, the read position, and the cells.
struct Site {
    bool overflows;
    size_t base, capacity;
    size_t cells() const { return capacity + (overflows ? 1 : 0); }
    size_t cell_at(uint64_t position) const { return base + 2 + position % cells(); }
    bool is_full(uint64_t read, uint64_t write) const { return write - read >= capacity; }
};

// Whole calls on the words of a queue, of either kind, with its last position. They lack the exchange by which an
// overflowing queue moves its read position (nobody comes between), and looks.
struct Words {
    std::vector<uint64_t> words;
    Site site;
    Words(bool overflows, size_t capacity) : words(capacity + 3), site{overflows, 0, capacity} {}
    // of a queue that refuses: was there room?
    bool pushed(uint64_t value) {
        uint64_t write = words[site.base], read = words[site.base + 1];
        if (write == UINT64_MAX || site.is_full(read, write)) return false;
        words[site.cell_at(write)] = value;
        words[site.base] = write + 1;
        return true;
    }
    // of one that overflows: the oldest, if it had to go; at the last position the value itself
    std::optional<uint64_t> push(uint64_t value) {
        uint64_t write = words[site.base], read = words[site.base + 1];
        if (write == UINT64_MAX) return value;
        words[site.cell_at(write)] = value;
        words[site.base] = write + 1;
        if (!site.is_full(read, write)) return std::nullopt;
        words[site.base + 1] = read + 1;
        return words[site.cell_at(read)];
    }
    std::optional<uint64_t> pop() {
        uint64_t read = words[site.base + 1];
        if (words[site.base] <= read) return std::nullopt;
        uint64_t value = words[site.cell_at(read)];
        words[site.base + 1] = read + 1;
        return value;
    }
};

// Where a party of a queue is: at rest, in a push, in a look at fullness, in a pop, or in a look at emptiness.
enum class At : uint8_t {
    Rest, PushLoadsWrite, PushLoadsRead, StoresCell, StoresWrite, Evicts, TakesOld, FullLoadsWrite, FullLoadsRead,
    PopLoadsRead, PopLoadsWrite, LoadsCell, Takes, EmptyLoadsRead, EmptyLoadsWrite
};
enum class What : uint64_t { Publish, HandOut, Evict, GetBack, SeesEmpty, SeesWaiting, SeesFull, SeesRoom, SeesEnd };
enum class Says : uint64_t { Going, Done, Gives, Refused };
struct Answer { Says says; uint64_t value; };
struct Party {
    At at = At::Rest;
    bool full = false;
    uint64_t value = 0, write = 0, read = 0;
    Answer ends(Says says, uint64_t answer) { at = At::Rest; return {says, answer}; }
    Answer goes(At next) { at = next; return {Says::Going, 0}; }
};

// One access of the party that pushes; `tell` takes what happened.
template <class Tell> Answer step_pusher(std::vector<uint64_t> &words, const Site &site, Party &p, Tell tell) {
    switch (p.at) {
    case At::PushLoadsWrite: p.write = words[site.base]; return p.goes(At::PushLoadsRead);
    case At::PushLoadsRead:
        p.read = words[site.base + 1];
        if (p.write == UINT64_MAX) { tell(What::SeesEnd, 0); return p.ends(Says::Gives, p.value); }
        p.full = site.is_full(p.read, p.write);
        tell(p.full ? What::SeesFull : What::SeesRoom, 0);
        if (p.full && !site.overflows) return p.ends(Says::Gives, p.value);
        return p.goes(At::StoresCell);
    case At::StoresCell: words[site.cell_at(p.write)] = p.value; return p.goes(At::StoresWrite);
    case At::StoresWrite:
        words[site.base] = p.write + 1;
        tell(What::Publish, p.value);
        return p.full ? p.goes(At::Evicts) : p.ends(Says::Done, 0);
    case At::Evicts:
        if (words[site.base + 1] != p.read) return p.ends(Says::Done, 0);
        words[site.base + 1] = p.read + 1;
        tell(What::Evict, 0);
        return p.goes(At::TakesOld);
    case At::TakesOld: p.value = words[site.cell_at(p.read)]; tell(What::GetBack, p.value); return p.ends(Says::Gives, p.value);
    case At::FullLoadsWrite: p.write = words[site.base]; return p.goes(At::FullLoadsRead);
    case At::FullLoadsRead:
        p.full = site.is_full(words[site.base + 1], p.write);
        tell(p.full ? What::SeesFull : What::SeesRoom, 0);
        return p.ends(Says::Gives, p.full);
    default: return {Says::Refused, 0};
    }
}

// One access of the party that pops.
template <class Tell> Answer step_popper(std::vector<uint64_t> &words, const Site &site, Party &p, Tell tell) {
    switch (p.at) {
    case At::PopLoadsRead: p.read = words[site.base + 1]; return p.goes(At::PopLoadsWrite);
    case At::PopLoadsWrite:
        if (words[site.base] <= p.read) { tell(What::SeesEmpty, 0); return p.ends(Says::Done, 0); }
        tell(What::SeesWaiting, 0);
        return p.goes(At::LoadsCell);
    case At::LoadsCell: p.value = words[site.cell_at(p.read)]; return p.goes(At::Takes);
    case At::Takes:
        if (site.overflows && words[site.base + 1] != p.read) { p.read = words[site.base + 1]; return p.goes(At::LoadsCell); }
        words[site.base + 1] = p.read + 1;
        tell(What::HandOut, p.value);
        return p.ends(Says::Gives, p.value);
    case At::EmptyLoadsRead: p.read = words[site.base + 1]; return p.goes(At::EmptyLoadsWrite);
    case At::EmptyLoadsWrite:
        p.full = words[site.base] <= p.read;
        tell(p.full ? What::SeesEmpty : What::SeesWaiting, 0);
        return p.ends(Says::Gives, p.full);
    default: return {Says::Refused, 0};
    }
}

// A machine of both parties, which writes down what happened. It lacks an answer where memory runs out, and a list of
// parties: they are two. It divides for a cell's place, once in each push and once in each pop.
struct Machine {
    struct Event { What what; uint64_t value; };
    std::vector<uint64_t> words;
    Site site;
    Party parties[2];
    std::vector<Event> events;
    Machine(bool overflows, size_t capacity) : words(capacity + 3), site{overflows, 0, capacity} {}
    bool begin(size_t party, At at, uint64_t value) {
        if (party >= 2 || (party == 0) != (at < At::PopLoadsRead) || parties[party].at != At::Rest) return false;
        parties[party].at = at;
        parties[party].value = value;
        return true;
    }
    Answer step(size_t party) {
        if (party >= 2) return {Says::Refused, 0};
        auto tell = [&](What what, uint64_t value) { events.push_back({what, value}); };
        return party == 0 ? step_pusher(words, site, parties[0], tell) : step_popper(words, site, parties[1], tell);
    }
};

// The same parties, each kept in memory and stepped by a call: no machine and no events. It divides as the machine does.
struct Stored {
    std::vector<uint64_t> words;
    Site site;
    Party pusher, popper;
    Stored(bool overflows, size_t capacity) : words(capacity + 3), site{overflows, 0, capacity} {}
    bool begin(Party &party, At at, uint64_t value) {
        if (party.at != At::Rest) return false;
        party.at = at;
        party.value = value;
        return true;
    }
    Answer step_push() { return step_pusher(words, site, pusher, [](What, uint64_t) {}); }
    Answer step_pop() { return step_popper(words, site, popper, [](What, uint64_t) {}); }
};

// A machine of a queue of values of WIDTH words that refuses. It lacks what the other machine lacks.
template <size_t WIDTH> struct CellMachine {
    using Value = std::array<uint64_t, WIDTH>;
    struct Event { What what; Value value; };
    struct Seat { At at = At::Rest; bool full = false; uint64_t write = 0, read = 0; size_t word = 0; Value value{}; };
    struct Said { Says says; Value value; };
    std::vector<uint64_t> words;
    size_t capacity;
    Seat parties[2];
    std::vector<Event> events;
    explicit CellMachine(size_t capacity) : words(2 + capacity * WIDTH), capacity(capacity) {}
    bool begin(size_t party, At at, Value value) {
        if (party >= 2 || (party == 0) != (at < At::PopLoadsRead) || parties[party].at != At::Rest) return false;
        parties[party].at = at;
        parties[party].value = value;
        return true;
    }
    static Said goes(Seat &p, At next) { p.at = next; return {Says::Going, {}}; }
    static Said ends(Seat &p, Says says, Value answer) { p.at = At::Rest; return {says, answer}; }
    uint64_t &word(uint64_t position, size_t index) { return words[2 + position % capacity * WIDTH + index]; }
    Said step(size_t party) {
        if (party >= 2) return {Says::Refused, {}};
        Seat &p = parties[party];
        auto tell = [&](What what, Value value) { events.push_back({what, value}); };
        switch (p.at) {
        case At::PushLoadsWrite: p.write = words[0]; return goes(p, At::PushLoadsRead);
        case At::PushLoadsRead:
            p.read = words[1];
            if (p.write == UINT64_MAX) { tell(What::SeesEnd, {}); return ends(p, Says::Done, {}); }
            p.full = p.write - p.read >= capacity;
            tell(p.full ? What::SeesFull : What::SeesRoom, {});
            p.word = 0;
            return p.full ? ends(p, Says::Done, {}) : goes(p, At::StoresCell);
        case At::StoresCell:
            word(p.write, p.word) = p.value[p.word];
            p.word += 1;
            return goes(p, p.word == WIDTH ? At::StoresWrite : At::StoresCell);
        case At::StoresWrite: words[0] = p.write + 1; tell(What::Publish, p.value); return ends(p, Says::Done, {});
        case At::FullLoadsWrite: p.write = words[0]; return goes(p, At::FullLoadsRead);
        case At::FullLoadsRead:
            p.full = p.write - words[1] >= capacity;
            tell(p.full ? What::SeesFull : What::SeesRoom, {});
            return ends(p, Says::Gives, {p.full});
        case At::PopLoadsRead: p.read = words[1]; return goes(p, At::PopLoadsWrite);
        case At::PopLoadsWrite:
            if (words[0] <= p.read) { tell(What::SeesEmpty, {}); return ends(p, Says::Done, {}); }
            tell(What::SeesWaiting, {});
            p.word = 0;
            return goes(p, At::LoadsCell);
        case At::LoadsCell:
            p.value[p.word] = word(p.read, p.word);
            p.word += 1;
            return goes(p, p.word == WIDTH ? At::Takes : At::LoadsCell);
        case At::Takes: words[1] = p.read + 1; tell(What::HandOut, p.value); return ends(p, Says::Gives, p.value);
        case At::EmptyLoadsRead: p.read = words[1]; return goes(p, At::EmptyLoadsWrite);
        case At::EmptyLoadsWrite:
            p.full = words[0] <= p.read;
            tell(p.full ? What::SeesEmpty : What::SeesWaiting, {});
            return ends(p, Says::Gives, {p.full});
        default: return {Says::Refused, {}};
        }
    }
};

} // namespace

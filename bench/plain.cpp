// The best plain algorithm that we know for registers, with compare-and-set or without, with nothing proved: just-in-time linearization (Lowe 2017), by key. A configuration
// is which of the open operations are placed, a mask, and the value. Each ok is given to its invocation ahead of the run, so a read is
// placed as soon as the value is its own, which loses no order, and an update only where an ok asks for its operation.
// It reads a map a line with integers and nil for values, processes and keys from 0 on, and at most 64 open operations of a key.
// usage: plain [--keyed] [--again N] FILE   (--again: decides N times more, and prints the seconds of one)
#include <algorithm>
#include <cstdint>
#include <cstdio>
#include <cstdlib>
#include <cstring>
#include <ctime>
#include <string>
#include <string_view>
#include <unordered_set>
#include <utility>
#include <vector>

using Value = int64_t;
constexpr Value NIL = INT64_MIN;

enum class Type : char { Invoke, Ok, Fail, Info };

struct Event {
    Type type;
    bool is_write; // or a compare-and-set
    bool is_set;
    bool is_asked = false; // a read that is never ok asks for nothing
    uint8_t slot = 0;
    uint32_t key = 0;
    Value value = NIL; // what a read finds, or an update leaves
    Value from = NIL;  // what a compare-and-set finds
};

struct Configuration {
    uint64_t placed;
    Value value;
    bool operator==(const Configuration &) const = default;
};

struct Hash {
    size_t operator()(const Configuration &one) const {
        return ((one.placed ^ (one.placed >> 31)) * 0x9e3779b97f4a7c15 + one.value) * 0xbf58476d1ce4e5b9 >> 7;
    }
};

struct Register {
    uint64_t reads = 0, writes = 0, sets = 0; // compare-and-sets are writes too
    Value values[64], from[64];
    std::vector<Configuration> all{{0, NIL}}, next;
    std::unordered_set<Configuration, Hash> known;

    // (few are compared one by one)
    void add(Configuration one) {
        if (all.size() < 16) {
            if (std::find(all.begin(), all.end(), one) == all.end()) all.push_back(one);
            return;
        }
        if (known.empty()) known.insert(all.begin(), all.end());
        if (known.insert(one).second) all.push_back(one);
    }

    Configuration with_reads(Configuration one) const {
        for (uint64_t left = reads & ~one.placed; left; left &= left - 1)
            if (int slot = __builtin_ctzll(left); values[slot] == one.value) one.placed |= 1ull << slot;
        return one;
    }

    void invoke(const Event &event) {
        values[event.slot] = event.value;
        from[event.slot] = event.from;
        if (event.is_set) sets |= 1ull << event.slot;
        (event.is_write ? writes : reads) |= 1ull << event.slot;
        if (!event.is_write)
            for (auto &one : all) one = with_reads(one);
    }

    // Each says whether a configuration is left: in which the operation is placed, or in which it isn't.
    bool ok(int slot) {
        const uint64_t bit = 1ull << slot;
        next.clear();
        for (size_t at = 0; at < all.size(); at++) {
            const Configuration one = all[at];
            if (one.placed & bit) {
                next.push_back({one.placed & ~bit, one.value});
                continue;
            }
            for (uint64_t left = writes & ~one.placed; left; left &= left - 1) {
                const int write = __builtin_ctzll(left);
                if (sets >> write & 1 && from[write] != one.value) continue;
                add(with_reads({one.placed | 1ull << write, values[write]}));
            }
        }
        if (!known.empty()) known.clear();
        return goes_on(bit);
    }

    bool fail(int slot) {
        const uint64_t bit = 1ull << slot;
        next.clear();
        for (const auto &one : all)
            if (!(one.placed & bit)) next.push_back(one);
        return goes_on(bit);
    }

    bool goes_on(uint64_t bit) {
        reads &= ~bit;
        writes &= ~bit;
        sets &= ~bit;
        std::swap(all, next);
        return !all.empty();
    }
};

static std::string text_of(const char *name) {
    FILE *file = std::fopen(name, "rb");
    if (!file || std::fseek(file, 0, SEEK_END)) std::perror(name), std::exit(2);
    std::string text(std::ftell(file), 0);
    std::rewind(file);
    if (std::fread(text.data(), 1, text.size(), file) != text.size()) std::perror(name), std::exit(2);
    std::fclose(file);
    return text;
}

static Value number(const char *&at) {
    while (*at == ' ' || *at == '[') at++;
    if (*at == 'n') return at += 3, NIL;
    const bool is_below = *at == '-';
    Value found = 0;
    for (at += is_below; *at >= '0' && *at <= '9'; at++) found = 10 * found + (*at - '0');
    return is_below ? -found : found;
}

template <typename T> static T &of(std::vector<T> &all, size_t at) {
    if (at >= all.size()) all.resize(at + 1);
    return all[at];
}

// The events of the text, each invocation with the value that its ok gives it.
static std::vector<Event> events_of(const std::string &text, bool keyed) {
    std::vector<Event> events;
    std::vector<size_t> begun;
    std::vector<uint64_t> taken;
    const char *at = text.data(), *last = at + text.size();
    while (const char *end = static_cast<const char *>(std::memchr(at, '\n', last - at))) {
        Event event{};
        size_t process = 0;
        while ((at = static_cast<const char *>(std::memchr(at, ':', end - at)))) {
            const char *name = ++at;
            while (*at > ' ') at++;
            const std::string_view word(name, at - name);
            if (word == "type") {
                const char *type = at + 2;
                event.type = *type == 'o' ? Type::Ok : *type == 'f' ? Type::Fail : type[2] == 'v' ? Type::Invoke : Type::Info;
                at = type;
            } else if (word == "f") {
                event.is_set = at[2] == 'c';
                event.is_write = event.is_set || at[2] == 'w';
                at += 2;
            } else if (word == "process") {
                process = number(at);
            } else if (word == "value") {
                if (keyed) event.key = number(at);
                event.value = number(at);
                if (*at == ' ') event.from = std::exchange(event.value, number(at));
            }
        }
        at = end + 1;
        if (event.type == Type::Invoke) {
            uint64_t &slots = of(taken, event.key);
            if (!~slots) std::fputs("more than 64 operations are open\n", stderr), std::exit(2);
            event.slot = __builtin_ctzll(~slots);
            slots |= 1ull << event.slot;
            event.is_asked = event.is_write;
            of(begun, process) = events.size();
        } else {
            Event &call = events[of(begun, process)];
            event.slot = call.slot;
            event.key = call.key;
            event.is_asked = event.type == Type::Ok || (event.type == Type::Fail && call.is_write);
            if (event.type == Type::Ok) call.value = event.value, call.is_asked = true;
            if (event.type != Type::Info) taken[event.key] &= ~(1ull << event.slot);
        }
        events.push_back(event);
    }
    return events;
}

// The least number of first events that have no legal order, or 0.
static size_t failure_of(const std::vector<Event> &events) {
    std::vector<Register> registers;
    for (size_t at = 0; at < events.size(); at++) {
        const Event &event = events[at];
        if (!event.is_asked) continue;
        Register &object = of(registers, event.key);
        if (event.type == Type::Invoke) object.invoke(event);
        else if (!(event.type == Type::Ok ? object.ok(event.slot) : object.fail(event.slot))) return at + 1;
    }
    return 0;
}

int main(int count, char **words) {
    bool keyed = false;
    long again = 0;
    for (int at = 1; at < count - 1; at++) {
        if (!std::strcmp(words[at], "--keyed")) keyed = true;
        if (!std::strcmp(words[at], "--again")) again = std::atol(words[at + 1]);
    }
    const std::string text = text_of(words[count - 1]);
    const auto events = events_of(text, keyed);
    const size_t failure = failure_of(events);
    if (failure) std::printf("no prefix %zu\n", failure);
    else std::puts("yes");
    const clock_t begin = std::clock();
    for (long left = again; left > 0; left--)
        if (failure_of(events) != failure) return 2;
    if (again) std::printf("%.9f\n", double(std::clock() - begin) / CLOCKS_PER_SEC / again);
    return failure != 0;
}

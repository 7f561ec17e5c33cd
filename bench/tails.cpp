// Reads and makes the tails that `crates/bench_store` times, in plain C++, and prints the same table.
#include <algorithm>
#include <chrono>
#include <cstdint>
#include <cstdio>
#include <vector>

namespace {

constexpr uint32_t kTails = 4096, kElements = 64;
constexpr int kTurns = 25;

struct Gaps {
    const char *name;
    uint64_t least, mask;
};
constexpr Gaps kGaps[] = {{"one-byte", 0, 0x7f}, {"two-byte", 128, 0x1fff}, {"mixed", 0, 0xff}};

struct Tail {
    uint64_t low;
    std::vector<uint8_t> bytes;
};

// The generator splitmix64 (Steele, Lea, Flood, OOPSLA 2014).
struct Random {
    uint64_t state = 2026;
    uint64_t next() {
        uint64_t bits = state += 0x9e3779b97f4a7c15;
        bits = (bits ^ (bits >> 30)) * 0xbf58476d1ce4e5b9;
        bits = (bits ^ (bits >> 27)) * 0x94d049bb133111eb;
        return bits ^ (bits >> 31);
    }
};

std::vector<std::vector<uint32_t>> lists(const Gaps &gaps) {
    Random random;
    std::vector<std::vector<uint32_t>> lists(kTails);
    for (uint32_t base = 0; base < kTails; base++) {
        uint64_t element = base;
        for (uint32_t i = 0; i < kElements; i++) {
            element += 1 + gaps.least + (random.next() & gaps.mask);
            lists[base].push_back(uint32_t(element));
        }
    }
    return lists;
}

// The bytes of a list, written into a buffer and then copied to their own room.
Tail encoded(uint64_t low, const std::vector<uint32_t> &list, std::vector<uint8_t> &buffer) {
    buffer.resize(5 * list.size());
    uint8_t *out = buffer.data();
    uint64_t next = low;
    for (uint32_t element : list) {
        uint64_t gap = element - next;
        while (gap >= 128) {
            *out++ = uint8_t(128 + gap % 128);
            gap /= 128;
        }
        *out++ = uint8_t(gap);
        next = uint64_t(element) + 1;
    }
    return {low, std::vector<uint8_t>(buffer.data(), out)};
}

std::vector<Tail> tails(const std::vector<std::vector<uint32_t>> &lists) {
    std::vector<Tail> tails;
    tails.reserve(lists.size());
    std::vector<uint8_t> buffer;
    uint64_t base = 0;
    for (const auto &list : lists) tails.push_back(encoded(++base, list, buffer));
    return tails;
}

uint64_t sum_of(const Tail &tail) {
    uint64_t sum = 0, low = tail.low;
    const uint8_t *at = tail.bytes.data(), *end = at + tail.bytes.size();
    while (at != end) {
        uint64_t gap = *at++;
        if (gap >= 128) {
            gap -= 128;
            for (int shift = 7;; shift += 7) {
                uint64_t byte = *at++;
                gap += (byte & 127) << shift;
                if (byte < 128) break;
            }
        }
        low += gap;
        sum += low++;
    }
    return sum;
}

uint64_t sum_of(const std::vector<Tail> &tails) {
    uint64_t sum = 0;
    for (const Tail &tail : tails) sum += sum_of(tail);
    return sum;
}

template <class Work> void time_row(const char *row, const char *gaps, Work work) {
    std::vector<long long> times;
    uint64_t sum = 0;
    for (int turn = 0; turn < kTurns; turn++) {
        auto start = std::chrono::steady_clock::now();
        sum = work();
        auto taken = std::chrono::steady_clock::now() - start;
        times.push_back(std::chrono::duration_cast<std::chrono::nanoseconds>(taken).count());
    }
    std::sort(times.begin(), times.end());
    std::printf("%-8s %-10s %10u %10lld %10lld %24llu\n", row, gaps, kTails * kElements, times[0],
                times[kTurns / 2], (unsigned long long)sum);
}

} // namespace

int main() {
    std::printf("%-8s %-10s %10s %10s %10s\n", "row", "gaps", "elements", "best ns", "median ns");
    for (const Gaps &gaps : kGaps) {
        auto all = lists(gaps);
        auto made = tails(all);
        time_row("iter", gaps.name, [&] { return sum_of(made); });
        time_row("encode", gaps.name, [&] { return uint64_t(tails(all).size()); });
    }
}

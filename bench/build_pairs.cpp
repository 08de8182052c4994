// The yardstick of `graph_store::build`: the pairs of the same edges, sorted by std::sort and made unique.
// `build_pairs SEED VERTICES EDGES` says on standard output how many vertices and distinct pairs there are, and on standard
// error how many microseconds the sort and std::unique took.
#include <algorithm>
#include <chrono>
#include <cstdint>
#include <cstdio>
#include <cstdlib>
#include <utility>
#include <vector>

int main(int count, char **words) {
    if (count != 4) return 2;
    const std::uint64_t seed = std::strtoull(words[1], nullptr, 10), modulus = 2147483647;
    const std::uint32_t vertices = std::strtoul(words[2], nullptr, 10), edges = std::strtoul(words[3], nullptr, 10);
    std::uint64_t state = 1 + seed % (modulus - 1);
    const auto draw = [&] { return static_cast<std::uint32_t>((state = state * 48271 % modulus) % vertices); };
    std::vector<std::pair<std::uint32_t, std::uint32_t>> pairs;
    pairs.reserve(edges);
    std::uint32_t last = 0;
    for (std::uint32_t i = 0; i < edges; i++) {
        const std::uint32_t from = draw(), to = draw();
        pairs.emplace_back(from, to);
        last = std::max({last, from, to});
    }
    const auto begin = std::chrono::steady_clock::now();
    std::sort(pairs.begin(), pairs.end());
    pairs.erase(std::unique(pairs.begin(), pairs.end()), pairs.end());
    const auto spent = std::chrono::steady_clock::now() - begin;
    std::fprintf(stderr, "%lld us\n", static_cast<long long>(std::chrono::duration_cast<std::chrono::microseconds>(spent).count()));
    std::printf("%u rows, %zu targets\n", last + 1, pairs.size());
}

// The yardstick of `pgas make`: the same generator, printed with printf. `make_edges SEED VERTICES EDGES`.
#include <cstdint>
#include <cstdio>
#include <cstdlib>

int main(int count, char **words) {
    if (count != 4) return 2;
    const std::uint64_t seed = std::strtoull(words[1], nullptr, 10), edges = std::strtoull(words[3], nullptr, 10);
    const std::uint32_t vertices = std::strtoul(words[2], nullptr, 10);
    constexpr std::uint64_t modulus = 2147483647, multiplier = 48271;
    std::uint64_t state = 1 + seed % (modulus - 1);
    const auto draw = [&] { return static_cast<std::uint32_t>(state = state * multiplier % modulus) % vertices; };
    for (std::uint64_t i = 0; i < edges; i++) {
        const std::uint32_t from = draw(), to = draw();
        std::printf("%u %u\n", from, to);
    }
    return std::fflush(stdout) == 0 ? 0 : 5;
}

// The yardstick of `pgas plain`: the same result by a per-byte reader, one comparison sort and a search by rows, written
// with the C++ library. `plain_levels make SEED VERTICES EDGES` prints a random edge list behind a few comment lines, and
// `plain_levels SOURCE` prints the levels of the edge list on standard input.
#include <algorithm>
#include <charconv>
#include <cstdint>
#include <cstdio>
#include <cstdlib>
#include <random>
#include <string>
#include <string_view>
#include <unistd.h>
#include <utility>
#include <vector>

using Edge = std::pair<std::uint32_t, std::uint32_t>;
constexpr std::uint32_t greatest_id = (1u << 24) - 1;
constexpr std::uint32_t not_reached = UINT32_MAX;

static void append(std::string &text, std::uint32_t number) {
    char digits[10];
    text.append(digits, std::to_chars(digits, digits + sizeof digits, number).ptr);
}

static bool write_all(const std::string &text) {
    for (std::size_t done = 0; done < text.size();) {
        const ssize_t count = write(1, text.data() + done, text.size() - done);
        if (count <= 0) return false;
        done += static_cast<std::size_t>(count);
    }
    return true;
}

static int make(std::uint64_t seed, std::uint32_t vertices, std::uint32_t edges) {
    std::mt19937_64 random(seed);
    std::uniform_int_distribution<std::uint32_t> vertex(0, vertices - 1);
    std::string text = "# Directed graph\n# Nodes: ";
    append(text, vertices);
    text += " Edges: ";
    append(text, edges);
    text += "\n# FromNodeId\tToNodeId\n";
    for (std::uint32_t i = 0; i < edges; i++) {
        append(text, vertex(random));
        text += '\t';
        append(text, vertex(random));
        text += '\n';
    }
    return write_all(text) ? 0 : 5;
}

// One edge a line, a number, a tab, a number and a line end, behind comment lines.
static bool read_edges(std::vector<Edge> &edges) {
    static unsigned char piece[65536];
    enum { start, from, gap, to, comment } place = start;
    std::uint32_t first = 0, number = 0;
    for (ssize_t count; (count = read(0, piece, sizeof piece)) > 0;) {
        for (ssize_t i = 0; i < count; i++) {
            const unsigned digit = piece[i] - unsigned{'0'};
            if (place == comment) { if (piece[i] == '\n') place = start; }
            else if (digit < 10) {
                if (place == start || place == gap) { number = digit; place = place == start ? from : to; }
                else if ((number = number * 10 + digit) > greatest_id) return false;
            } else if (piece[i] == '\t' && place == from) { first = number; place = gap; }
            else if (piece[i] == '\n' && place == to) { edges.emplace_back(first, number); place = start; }
            else if (piece[i] == '#' && place == start) place = comment;
            else return false;
        }
    }
    return place == start;
}

int main(int count, char **words) {
    if (count == 5 && std::string_view(words[1]) == "make")
        return make(std::strtoull(words[2], nullptr, 10), std::strtoul(words[3], nullptr, 10), std::strtoul(words[4], nullptr, 10));
    const std::uint32_t source = std::strtoul(words[1], nullptr, 10);
    std::vector<Edge> edges;
    if (!read_edges(edges)) return 3;
    std::uint32_t last = source;
    for (const auto &[a, b] : edges) last = std::max({last, a, b});
    std::sort(edges.begin(), edges.end());
    const std::size_t vertices = std::size_t{last} + 1;
    std::vector<std::uint32_t> starts(vertices + 1);
    for (const Edge &edge : edges) starts[edge.first + 1]++;
    for (std::size_t v = 0; v < vertices; v++) starts[v + 1] += starts[v];
    std::vector<std::uint32_t> levels(vertices, not_reached), queue{source};
    queue.reserve(vertices);
    levels[source] = 0;
    for (std::size_t head = 0; head < queue.size(); head++) {
        const std::uint32_t vertex = queue[head];
        for (std::uint32_t k = starts[vertex]; k < starts[vertex + 1]; k++) {
            const std::uint32_t target = edges[k].second;
            if (levels[target] == not_reached) { levels[target] = levels[vertex] + 1; queue.push_back(target); }
        }
    }
    std::string text;
    std::uint32_t depth = 0;
    for (std::size_t v = 0; v < vertices; v++) {
        if (levels[v] == not_reached) continue;
        depth = std::max(depth, levels[v]);
        append(text, v);
        text += ' ';
        append(text, levels[v]);
        text += '\n';
    }
    text += "# reached ";
    append(text, queue.size());
    text += " depth ";
    append(text, depth);
    text += '\n';
    return write_all(text) ? 0 : 5;
}

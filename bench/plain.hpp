// Plain floods, written apart from the library, that the benchmark compares it with.
#pragma once
#include <algorithm>
#include <cstddef>
#include <cstdint>
#include <functional>
#include <queue>
#include <vector>

using Keys = std::priority_queue<uint64_t, std::vector<uint64_t>, std::greater<uint64_t>>;

// A height and the number of its node, as one number that is ordered by the height first.
inline uint64_t key(int16_t height, size_t node) { return uint64_t(uint16_t(height) ^ 0x8000u) << 32 | node; }

// Priority-Flood with a binary heap through which every cell goes: the level of each cell. A frame of closed cells around
// the sheet saves all tests of the edge.
inline std::vector<int16_t> plain_sheet(const std::vector<int16_t>& heights, size_t rows, size_t cols) {
    const size_t wide = cols + 2;
    std::vector<int16_t> level((rows + 2) * wide);
    std::vector<uint8_t> closed((rows + 2) * wide, 1);
    Keys open;
    for (size_t row = 0; row < rows; row++) {
        for (size_t col = 0; col < cols; col++) {
            const size_t cell = (row + 1) * wide + col + 1;
            const bool edge = row == 0 || col == 0 || row + 1 == rows || col + 1 == cols;
            level[cell] = heights[row * cols + col];
            closed[cell] = edge;
            if (edge) open.push(key(level[cell], cell));
        }
    }
    const size_t w = wide;
    const size_t steps[8] = {0 - w - 1, 0 - w, 0 - w + 1, size_t(0) - 1, 1, w - 1, w, w + 1};
    while (!open.empty()) {
        const size_t from = uint32_t(open.top());
        open.pop();
        for (size_t step : steps) {
            const size_t cell = from + step;
            if (closed[cell]) continue;
            closed[cell] = 1;
            if (level[cell] < level[from]) level[cell] = level[from];
            open.push(key(level[cell], cell));
        }
    }
    std::vector<int16_t> out(rows * cols);
    for (size_t row = 0; row < rows; row++)
        for (size_t col = 0; col < cols; col++) out[row * cols + col] = level[(row + 1) * wide + col + 1];
    return out;
}

// A ring of nodes, each joined to those that stand one stride and one wide stride away, at levels that are given: the near
// ones first. The first nodes drain at their near levels.
struct RingShape {
    size_t nodes, outlets, near, wide;
};

// Least worst levels by a standard heap: a node is put in again when its level falls, and old entries are passed over.
inline std::vector<int16_t> plain_ring(const RingShape& ring, const std::vector<int16_t>& levels) {
    const size_t n = ring.nodes;
    std::vector<int32_t> best(n, INT32_MAX);
    Keys open;
    const auto reach = [&](size_t node, int16_t level) {
        if (best[node] <= level) return;
        best[node] = level;
        open.push(key(level, node));
    };
    for (size_t node = 0; node < ring.outlets; node++) reach(node, levels[node]);
    while (!open.empty()) {
        const size_t from = uint32_t(open.top());
        const int16_t level = int16_t(uint16_t(open.top() >> 32) ^ 0x8000u);
        open.pop();
        if (level != best[from]) continue;
        const auto pass = [&](size_t to, int16_t crossing) { reach(to, std::max(crossing, level)); };
        const size_t back = (from + n - ring.near) % n, off = (from + n - ring.wide) % n;
        pass((from + ring.near) % n, levels[from]);
        pass(back, levels[back]);
        pass((from + ring.wide) % n, levels[n + from]);
        pass(off, levels[n + off]);
    }
    return std::vector<int16_t>(best.begin(), best.end());
}

// Sheets of heights that a seed determines, for the benchmark.
#pragma once
#include <algorithm>
#include <cstddef>
#include <cstdint>
#include <cstdlib>
#include <vector>

// A well mixed number for each number and seed.
inline uint64_t mixed(uint64_t x, uint64_t seed) {
    x += seed * 0x9e3779b97f4a7c15ull + 0x632be59bd9b4e019ull;
    x = (x ^ (x >> 32)) * 0xd6e8feb86659fd93ull;
    x = (x ^ (x >> 32)) * 0xd6e8feb86659fd93ull;
    return x ^ (x >> 32);
}

// A number from -limit to limit at a point of a lattice.
inline int64_t noise(uint64_t row, uint64_t col, uint64_t seed, int64_t limit) {
    return int64_t(mixed(row << 32 | col, seed) % uint64_t(2 * limit + 1)) - limit;
}

// Noise on a lattice with so many cells between two points, interpolated between the points.
inline int64_t wave(size_t row, size_t col, size_t step, uint64_t seed, int64_t limit) {
    const int64_t s = int64_t(step), r = int64_t(row % step), c = int64_t(col % step);
    const uint64_t i = row / step, j = col / step;
    const int64_t top = noise(i, j, seed, limit) * (s - c) + noise(i, j + 1, seed, limit) * c;
    const int64_t below = noise(i + 1, j, seed, limit) * (s - c) + noise(i + 1, j + 1, seed, limit) * c;
    return (top * (s - r) + below * r) / (s * s);
}

// A square sheet of so many rows. A rough one has noise at every scale down to a cell, and one pit in a hundred cells; a
// smooth one has long slopes with few and wide hollows.
inline std::vector<int16_t> sheet(size_t side, bool rough, uint64_t seed) {
    std::vector<int16_t> heights(side * side);
    const size_t finest = rough ? 1 : 8;
    for (size_t row = 0; row < side; row++) {
        for (size_t col = 0; col < side; col++) {
            int64_t height = 0, limit = 9000;
            for (size_t step = 512; step >= finest; step /= 2) {
                height += wave(row, col, step, seed + step, limit);
                limit = std::max<int64_t>(1, limit * (rough ? 6 : 5) / 10);
            }
            const uint64_t pit = mixed(row << 32 | col, seed + 7);
            if (rough && pit % 100 == 0) height -= int64_t(pit / 100 % 300) + 1;
            heights[row * side + col] = int16_t(std::clamp<int64_t>(height, -32767, 32767));
        }
    }
    return heights;
}

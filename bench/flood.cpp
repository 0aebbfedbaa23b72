// Times the library's flood beside a plain one, on the same data and in the same run, and compares every level.
//
//     flood PROGRAM FOLDER SEED
//
// PROGRAM is bench_flood, FOLDER takes the files that pass between the two.
#include "plain.hpp"
#include "sheets.hpp"
#include <cstdio>
#include <cstdlib>
#include <fstream>
#include <string>
#include <sys/resource.h>

using std::string;
using std::vector;

struct Tool {
    string program, folder;
};

// The least processor time of a flood in nanoseconds, and the levels.
struct Timed {
    double best = 1e18;
    vector<int16_t> levels;
};

// The processor time, outside the system, that this process has taken, or the processes that it started.
static double taken(int who) {
    rusage used;
    getrusage(who, &used);
    return double(used.ru_utime.tv_sec) * 1e9 + double(used.ru_utime.tv_usec) * 1e3;
}

// Runs the library's side with so many floods, and says how much time it took.
static double run(const string& command, int floods, const string& files) {
    const string line = command + " " + std::to_string(floods) + files;
    const double before = taken(RUSAGE_CHILDREN);
    if (std::system(line.c_str()) != 0) {
        std::fprintf(stderr, "failed: %s\n", line.c_str());
        std::exit(1);
    }
    return taken(RUSAGE_CHILDREN) - before;
}

// What is compared: the library's flood and a plain one, in turns, with the least time of each. Reading, allocating and
// printing are taken off the library's time by a run with no flood.
template <class F> static void compare(const Tool& tool, const string& words, const vector<int16_t>& numbers, size_t count, F flood, Timed& ours, Timed& plain) {
    const string in = tool.folder + "/in", out = tool.folder + "/out";
    std::ofstream(in, std::ios::binary).write(reinterpret_cast<const char*>(numbers.data()), std::streamsize(numbers.size() * 2));
    double none = 1e18, some = 1e18;
    for (int round = 0; round < 6; round++) {
        const double before = taken(RUSAGE_SELF);
        plain.levels = flood();
        plain.best = std::min(plain.best, taken(RUSAGE_SELF) - before);
        none = std::min(none, run(tool.program + " " + words, 0, " <" + in + " >" + out));
        some = std::min(some, run(tool.program + " " + words, 2, " <" + in + " >" + out));
    }
    ours.best = (some - none) / 2;
    ours.levels.assign(count, 0);
    std::ifstream(out, std::ios::binary).read(reinterpret_cast<char*>(ours.levels.data()), std::streamsize(count * 2));
}

// Prints a line, and ends the run if a level differs.
static void report(const string& what, size_t count, const Timed& library, const Timed& plain, const Timed* smaller) {
    if (library.levels != plain.levels) {
        std::printf("%s: levels differ\n", what.c_str());
        std::exit(1);
    }
    std::printf("%-22s %9zu %10.1f %10.1f %7.2f", what.c_str(), count, library.best / double(count), plain.best / double(count), library.best / plain.best);
    if (smaller) std::printf(" %8.2f", library.best / smaller->best);
    std::printf("\n");
    std::fflush(stdout);
}

// Sheets of three sizes: each four times the cells of the one before.
static void sheets(const Tool& tool, bool rough, uint64_t seed) {
    Timed smaller;
    for (size_t side : {512, 1024, 2048}) {
        const vector<int16_t> heights = sheet(side, rough, seed);
        Timed ours, plain;
        compare(tool, std::to_string(side) + " " + std::to_string(side), heights, side * side, [&] { return plain_sheet(heights, side, side); }, ours, plain);
        report((rough ? "rough " : "smooth ") + std::to_string(side), side * side, ours, plain, side > 512 ? &smaller : nullptr);
        smaller = ours;
    }
}

// A ring with random levels, in which the levels that are found for nodes fall often.
static void ring(const Tool& tool, uint64_t seed) {
    const RingShape shape{250000, 250, 1, 77777};
    vector<int16_t> levels(2 * shape.nodes);
    for (size_t edge = 0; edge < levels.size(); edge++) levels[edge] = int16_t(noise(0, edge, seed, 32767));
    const string words = std::to_string(shape.nodes) + " " + std::to_string(shape.outlets) + " " + std::to_string(shape.near) + " " + std::to_string(shape.wide);
    Timed ours, plain;
    compare(tool, words, levels, shape.nodes, [&] { return plain_ring(shape, levels); }, ours, plain);
    report("ring, random levels", shape.nodes, ours, plain, nullptr);
}

int main(int argc, char** argv) {
    if (argc != 4) {
        std::fprintf(stderr, "usage: flood PROGRAM FOLDER SEED\n");
        return 2;
    }
    const Tool tool{argv[1], argv[2]};
    const uint64_t seed = std::strtoull(argv[3], nullptr, 10);
    std::printf("%-22s %9s %10s %10s %7s %8s\n", "flood of", "nodes", "library ns", "plain ns", "ratio", "growth");
    sheets(tool, true, seed);
    sheets(tool, false, seed);
    ring(tool, seed);
}

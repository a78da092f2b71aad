// Times the gate from C beside its peers in one process.
//
// library times ROUNDS FILE..: in each round, tile by tile, one batch of calls of each in turn. A line for each tile of a
// round: its number in the list, the gate's code or 0, whether protozero and GEOS take it, and the nanoseconds of
// processor time that a call takes of the gate, of the check over protozero, and of that check with GEOS.
//
// library rate SECONDS THREADS FILE..: the gate on all tiles again and again, by so many threads at once. One line: the
// calls, the seconds of processor time and those of the clock.
#include "check.hpp"
#include "polygons.hpp"

#include <mvtgate.h>

#include <algorithm>
#include <atomic>
#include <cstdint>
#include <cstdio>
#include <cstdlib>
#include <ctime>
#include <exception>
#include <string>
#include <string_view>
#include <thread>
#include <vector>

namespace {

using Tile = std::string;
// Whether the tile is taken.
using Check = bool (*)(const Tile&);

struct Answer {
    int status;
    std::uint8_t text[MVTGATE_TEXT_ROOM];
    std::size_t length;
};

Answer ask(const Tile& tile) {
    Answer answer; // (the text isn't set before it is written)
    const auto* const bytes = reinterpret_cast<const std::uint8_t*>(tile.data());
    answer.status = mvtgate_check(MVTGATE_POLYGON, bytes, tile.size(), answer.text, sizeof answer.text, &answer.length);
    return answer;
}

bool gate(const Tile& tile) {
    return ask(tile).status == 0;
}

bool rules(const Tile& tile) {
    try {
        peer::check_tile(peer::pbf_reader{tile});
    } catch (const std::exception&) {
        return false;
    }
    return true;
}

bool polygons(const Tile& tile) {
    static const peer::Geos geos;
    auto check = [](peer::Numbers numbers) { peer::Polygons{geos, false}.check(numbers); };
    try {
        peer::check_tile(peer::pbf_reader{tile}, check);
    } catch (const std::exception&) {
        return false;
    }
    return true;
}

bool rules_and_polygons(const Tile& tile) {
    return rules(tile) && polygons(tile);
}

// The code of the gate's fault, or 0.
int code_of(const Tile& tile) {
    const Answer answer = ask(tile);
    if (answer.status > 1) {
        std::fprintf(stderr, "library: mvtgate_check gives %d\n", answer.status);
        std::exit(2);
    }
    constexpr std::string_view key = "\"code\":";
    const std::string text(reinterpret_cast<const char*>(answer.text), answer.length);
    const std::size_t at = text.find(key);
    return at == std::string::npos ? 0 : std::atoi(text.c_str() + at + key.size());
}

double seconds(clockid_t clock) {
    timespec time;
    clock_gettime(clock, &time);
    return static_cast<double>(time.tv_sec) + 1e-9 * static_cast<double>(time.tv_nsec);
}

// The seconds of a call, over so many calls.
double time(Check check, const Tile& tile, long calls) {
    const double before = seconds(CLOCK_THREAD_CPUTIME_ID);
    for (long i = 0; i < calls; ++i) {
        check(tile);
    }
    return (seconds(CLOCK_THREAD_CPUTIME_ID) - before) / static_cast<double>(calls);
}

// How many calls take about two milliseconds.
long batch(Check check, const Tile& tile) {
    const double one = std::max(time(check, tile, 3), 1e-8);
    return std::clamp(static_cast<long>(2e-3 / one), 1L, 100000L);
}

void print_times(const std::vector<Tile>& tiles, int rounds) {
    constexpr Check checks[] = {gate, rules, rules_and_polygons};
    for (int round = 0; round < rounds; ++round) {
        for (std::size_t i = 0; i < tiles.size(); ++i) {
            const Tile& tile = tiles[i];
            std::printf("%zu %d %d %d", i, code_of(tile), rules(tile), polygons(tile));
            for (const Check check : checks) {
                std::printf(" %.1f", 1e9 * time(check, tile, batch(check, tile)));
            }
            std::puts("");
        }
    }
}

void print_rate(const std::vector<Tile>& tiles, double length, int count) {
    std::atomic<long> calls{0};
    const double used = seconds(CLOCK_PROCESS_CPUTIME_ID);
    const double begin = seconds(CLOCK_MONOTONIC);
    const auto work = [&] {
        long own = 0;
        while (seconds(CLOCK_MONOTONIC) < begin + length) {
            for (const Tile& tile : tiles) {
                gate(tile);
            }
            own += static_cast<long>(tiles.size());
        }
        calls += own;
    };
    std::vector<std::thread> threads;
    for (int i = 0; i < count; ++i) {
        threads.emplace_back(work);
    }
    for (std::thread& thread : threads) {
        thread.join();
    }
    std::printf("%ld %.6f %.6f\n", calls.load(), seconds(CLOCK_PROCESS_CPUTIME_ID) - used, seconds(CLOCK_MONOTONIC) - begin);
}

std::vector<Tile> read_tiles(int count, char** files) {
    std::vector<Tile> tiles;
    for (int i = 0; i < count; ++i) {
        std::FILE* const file = std::fopen(files[i], "rb");
        if (file == nullptr) {
            std::perror(files[i]);
            std::exit(2);
        }
        tiles.push_back(peer::read_whole(file));
        std::fclose(file);
    }
    return tiles;
}

} // namespace

int main(int count, char** words) {
    const std::string_view mode = count > 1 ? words[1] : "";
    if (mode == "times" && count > 3) {
        print_times(read_tiles(count - 3, words + 3), std::atoi(words[2]));
    } else if (mode == "rate" && count > 4) {
        print_rate(read_tiles(count - 4, words + 4), std::atof(words[2]), std::atoi(words[3]));
    } else {
        std::fputs("usage: library times ROUNDS FILE.. | library rate SECONDS THREADS FILE..\n", stderr);
        return 2;
    }
    return 0;
}

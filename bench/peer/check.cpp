// Checks one uncompressed vector tile with protozero: check [FILE].
//
// Without FILE the tile comes from standard input. It writes {"ok":true} with status 0, or the first fault that it
// meets with status 1; status 2 says that it could not run.
#include "check.hpp"

#include <cstdio>
#include <exception>
#include <string>

int main(int count, char** words) {
    std::FILE* const input = count > 1 ? std::fopen(words[1], "rb") : stdin;
    if (input == nullptr) {
        std::perror(words[1]);
        return 2;
    }
    const std::string bytes = peer::read_whole(input);
    if (std::ferror(input) != 0) {
        std::perror("cannot read the input");
        return 2;
    }
    try {
        peer::check_tile(peer::pbf_reader{bytes});
    } catch (const std::exception& fault) {
        std::printf("{\"fault\":\"%s\"}\n", fault.what());
        return 1;
    }
    std::puts("{\"ok\":true}");
    return 0;
}

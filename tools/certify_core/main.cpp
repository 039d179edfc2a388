// certify_core: reads a program and points near it, and writes a claim of it with what shows that (see tools/certify). Nothing of it is
// trusted: the checker reads what it writes.
//   certify_core SECONDS WORK SEED tells|quiet < PROGRAM > CLAIM

#include <cstdlib>
#include <exception>
#include <iostream>

#include "claim.hpp"

int main(int count, char** words) {
    if (count != 5) {
        std::cerr << "usage: certify_core SECONDS WORK SEED tells|quiet\n";
        return 2;
    }
    try {
        Watch watch(std::atof(words[1]), std::string(words[4]) == "tells");
        const Program program = read_program(std::cin);
        const std::vector<std::vector<double>> points = read_points(std::cin, program);
        const Limits limits{std::atof(words[2]), static_cast<unsigned>(std::atoi(words[3]))};
        find_claim(program, points, limits, watch).write(std::cout, program);
        std::cout.flush();
        return std::cout ? 0 : 4;
    } catch (const std::exception& error) {
        std::cerr << "certify_core: " << error.what() << '\n';
        return 1;
    }
}

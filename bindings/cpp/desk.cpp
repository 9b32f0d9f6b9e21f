/* Prints what examples/c/desk.c prints: desk TRACK < BATCH
   It feeds a batch, says why lines were refused, and prints at the end what the desk knows.

   c++ -std=c++17 desk.cpp $(pkg-config --cflags --libs rbc) -o desk */
#include "rbc.hpp"

#include <fstream>
#include <iostream>
#include <iterator>

static void print_state(rbc::desk &desk) {
    static const char *const ways[] = {"down", "up", "both"};
    static const char *const waits[] = {"conditional stop", "unconditional stop", "restriction", "revocation of a stop",
                                        "revocation of a restriction"};
    for (const rbc_train &train : desk.trains()) {
        std::cout << "train " << train.engine << ": length " << train.length << ", stamp " << train.stamp << ", ";
        if (train.placed)
            std::cout << "line " << train.line << ", " << train.from << '-' << train.to << ", facing "
                      << ways[train.facing];
        else
            std::cout << "no place";
        std::cout << ", holds " << train.stops << " stop and " << train.restrictions << " restriction identifiers\n";
    }
    for (const rbc_stop_segment &stop : desk.stops())
        std::cout << "stop " << stop.number << ": " << stop.line << ':' << stop.from << '-' << stop.to << '\n';
    for (const rbc_restriction &one : desk.restrictions())
        std::cout << "restriction " << one.number << ": " << one.line << ':' << one.from << '-' << one.to << ' '
                  << ways[one.ways] << ' ' << one.speed << ' ' << one.front << '\n';
    for (const rbc_outstanding_entry &one : desk.outstanding()) {
        std::cout << "waiting: train " << one.engine << ", identifier " << one.identifier << ", stamp " << one.stamp
                  << ", " << waits[one.kind];
        if (one.kind < RBC_WAITS_REVOCATION_OF_STOP)
            std::cout << ' ' << one.number;
        std::cout << '\n';
    }
}

static int run(const char *file) {
    std::ifstream stream(file, std::ios::binary);
    if (!stream)
        throw std::runtime_error("the track is unreadable");
    const std::string track((std::istreambuf_iterator<char>(stream)), std::istreambuf_iterator<char>());
    std::cout << "rules " << rbc::rules() << '\n';
    rbc::report report = rbc::check(track);
    if (report.refused) {
        std::cout << report.text;
        return 1;
    }
    rbc::desk desk(track);
    std::string line;
    for (std::size_t number = 1; std::getline(std::cin, line); number++)
        if (desk.feed(line).refused)
            std::cout << "line " << number << ": " << desk.explain(line);
    print_state(desk);
    return 0;
}

int main(int argc, char **argv) {
    if (argc != 2) {
        std::cerr << "usage: desk TRACK < BATCH\n";
        return 2;
    }
    try {
        return run(argv[1]);
    } catch (const std::exception &error) {
        std::cerr << "desk: " << error.what() << '\n';
        return 1;
    }
}

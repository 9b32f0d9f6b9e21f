/* Prints what `dispatch live --alarms` prints: live TRACK < BATCH

   c++ -std=c++17 live.cpp $(pkg-config --cflags --libs rbc) -o live */
#include "rbc.hpp"

#include <cstdio>
#include <fstream>
#include <iostream>
#include <iterator>
#include <tuple>

static bool operator<(const rbc_alarm &a, const rbc_alarm &b) {
    return std::tie(a.engine, a.kind, a.number) < std::tie(b.engine, b.kind, b.number);
}

static void print(std::size_t number, const char *how, const rbc_alarm &alarm) {
    static const char *const kinds[] = {"place", "stop", "restriction", "answer"};
    std::printf("%zu %s %u %s", number, how, unsigned(alarm.engine), kinds[alarm.kind]);
    if (alarm.kind != RBC_ALARM_PLACE)
        std::printf(" %u", unsigned(alarm.number));
    std::putchar('\n');
}

/* The alarms of only one of two lists: both are in order. */
static void print_changes(std::size_t number, const std::vector<rbc_alarm> &old, const std::vector<rbc_alarm> &now) {
    for (auto a = old.begin(), b = now.begin(); a != old.end() || b != now.end();) {
        if (b == now.end() || (a != old.end() && *a < *b))
            print(number, "cleared", *a++);
        else if (a == old.end() || *b < *a)
            print(number, "raised", *b++);
        else
            ++a, ++b;
    }
}

/* Calls again, once, where there was no memory: nothing was changed. A radio block centre frees some first. */
template <class Call> static auto again(std::size_t number, Call call) {
    try {
        return call();
    } catch (const std::bad_alloc &) {
        std::fprintf(stderr, "live: no memory at line %zu, tried again\n", number);
        return call();
    }
}

static int run(const char *file) {
    std::ifstream stream(file, std::ios::binary);
    if (!stream)
        throw std::runtime_error("the track is unreadable");
    const std::string track((std::istreambuf_iterator<char>(stream)), std::istreambuf_iterator<char>());
    rbc::desk first = again(0, [&] { return rbc::desk(track); });
    rbc::desk desk = std::move(first); // a desk may be moved, into another owner or to another thread
    std::vector<rbc_alarm> old;
    std::string line;
    for (std::size_t number = 1; std::getline(std::cin, line); number++) {
        rbc::reply reply = again(number, [&] { return desk.feed(line); });
        if (reply.refused)
            std::printf("%zu refused %u\n", number, unsigned(reply.refused));
        else
            std::printf("%zu ok %zu\n", number, reply.size());
        for (const rbc_message &message : reply) {
            std::printf("%u %zu ", unsigned(message.engine), number);
            for (std::size_t i = 0; i < message.length; i++)
                std::printf("%02X", message.bytes[i]);
            std::putchar('\n');
        }
        std::vector<rbc_alarm> now = again(number, [&] { return desk.alarms(); });
        print_changes(number, old, now);
        old = std::move(now);
    }
    return 0;
}

int main(int argc, char **argv) {
    if (argc != 2) {
        std::fputs("usage: live TRACK < BATCH\n", stderr);
        return 2;
    }
    try {
        return run(argv[1]);
    } catch (const std::exception &error) {
        std::fprintf(stderr, "live: %s\n", error.what());
        return 1;
    }
}

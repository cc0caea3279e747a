/* A ring of twelve nodes settles, is broken by a fault and a leaving node, and mends itself. The transcript
 * is printed, and judged in the end.
 * Build: c++ -std=c++17 ring.cpp -I../../include ../../release/librudekpi.a */
#include <exception>
#include <iostream>
#include "rudekpi.hpp"

static int play() {
    rudekpi::Network ring(rudekpi::Rules::manne, 12);
    for (rudekpi::Node v = 1; v <= 12; v++) ring.link(v, v % 12 + 1);
    ring.drive(7, 100);
    ring.matching();
    ring.point(1, 12);
    ring.leave(4);
    ring.drive(8, 100);
    ring.matching();
    ring.status();
    auto transcript = ring.transcript();
    auto verdict = rudekpi::audit(transcript);
    std::cout << transcript << "audit: kind " << verdict.kind << ", " << verdict.entries << " entries, "
              << verdict.epochs << " epochs, " << verdict.moves << " moves\n";
    return verdict.accepted() ? 0 : 1;
}

int main() {
    try {
        return play();
    } catch (const std::exception &wrong) {
        std::cerr << "ring: " << wrong.what() << "\n";
        return 2;
    }
}

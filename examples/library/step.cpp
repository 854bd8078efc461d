// A read, event by event, as step.c does it, by the header for C++.
#include "pafteis.hpp"

#include <fstream>
#include <iostream>
#include <iterator>

static void show(const pafteis_reply &reply) {
    static const char *const names[] = {"",       "started", "stepped", "finished", "topped",
                                        "waited", "idle",    "refused"};
    std::cout << names[reply.kind];
    if (reply.kind == PAFTEIS_STARTED || reply.kind == PAFTEIS_TOPPED)
        std::cout << ' ' << reply.packet;
    std::cout << '\n';
}

int main(int count, char **words) {
    std::ifstream file(count > 1 ? words[1] : "examples/echo.drv", std::ios::binary);
    std::string set((std::istreambuf_iterator<char>(file)), std::istreambuf_iterator<char>());
    try {
        pafteis::world world(set, 2);
        show(world.issue(0, 0, PAFTEIS_READ, 7));
        for (int step = 0; step < 4; step++)
            show(world.step(0));
        return 0;
    } catch (const pafteis::error &fault) {
        std::cerr << pafteis::explain(set, PAFTEIS_FIRST).text;
        return static_cast<int>(fault.status);
    }
}

// The wrapper's instrument: replies, moments, refusals, a restart, and a move.
#include <cstdio>
#include <cstdlib>
#include <utility>

#include "geocom.hpp"

#define SEE(E) if (!(E)) { std::printf("instruments.cpp: not so: %s\n", #E); return 1; }

int main() {
    geocom::instrument truck("target 0.5 1.5 10\nblocked 1 2 3\ndelay 17017 250\n");
    SEE(truck.feed("%R1Q,9027,0:0.5,1.5,0,1,0\r\n%R1Q,17017,1:2\r\n") == "%R1P,0,0:0\r\n%R1P,0,1:0,0.5,1.5,10.0,2\r\n")
    geocom::instrument other = std::move(truck);
    const std::vector<geocom::reply> heard = other.replies_to("%R1Q,17017,2:2\r\n", 1000);
    SEE(heard.size() == 1 && heard[0].due == 1250 && heard[0].text == "%R1P,0,2:1285\r\n")
    SEE(other.replies_to("%R1Q,5003,", 2000).empty())
    other.restart();
    SEE(other.feed("3:\r\n", 3000).empty())
    try {
        geocom::instrument faulty("serial 1\n\nblocked 1 2\n");
        return 1;
    } catch (const geocom::bad_scene &refused) {
        SEE(refused.number == 51 && refused.line == 3)
    }
    // A station over it, with a clock of the test's own: a request waits no longer than it has to.
    geocom::instrument east("serial 71\ntarget 0.25 1.5 12.5\n");
    std::uint64_t now = 0;
    std::string waiting;
    geocom::station station(
        [&](std::uint64_t milliseconds) { if (waiting.empty()) now += milliseconds; return std::exchange(waiting, ""); },
        [&](std::string_view bytes) { waiting += east.feed(bytes, now); }, 1000, [&] { return now; });
    station.synchronize();
    const geocom::settlement ended = station.ask(7, 5003);
    SEE(ended.outcome == geocom::outcome::answered && ended.items.size() == 1 && ended.items[0] == "71")
    std::puts("instruments: C++, with a station over one");
    return 0;
}

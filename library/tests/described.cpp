// Procedures that a text describes, through geocom::description and geocom::station, over an instrument that answers at once.
#include <cstdio>
#include <cstdlib>

#include "geocom.hpp"

namespace {

#define SEE(E) if (!(E)) { std::printf("described: not so: %s (line %d)\n", #E, __LINE__); return 1; }

std::vector<std::string> answers; // what stands behind the colon of the replies to procedures that aren't null, in turn
std::string came;
std::vector<int> sent;

void write(std::string_view bytes) {
    const std::string line(bytes);
    if (line == "\n") return;
    const std::size_t comma = line.find(',', 5), colon = line.find(':');
    sent.push_back(std::atoi(line.c_str() + 5));
    std::string answer = "0";
    if (sent.back() != 0) {
        answer = answers.front();
        answers.erase(answers.begin());
    }
    came += "%R1P,0," + line.substr(comma + 1, colon - comma - 1) + ":" + answer + "\r\n";
}

std::string read(std::uint64_t) {
    std::string all;
    all.swap(came);
    return all;
}

template <typename Call> std::uint32_t fault_of(Call call) {
    try {
        call();
        return 0;
    } catch (const geocom::fault &fault) {
        return fault.number;
    }
}

} // namespace

int main() {
    const std::string tilt = "2167 mode Long -> hz_rad Double v_rad Double", further = tilt + " ..";
    geocom::station station(read, write);
    for (const char *bad : {"", "2167", "2167 mode long ->", "2167 -> x Long x Long", "2167 -> time Long"})
        SEE(fault_of([&] { station.describe(bad); }) == 71);
    SEE(fault_of([&] { station.describe("2107 mode Long -> hz_rad Double"); }) == 68);
    SEE(fault_of([&] { station.ask(7, 2167, "1"); }) == 21);

    const geocom::description &said = station.describe(tilt);
    SEE(said.procedure() == 2167 && said.columns().size() == 2 && said.columns()[1].name == "v_rad" && said.columns()[1].kind == GEOCOM_DOUBLE && !said.more());
    sent.clear();
    SEE(fault_of([&] { station.ask(7, 2167, "x"); }) == 11 && fault_of([&] { station.ask(7, 2167); }) == 15);
    SEE(fault_of([&] { station.measure(7, {{2107, "1"}, {2167, "1,2"}}); }) == 15 && sent.empty());

    answers = {"0,0.25,1.5", "0,0.25,x", "0,0.25,1.5,7", "1285,0.25,1.5", "0,0.25,1.5,7"};
    geocom::settlement s = station.ask(7, 2167, "1");
    SEE(s.reading == geocom::reading::value && s.find("hz_rad") == "0.25" && s.find("v_rad") == "1.5" && !s.find("mode"));
    s = station.ask(7, 2167, "1");
    SEE(s.reading == geocom::reading::unreadable && s.code == 11 && s.items.empty() && !s.find("hz_rad"));
    s = station.ask(7, 2167, "1");
    SEE(s.reading == geocom::reading::unreadable && s.code == 15);
    s = station.ask(7, 2167, "1");
    SEE(s.reading == geocom::reading::refused && s.code == 1285 && s.items.empty());
    s = station.ask_raw(7, 2167, "x");
    SEE(s.reading == geocom::reading::value && s.items.size() == 3 && s.columns.empty());

    SEE(station.describe(further).more());
    answers = {"0,0.25,1.5,7", "1285,0.25,1.5,7", "1285,0.25"};
    s = station.ask(7, 2167, "1");
    SEE(s.items.size() == 3 && s.columns.size() == 2 && s.items[2] == "7" && s.find("v_rad") == "1.5");
    const auto rows = station.measure(7, {{2167, "1"}, {2167, "1"}}, std::nullopt, {1285});
    SEE(rows.size() == 2 && rows[0].reading == geocom::reading::value && rows[0].code == 1285 && rows[0].find("hz_rad") == "0.25");
    SEE(rows[1].reading == geocom::reading::refused && rows[1].items.empty());
    std::printf("described procedures in C++: by their columns' names\n");
    return 0;
}

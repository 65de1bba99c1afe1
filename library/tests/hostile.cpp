// The links of hostile.c through geocom::station, single requests and chains: hostile ROUNDS.
#include "wire.hpp"

namespace {

const char *not_so = nullptr;
#define SEE(E) if (!(E) && not_so == nullptr) not_so = #E

struct counts {
    unsigned long answered = 0, others = 0, silent = 0, wrong = 0, overdue = 0;
};

void judge(const geocom::settlement &s, unsigned number, int procedure, counts &told) {
    const auto &items = s.items;
    const unsigned value =
        items.size() == 2 ? wire_number(items[0].data(), items[0].size(), items[1].data(), items[1].size()) : 0;
    const bool is_value = s.reading == geocom::reading::value && value != 0;
    (is_value ? told.answered : told.others) += 1;
    if (s.target != number || s.procedure != procedure || (is_value && value != number)) ++told.wrong;
}

// A chain of two requests, or a single one. Each request is sent within the timeout of the moment at which its turn came, and ends by its
// deadline.
void ask(geocom::station &station, wire &w, unsigned number, counts &told) {
    const std::uint64_t timeout = std::array<std::uint64_t, 4>{1, 500, 3000, 30000}[wire_draw(&w, 4)], begun = w.now;
    const std::uint64_t sign_ons = station.sign_ons();
    const unsigned long before = w.requests;
    const bool is_raw = wire_draw(&w, 2) == 0, is_chain = wire_draw(&w, 3) == 0;
    const std::string params = std::to_string(number);
    try {
        if (is_chain) {
            const auto all = station.measure(number, {{2107, params}, {2167, params}}, timeout);
            for (std::size_t k = 0; k < all.size(); ++k) judge(all[k], number, k == 0 ? 2107 : 2167, told);
            if (all.empty() || all.size() > 2 || w.requests != before + all.size() || w.now > begun + 4 * timeout) ++told.overdue;
            if (all.size() == 2 && all[0].reading != geocom::reading::value) ++told.wrong;
        } else {
            judge(is_raw ? station.ask_raw(number, 2167, params, timeout) : station.ask(number, 2107, params, timeout), number, is_raw ? 2167 : 2107, told);
            if (w.requests != before + 1 || w.sent > begun + timeout || w.now > w.sent + timeout) ++told.overdue;
        }
    } catch (const geocom::silent &why) {
        ++told.silent;
        if (w.requests != before || w.now > begun + timeout) ++told.overdue;
        if ((dynamic_cast<const geocom::restarted *>(&why) != nullptr) != (station.sign_ons() != sign_ons)) ++told.wrong;
    }
}

// What the loop owes to the session and to its caller.
void duties() {
    using geocom::outcome;
    auto w = std::make_unique<wire>();
    std::array<char, 600> kept;
    wire_be(w.get(), &links[0], 1, kept.data());
    w->least = 200, w->longest = 0;
    unsigned slow = 0, looks = 0, broken_look = 0, odd_read = 0;
    geocom::station station = station_over(*w, 2000, 500, [&](std::uint64_t milliseconds) {
        if (milliseconds > 0) w->now += slow;
        if (milliseconds > 0 && odd_read > 0) throw odd_read--;
        if (milliseconds == 0 && ++looks == broken_look) w->faults.broken = 1000;
    });
    const auto is = [&](unsigned number, std::uint64_t timeout, outcome how) {
        const geocom::settlement s = station.ask(number, 2107, std::to_string(number), timeout);
        return s.outcome == how && s.target == number && (how != outcome::answered || std::stod(s.items.at(0)) == number);
    };
    // What can't be sent is refused at once, before there is a connection.
    std::uint32_t refused = 0;
    try {
        station.ask(1, 2107, "x");
    } catch (const geocom::fault &fault) {
        refused = fault.number;
    }
    SEE(refused == 11 && w->now == 1000 && w->opened == 0);
    // A request has its whole time from when it is sent: ten round trips end after 4000.
    SEE(is(1, 3900, outcome::answered) && w->now == 1000 + 20 * 200 && w->opened == 1);
    // The time between two calls counts for no dead line.
    w->faults.lost = 1000;
    SEE(is(2, 300, outcome::lost));
    w->faults.lost = 0;
    w->now += 1000000;
    SEE(is(3, 3900, outcome::answered) && w->opened == 1);
    // A sign-on that came between two calls is heard before the next request is sent, wherever it is cut.
    for (unsigned k = 1; k <= 2; ++k) {
        const std::string came = "noise\r\n%N1,0,255,,0%T0,0,0,:\r\n";
        wire_pass(w.get(), &w->down, w->now, came.data(), came.size());
        w->now += 1000;
        w->faults.piece = k == 1 ? 256 : 1;
        const unsigned long requests = w->requests;
        bool is_told = false;
        try {
            station.ask(4, 2107, "4");
        } catch (const geocom::restarted &) {
            is_told = true;
        }
        SEE(is_told && w->requests == requests && station.sign_ons() == k && is(5, 9000, outcome::answered));
    }
    w->faults.piece = 256;
    // And so is the end of a connection: a chain ends there, and a single request goes over the next one.
    looks = 0, broken_look = 2;
    SEE(station.measure(6, {{2107, "6"}, {2107, "6"}}, 9000).size() == 1 && w->faults.broken == 1000);
    w->faults.broken = broken_look = 0;
    SEE(is(7, 9000, outcome::answered) && w->opened == 2);
    // A reply counts from the moment after the read.
    slow = 1000;
    SEE(is(8, 900, outcome::late));
    slow = 0;
    SEE(is(9, 900, outcome::answered));
    // What is no failure of the connection passes through, the connection is closed, and the next request goes over the next one.
    odd_read = 1;
    bool is_passed = false;
    try {
        station.ask(10, 2107, "10");
    } catch (unsigned which) {
        is_passed = which == 1;
    }
    SEE(is_passed && !w->is_open && is(11, 9000, outcome::answered) && w->opened == 3);
    // A timeout may be of any length.
    SEE(is(12, UINT64_MAX, outcome::answered));
}

counts run(const link &l, std::uint64_t seed) {
    auto w = std::make_unique<wire>();
    std::array<char, 600> kept;
    wire_be(w.get(), &l, seed, kept.data());
    geocom::station station = station_over(*w, 2000, 500);
    counts told, after;
    unsigned number = 0;
    while (number < 60) {
        ask(station, *w, ++number, told);
        if (wire_draw(w.get(), 20) == 0) w->now += 100000;
        if (wire_draw(w.get(), 20) == 0) {
            const std::uint64_t begun = w->now;
            try {
                station.synchronize();
            } catch (const geocom::silent &) {
            }
            if (w->now > begun + 8 * 2000 + 500) ++told.overdue;
        }
    }
    // The link is well again, after a minute at most.
    w->faults = links[0];
    w->longest = 100;
    for (int k = 0; k < 12; ++k) {
        try {
            const auto s = station.ask(++number, 2107, "1", 30000);
            if (k >= 4 && s.reading != geocom::reading::value) ++after.wrong;
        } catch (const geocom::silent &) {
            if (k >= 4) ++after.wrong;
        }
    }
    SEE(after.wrong == 0);
    return told;
}

} // namespace

int main(int count, char **words) {
    const unsigned long rounds = count > 1 ? std::strtoul(words[1], nullptr, 10) : 100;
    counts all;
    duties();
    for (const link &each : links) {
        counts told;
        for (unsigned long seed = 1; seed <= rounds; ++seed) {
            const counts one = run(each, seed);
            told.answered += one.answered, told.others += one.others, told.silent += one.silent, told.wrong += one.wrong, told.overdue += one.overdue;
        }
        if (told.wrong != 0 || told.overdue != 0 || (&each == links && told.silent + told.others > told.answered)) {
            std::printf("hostile: %s: %lu answered, %lu others, %lu silent, %lu wrong, %lu overdue\n", each.name, told.answered, told.others,
                        told.silent, told.wrong, told.overdue);
            return 1;
        }
        all.answered += told.answered, all.others += told.others, all.silent += told.silent;
    }
    if (not_so != nullptr) std::printf("hostile: not so: %s\n", not_so);
    else std::printf("hostile links in C++: %lu runs of %zu kinds: %lu answered, %lu late, lost or no value, %lu times silent; none wrong, none overdue\n",
                     rounds * static_cast<unsigned long>(std::size(links)), std::size(links), all.answered, all.others, all.silent);
    return not_so != nullptr;
}

// Random schedules through geocom::station and geocom_ask, over a line in memory with a clock of the trial's own: schedules COUNT. Each request
// has a number of its own, which its answer has; the line delays, loses, repeats and cuts, brings sign-ons, breaks in the middle of requests, and
// outlives the runs; the instrument keeps its reply over raw requests. An answer has to be its own request's, and each call has to end by its
// deadline. Where the line gives one reply another id, one answer may be another request's. A station is given its connections, or makes them
// itself; both, and geocom_ask, have their turns.
#include <cstdio>
#include <cstdlib>
#include <deque>
#include <random>

#include "lines.hpp"

namespace {

struct line {
    struct under_way {
        std::uint64_t at;
        std::string text;
    };
    std::mt19937 chance;
    std::uint64_t now = 1000;
    unsigned odd;
    bool is_first;
    std::deque<under_way> up, down;
    std::string cut, half, kept;
    int kept_id = -1;
    bool is_broken = false;
    std::uint64_t sent = 0; // when the last request was written that is no null procedure
    int damaged = -1, shift = 0; // the reply of this number, from 0 on, gets another id; none if it is negative

    line(std::uint32_t seed) : chance(seed), odd(pick({0, 1, 5, 20})), is_first(pick({0, 1}) == 1) {}

    unsigned pick(std::initializer_list<unsigned> of) { return of.begin()[chance() % of.size()]; }
    bool happens(unsigned per_cent) { return chance() % 100 < per_cent; }

    void pass_on(std::deque<under_way> &way, const std::string &text) {
        const std::uint64_t at = std::max<std::uint64_t>(now + pick({0, 10, 500, 8000}), way.empty() ? 0 : way.back().at);
        for (int k = happens(odd) ? 2 : 1; k > 0; --k) way.push_back({at, text});
    }

    void open() {
        half.clear();
        cut.clear();
        is_broken = false;
    }

    void write(std::string_view bytes) {
        cut += bytes;
        if (bytes.size() > 7 && bytes.substr(0, 7) != "%R1Q,0,") sent = now;
        for (std::size_t end; (end = cut.find('\n')) != std::string::npos; cut.erase(0, end + 1))
            if (end > 0 && cut[end - 1] == '\r' && !happens(odd)) pass_on(up, cut.substr(0, end - 1));
    }

    void arrive() {
        for (; !up.empty() && up.front().at <= now; up.pop_front()) {
            const std::string &text = up.front().text;
            if (happens(odd / 3)) kept_id = -1;
            if (happens(odd / 3)) pass_on(down, "%N1,0,255,,0%T0,0,0,:\r\n");
            const std::size_t comma = text.find(',', 5), colon = text.find(':');
            const int procedure = std::atoi(text.c_str() + 5), id = std::atoi(text.c_str() + comma + 1);
            const bool is_raw = procedure == 2167;
            if (kept_id != id || (is_raw && !is_first)) {
                std::string reply = "%R1P,0," + std::to_string(id) + ":0";
                if (procedure != 0) reply += "," + text.substr(colon + 1) + (is_raw ? "" : ".0,0.5");
                if (!is_raw) kept = reply, kept_id = id;
                if (damaged-- == 0) reply[7] = static_cast<char>('0' + (id + shift) % 8);
                if (!happens(odd)) pass_on(down, reply + "\r\n");
            } else if (!happens(odd)) {
                pass_on(down, kept + "\r\n");
            }
        }
    }

    std::string read(std::uint64_t milliseconds) {
        if (is_broken || (odd != 0 && chance() % 200 == 0)) {
            is_broken = true;
            throw std::runtime_error("broken");
        }
        for (const std::uint64_t end = now + milliseconds;;) {
            arrive();
            for (; !down.empty() && down.front().at <= now; down.pop_front()) half += down.front().text;
            if (!half.empty()) {
                const std::string piece = half.substr(0, pick({1, 5, 200, 200}));
                half.erase(0, piece.size());
                return piece;
            }
            std::uint64_t next = end;
            for (auto *way : {&up, &down})
                if (!way->empty()) next = std::min(next, way->front().at);
            if (next >= end) {
                now = end;
                return "";
            }
            now = std::max(now, next);
        }
    }
};

// Over lines one of whose replies gets another id: how many answers are another request's, over all lines, or -1 if one line has several.
long damaged(unsigned long count) {
    long harmed = 0;
    for (unsigned long place = 0; place < count; ++place) {
        line l(static_cast<std::uint32_t>(place));
        l.odd = 0;
        l.damaged = static_cast<int>(l.chance() % 40);
        l.shift = static_cast<int>(l.chance() % 7) + 1;
        geocom::station station = station_of(l);
        int wrong = 0;
        for (unsigned number = 1; number < 40; ++number) {
            try {
                const auto s = station.ask(number, 2107, std::to_string(number), l.pick({500, 500, 10000}));
                wrong += s.reading == geocom::reading::value && std::strtoul(s.items[0].c_str(), nullptr, 10) != number;
            } catch (const geocom::silent &) {
            }
        }
        if (wrong > 1) return -1;
        harmed += wrong;
    }
    return harmed;
}

} // namespace

int main(int, char **words) {
    const unsigned long count = std::strtoul(words[1], nullptr, 10);
    const long harmed = damaged(count);
    if (harmed <= 0) {
        std::printf("schedules: damaged replies: %ld\n", harmed);
        return 1;
    }
    unsigned long answered = 0, lost = 0, wrong = 0, silent = 0;
    const auto judge = [&](unsigned number, unsigned target, bool is_answered, bool has_value, const std::string &item) {
        (is_answered ? answered : lost) += 1;
        if (target != number || (has_value && std::strtoul(item.c_str(), nullptr, 10) != number)) ++wrong;
    };
    for (unsigned long place = 0; place < count; ++place) {
        line l(static_cast<std::uint32_t>(place));
        unsigned number = 0;
        for (int run = 0; run < 2; ++run) {
            geocom::station station = station_of(l, place % 3 == 2, 500);
            const geocom_port port = port_of(l);
            geocom_session session;
            geocom_session_init(&session, 1, 10000, 500);
            const bool is_c = place % 3 == 1;
            for (unsigned asked = l.chance() % 30; asked > 0; --asked) {
                const std::uint64_t timeout = l.pick({500, 500, 10000, 30000}), begun = l.now;
                const bool is_raw = l.happens(run == 0 ? 90 : 10);
                const std::string params = std::to_string(++number);
                if (place % 3 == 0 && (l.is_broken || l.happens(3))) {
                    l.open();
                    station.reconnected();
                }
                bool is_sent = true;
                if (is_c) {
                    geocom_settlement s;
                    std::uint8_t text[GEOCOM_TEXT_ROOM];
                    const int told = (is_raw ? geocom_ask_raw : geocom_ask)(&session, &port, number, is_raw ? 2167 : 2107, params.c_str(), timeout, &s, text);
                    is_sent = told == 0;
                    if (told == GEOCOM_SILENT) {
                        ++silent;
                    } else if (told != 0) {
                        ++wrong;
                    } else {
                        const bool is_answered = s.outcome == GEOCOM_ANSWERED, has_value = s.reading == GEOCOM_VALUE;
                        judge(number, s.target, is_answered, has_value,
                              has_value ? std::string(text + s.item_spans[0].offset, text + s.item_spans[0].offset + s.item_spans[0].length) : "");
                    }
                } else {
                    try {
                        const auto s = is_raw ? station.ask_raw(number, 2167, params, timeout) : station.ask(number, 2107, params, timeout);
                        judge(number, s.target, s.outcome == geocom::outcome::answered, s.reading == geocom::reading::value, s.items.empty() ? "" : s.items[0]);
                    } catch (const geocom::silent &) {
                        ++silent;
                        is_sent = false;
                    } catch (const std::runtime_error &) {
                        ++lost;
                        is_sent = l.sent >= begun;
                        if (place % 3 != 0) ++wrong; // one that makes its connections has none that fails
                    }
                }
                if (l.now > (is_sent ? l.sent : begun) + timeout || (is_sent && l.sent > begun + timeout)) ++wrong;
                if (l.happens(5)) l.now += 100000;
            }
        }
    }
    std::printf("schedules in C++ and C: %lu: %lu answered, %lu late or lost, %lu times silent; %lu wrong; %lu with a damaged reply, which harmed %ld\n", count, answered, lost, silent, wrong, count, harmed);
    return wrong != 0 || answered == 0;
}

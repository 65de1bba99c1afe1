// Cases of geocom::station and of geocom_ask on a bad line: connections that break, lines that are never quiet, silence, chains, held-back
// requests and sign-ons, over an instrument that answers at once.
#include <cstdio>
#include <cstdlib>

#pragma GCC diagnostic error "-Wshadow" // a build with this warning takes the headers
#include "geocom.hpp"
#pragma GCC diagnostic ignored "-Wshadow"
#include "lines.hpp"

namespace {

// An instrument that answers at once, unless its line is told to be silent or to break, and noise every so often. It keeps what it was sent.
struct scripted {
    std::uint64_t now = 1000, noise_every = 0, noise_at = 0;
    bool is_silent = false, breaks = false;
    int warned = 0; // the procedure that is answered with 1284
    int starts_at = -1; // a sign-on comes before the reply to the next null procedure with this id
    std::string front = "\n", behind; // if `front` is no line feed, each reply to 2107 is that, and this, without the reply's line end
    std::string cut, came;
    std::vector<int> executed;
    std::vector<std::pair<int, int>> sent; // procedures and ids

    void open() {}

    void write(std::string_view bytes) {
        cut += bytes;
        for (std::size_t end; (end = cut.find('\n')) != std::string::npos; cut.erase(0, end + 1)) {
            if (end == 0) continue;
            const std::size_t comma = cut.find(',', 5), colon = cut.find(':');
            const int procedure = std::atoi(cut.c_str() + 5);
            sent.emplace_back(procedure, std::atoi(cut.c_str() + comma + 1));
            if (is_silent) continue;
            if (procedure == 0 && sent.back().second == starts_at) {
                came += "%N1,0,255,,0%T0,0,0,:\r\n";
                starts_at = -1;
            }
            if (procedure != 0) executed.push_back(procedure);
            if (procedure == 2107 && front != "\n")
                came += front + (front.empty() ? "" : cut.substr(comma + 1, colon - comma - 1) + ":0,1.5") + behind;
            else if (!breaks || procedure == 0)
                came += "%R1P,0," + cut.substr(comma + 1, colon - comma - 1) + ":" + (procedure == warned && warned != 0 ? "1284" : "0") +
                        (procedure == 2107 ? ",1.5,0.5" : procedure == 2167 ? ",7" : "") + "\r\n";
        }
    }

    std::string read(std::uint64_t milliseconds) {
        if (breaks && came.empty() && milliseconds > 0) throw std::runtime_error("broken");
        std::string all;
        all.swap(came);
        if (all.empty() && noise_every != 0 && noise_at <= now + milliseconds) {
            now = std::max(now, noise_at);
            noise_at = now + noise_every;
            return "noise\r\n";
        }
        if (all.empty()) now += milliseconds;
        return all;
    }
};

const char *not_so = nullptr;
#define SEE(E) if (!(E) && not_so == nullptr) not_so = #E

// What the call throws: a fault's number, -3 if the instrument was switched on or off, -2 if it is silent, -1 if the connection breaks, 0 if
// nothing is.
constexpr int RESTARTED = -3, FAILED = -1;
template <typename Call> int thrown(Call call) {
    try {
        call();
        return 0;
    } catch (const geocom::fault &fault) {
        return static_cast<int>(fault.number);
    } catch (const geocom::restarted &) {
        return RESTARTED;
    } catch (const geocom::silent &) {
        return GEOCOM_SILENT;
    } catch (const std::runtime_error &) {
        return FAILED;
    }
}

struct fixture {
    scripted line;
    geocom::station station;
    geocom_port port = port_of(line);
    geocom_session session;
    geocom_settlement settled;
    std::uint8_t text[GEOCOM_TEXT_ROOM];

    explicit fixture(std::uint8_t width = GEOCOM_WINDOW, bool opens = false) : station(station_of(line, opens)) {
        geocom_session_init(&session, width, 10000, 2000);
        SEE(ask_c(10000) == 0);
        station.synchronize();
        line.executed.clear();
    }
    int ask_c(std::uint64_t timeout) { return geocom_ask(&session, &port, 7, 2107, "1", timeout, &settled, text); }
    int ask_raw_c(std::uint64_t timeout) { return geocom_ask_raw(&session, &port, 7, 2167, "1", timeout, &settled, text); }
    int ask(std::uint64_t timeout) { return thrown([&] { station.ask(7, 2107, "1", timeout); }); }
    int ask_raw(std::uint64_t timeout) { return thrown([&] { station.ask_raw(7, 2167, "1", timeout); }); }
};

// Connections that broke in the middle of a request fill the window, and pauses are longer and longer: once the line is well, a request is
// answered.
void broken_connections() {
    for (std::uint8_t width = 1; width <= GEOCOM_WINDOW; ++width) {
        fixture f(width), g(width, true);
        for (int k = 0; k < GEOCOM_WINDOW + 1; ++k) {
            f.line.breaks = g.line.breaks = true;
            const int told = f.ask_c(60000);
            SEE(told == GEOCOM_SILENT || (told == 0 && f.settled.outcome == GEOCOM_LOST));
            SEE(f.ask(60000) == FAILED);
            f.station.reconnected();
            f.line.now += 60000;
            const int told_by_g = g.ask(60000);
            SEE(told_by_g == GEOCOM_SILENT || told_by_g == 0);
        }
        f.line.breaks = g.line.breaks = false;
        SEE(f.ask_c(70000) == 0 && f.settled.outcome == GEOCOM_ANSWERED);
        SEE(f.ask(70000) == 0 && f.station.ask(7, 2107, "1").outcome == geocom::outcome::answered);
        SEE(g.ask(70000) == 0 && g.station.ask(7, 2107, "1").outcome == geocom::outcome::answered);
    }
    fixture f;
    f.line.breaks = true;
    for (int k = 0; k < 20; ++k) SEE(f.ask(60000) == FAILED); // at one moment, of which the first alone sends its request
    f.line.breaks = false;
    f.station.reconnected();
    SEE(f.ask(10000) == 0 && f.station.ask(7, 2107, "1").outcome == geocom::outcome::answered);
}

// A new connection that never is quiet, and an instrument that falls silent: each call ends by its deadline, and the next ones are answered
// once the line is well.
void deadlines() {
    fixture f;
    f.line.noise_every = 500;
    f.station.reconnected();
    for (std::uint64_t timeout : {1000, 1, 5000}) {
        const std::uint64_t end = f.line.now + timeout;
        SEE(f.ask(timeout) == GEOCOM_SILENT && f.line.now <= end);
    }
    const std::uint64_t begun = f.line.now;
    SEE(thrown([&] { f.station.synchronize(); }) == GEOCOM_SILENT && f.line.now <= begun + 82000);
    f.line.noise_every = 0;
    for (int k = 0; k < 4; ++k) SEE(f.ask(1000) == 0 || k < 3);

    f.line.breaks = true;
    SEE(f.ask_c(1000) == 0 && f.settled.outcome == GEOCOM_LOST);
    f.line.breaks = false;
    f.line.noise_every = 500;
    for (std::uint64_t timeout : {1000, 1, 60000}) {
        const std::uint64_t end = f.line.now + timeout;
        SEE(f.ask_c(timeout) == GEOCOM_SILENT && f.line.now <= end);
    }
    f.line.noise_every = 0;
    SEE(f.ask_c(10000) == 0 && f.settled.outcome == GEOCOM_ANSWERED);

    for (int k = 0; k < 7; ++k) SEE(f.ask_raw(1000) == 0 && f.ask_raw_c(1000) == 0);
    f.line.is_silent = true;
    for (int k = 0; k < 40; ++k) {
        const std::uint64_t end = f.line.now + 1000;
        const int told = f.ask_raw(1000);
        SEE((told == 0 || told == GEOCOM_SILENT) && f.line.now <= end);
        const std::uint64_t end_c = f.line.now + 1000;
        const int told_c = f.ask_raw_c(1000);
        SEE((told_c == GEOCOM_SILENT || (told_c == 0 && f.settled.outcome == GEOCOM_LOST)) && f.line.now <= end_c);
    }
    // A line that is dead is told before the deadline.
    const std::uint64_t last = f.line.now;
    SEE(f.ask_raw(200000) == GEOCOM_SILENT && f.line.now < last + 100000);
    f.line.is_silent = false;
    for (int k = 0; k < 4; ++k) SEE((f.ask_raw(70000) == 0 && f.ask_raw_c(70000) == 0 && f.settled.outcome == GEOCOM_ANSWERED) || k < 3);
}

// A chain's commands are looked at before the first is sent; raw ones are sent as such, and accepted codes are values.
void chains() {
    fixture f;
    const auto measured = [&](const std::vector<geocom::station::command> &chain) { return thrown([&] { f.station.measure(7, chain); }); };
    SEE(measured({{9027, "1,1,0,1,0"}, {2008, "1,1"}, {2108, "5000"}}) == 15);
    SEE(measured({{9027, "1,1,0,1,0"}, {2008, "1,x"}}) == 11);
    SEE(measured({{2107, "1"}, {2167, "1\n"}}) == 11);
    const std::uint64_t now = f.line.now;
    SEE(thrown([&] { f.station.ask(7, 2108, "5000"); }) == 15 && thrown([&] { f.station.ask(7, 2167); }) == 21);
    SEE(thrown([&] { f.station.ask_raw(7, 2108); }) == 68 && thrown([&] { f.station.ask_raw(7, 2167, "\""); }) == 13);
    SEE(thrown([&] { f.station.ask(GEOCOM_OWN, 2107, "1"); }) == 74 && thrown([&] { f.station.measure(GEOCOM_OWN, {{2107, "1"}}); }) == 74);
    SEE(f.line.executed.empty() && f.line.now == now);
    auto all = f.station.measure(7, {{2107, "1"}, {2167, "\"a,b\""}, {2107, "1"}});
    SEE(all.size() == 3 && all[1].items.size() == 1 && all[1].items[0] == "7" && all[2].items.size() == 2);
    f.line.warned = 2107;
    all = f.station.measure(7, {{2107, "1"}, {2167, ""}});
    SEE(all.size() == 1 && all[0].reading == geocom::reading::refused && all[0].code == 1284);
    all = f.station.measure(7, {{2107, "1"}, {2167, ""}}, std::nullopt, {1284});
    SEE(all.size() == 2 && all[0].reading == geocom::reading::value && all[0].code == 1284 && all[0].items[1] == "0.5");
    f.line.warned = 9027; // which has no values: nothing can be read, or all
    all = f.station.measure(7, {{9027, "1,1,0,1,0"}, {2107, "1"}}, std::nullopt, {1283, 1284});
    SEE(all.size() == 2 && all[1].items[0] == "1.5");
    f.line.warned = 2108; // whose values are missing
    all = f.station.measure(7, {{2108, "5000,1"}, {2107, "1"}}, std::nullopt, {1284});
    SEE(all.size() == 1 && all[0].reading == geocom::reading::refused);
}

// The first request after each synchronization is a null procedure, again until a reply settles one, and at most six requests wait: those
// that the last line settled count, too.
void damage_is_held_back() {
    using sent = std::vector<std::pair<int, int>>;
    fixture f;
    f.line.sent.clear();
    f.line.is_silent = true;
    SEE(f.ask(1000) == GEOCOM_SILENT);
    f.line.is_silent = false;
    f.line.now += 10000;
    SEE(f.ask(1000) == 0 && f.ask(1000) == 0);
    SEE((f.line.sent == sent{{0, 0}, {0, 1}, {2107, 2}, {2107, 3}}));
    f.line.sent.clear();
    f.line.is_silent = true;
    for (int k = 0; k < 6; ++k) SEE(f.ask(1000) == 0);
    SEE((f.line.sent == sent{{2107, 4}, {2107, 5}, {2107, 6}, {2107, 7}, {2107, 0}, {2107, 1}}));
    SEE(f.ask(1000) == GEOCOM_SILENT);
    f.line.is_silent = false;
    f.line.now += 20000;
    f.line.sent.clear();
    SEE(f.ask(1000) == 0);
    SEE((f.line.sent == sent{{0, 6}, {0, 5}, {0, 4}, {0, 3}, {0, 2}, {0, 1}, {0, 0}, {0, 7}, {0, 0}, {2107, 1}}));

    f.line.is_silent = true;
    for (int k = 0; k < 3; ++k) SEE(f.ask(1000) == 0);
    f.line.is_silent = false;
    SEE(f.ask(1000) == 0); // its reply settles four
    f.line.is_silent = true;
    for (int k = 0; k < 3; ++k) SEE(f.ask(1000) == 0);
    f.line.is_silent = false;
    f.line.sent.clear();
    SEE(f.ask(1000) == 0 && f.line.sent.size() == 10 && f.line.sent[9] == std::make_pair(2107, 1));
}

// A sign-on between two requests, in place of a reply, and in the same line as a reply that it cut off: nothing more is sent before the
// station has synchronized again, and the caller is told.
void starts() {
    using sent = std::vector<std::pair<int, int>>;
    const std::string sign_on = "%N1,0,255,,0%T0,0,0,:\r\n";
    const sent anew{{0, 6}, {0, 5}, {0, 4}, {0, 3}, {0, 2}, {0, 1}, {0, 0}, {0, 7}, {0, 0}, {2107, 1}};
    const auto goes_on_anew = [&](fixture &f) {
        f.line.sent.clear();
        return f.ask(1000) == 0 && f.line.sent == anew;
    };
    SEE(geocom::is_sign_on("%R1P,0,1%N1,") && !geocom::is_sign_on("%N1") && !geocom::is_sign_on(""));
    fixture f;
    f.line.came = sign_on; // before anything was requested, so that the caller's setup comes anyway
    SEE(goes_on_anew(f) && f.station.sign_ons() == 0);

    f.line.sent.clear();
    f.line.came = "%R1P,0,1:0,9.5,9.5\r\n%N2,0\r\n%N1,0\n%N1," + std::string(509, ' ') + "\r\n" + std::string(600, ' ') + sign_on; // no such line
    SEE(f.ask(1000) == 0 && (f.line.sent == sent{{2107, 2}}));
    f.line.came = sign_on + "%N1," + std::string(508, ' ') + "\r\n";
    SEE(f.ask(1000) == RESTARTED && f.line.sent.size() == 1 && f.station.sign_ons() == 2);
    SEE(goes_on_anew(f));

    f.line.front = "", f.line.behind = sign_on;
    const std::uint64_t end = f.line.now + 1000;
    geocom::settlement s = f.station.ask(7, 2107, "1", 1000);
    SEE(s.outcome == geocom::outcome::lost && f.line.now == end && f.station.sign_ons() == 3);
    f.line.front = "\n";
    f.line.came = "%R1P,0,2:0,9.5,9.5\r\n"; // late, and nobody's
    SEE(goes_on_anew(f));

    f.line.front = "%R1P,0,";
    s = f.station.ask(7, 2107, "1", 1000); // which may have cut off the reply
    SEE(s.outcome == geocom::outcome::lost && f.station.sign_ons() == 4);
    f.line.front = "\n";
    SEE(goes_on_anew(f));

    f.line.front = "%R1P,0,", f.line.behind = ",0.5\r\n" + sign_on; // behind the answer to a chain's first command, of whose others none is sent
    f.line.sent.clear();
    const auto all = f.station.measure(7, {{2107, "1"}, {2108, "5000,1"}});
    SEE(all.size() == 1 && all[0].items.size() == 2 && f.line.sent.size() == 1 && f.station.sign_ons() == 5);
    f.line.front = "\n";
    SEE(goes_on_anew(f));
    f.line.came = sign_on;
    SEE(thrown([&] { f.station.measure(7, {{2107, "1"}}); }) == RESTARTED);

    SEE(goes_on_anew(f));
    f.line.came = sign_on; // over a new connection, while it discards what comes
    f.station.reconnected();
    f.line.sent.clear();
    SEE(f.ask(3000) == RESTARTED && f.ask(3000) == 0 && f.line.sent == anew && f.station.sign_ons() == 7);
    f.line.came = sign_on;
    SEE(f.ask(1000) == RESTARTED);
    f.line.sent.clear();
    f.station.synchronize(); // before the setup
    SEE(f.line.sent.size() == 8 && f.ask(1000) == 0 && f.line.sent == anew && f.station.sign_ons() == 8);

    f.line.came = sign_on;
    SEE(f.ask(1000) == RESTARTED);
    f.line.sent.clear();
    f.line.starts_at = 3; // while it synchronizes, which goes on
    SEE(f.ask(1000) == RESTARTED && f.line.sent.size() == 4 && f.station.sign_ons() == 10);
    SEE(f.ask(1000) == 0 && f.line.sent == anew);

    f.line.came = sign_on;
    SEE(f.ask(1000) == RESTARTED);
    f.line.sent.clear();
    f.line.starts_at = 7; // before the eighth answer
    SEE(f.ask(1000) == RESTARTED && f.ask(1000) == 0 && f.line.sent == anew);

    f.line.came = sign_on.substr(0, 9); // half a line ends with its connection
    f.line.is_silent = true;
    SEE(f.ask(1000) == 0);
    f.line.is_silent = false;
    f.station.reconnected();
    f.line.came = sign_on.substr(9);
    SEE(f.ask(3000) == 0 && f.station.sign_ons() == 12);
}

} // namespace

int main() {
    broken_connections();
    deadlines();
    chains();
    damage_is_held_back();
    starts();
    if (not_so != nullptr) {
        std::printf("stations: not so: %s\n", not_so);
        return 1;
    }
    std::printf("stations in C++ and C: their cases hold\n");
    return 0;
}

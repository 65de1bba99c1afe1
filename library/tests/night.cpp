// The night of night.c by chains of geocom::station, which end with a raw request that the instrument doesn't know: night [SEED].
#include "wire.hpp"

namespace {

constexpr unsigned CYCLES = 500, TARGETS = 8;
constexpr link faults = {"a night", 30, 30, 0, 300, 1, 1, 0, 0, 256};

void hear(wire *w, const char *request, std::size_t length) {
    for (const geocom::reply &each : static_cast<geocom::instrument *>(w->instrument)->replies_to({request, length}, w->now))
        wire_reply(w, each.due, each.text.data(), each.text.size());
}

} // namespace

int main(int count, char **words) {
    geocom::instrument instrument("serial 71\n");
    auto w = std::make_unique<wire>();
    std::array<char, 600> kept;
    wire_be(w.get(), &faults, count > 1 ? std::strtoull(words[1], nullptr, 10) : 1, kept.data());
    w->longest = 20000, w->hear = hear, w->instrument = &instrument;
    geocom::station station = station_over(*w, 10000, 2000);
    unsigned long all = 0, values = 0, lost = 0, others = 0, silent = 0, skipped = 0, wrong = 0;
    for (unsigned cycle = 0; cycle < CYCLES; ++cycle) {
        w->now = std::max<std::uint64_t>(w->now, 1000 + cycle * 300000ull);
        for (unsigned target = 1; target <= TARGETS; ++target) {
            const std::string direction = std::to_string(target % 6) + "." + std::to_string(1000 + cycle) + "5";
            const std::vector<geocom::station::command> chain{{9027, direction + ",1.5,0,1,0"}, {2107, "1"}, {5003, ""}, {2167, "5"}};
            const std::uint64_t begun = w->now;
            std::vector<geocom::settlement> done;
            all += chain.size();
            try {
                done = station.measure(target, chain, 35000);
                skipped += chain.size() - done.size();
            } catch (const geocom::silent &) {
                silent += 1;
                skipped += chain.size() - 1;
            }
            if (w->now > begun + 70000 * chain.size()) ++wrong;
            for (std::size_t k = 0; k < done.size(); ++k) {
                const geocom::settlement &s = done[k];
                if (s.target != target || s.procedure != chain[k].first || (k + 1 < done.size() && s.reading != geocom::reading::value)) ++wrong;
                if (s.outcome != geocom::outcome::answered) ++lost;
                else if (s.reading == geocom::reading::value) ++values;
                else ++others;
                if (s.reading != geocom::reading::value) continue;
                if (k == 1 && std::stod(s.items.at(0)) != std::stod(direction)) ++wrong;
                if (k == 2 && s.items.at(0) != "71") ++wrong;
            }
        }
    }
    std::printf("a night in C++: %u cycles, %lu rows: %lu values, %lu other answers, %lu late or lost, %lu not sent, %lu skipped; %lu wrong; %lu connections\n",
                CYCLES, all, values, others, lost, silent, skipped, wrong, w->opened);
    return wrong != 0 || values + others + lost + silent + skipped != all || 10 * values < 6 * all || others == 0 || lost == 0;
}

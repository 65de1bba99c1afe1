// geocom::station and geocom_ask over a line in memory: any type with `open`, `write`, `read` and a clock `now`.
#ifndef LINES_HPP
#define LINES_HPP

#include <cstdlib>
#include <stdexcept>
#include <string>

#include "geocom.hpp"

// The port of a line, whose connections can be made at once.
template <typename Line> geocom_port port_of(Line &line) {
    return {&line,
            [](void *at) { return static_cast<Line *>(at)->open(), 0; },
            [](void *) {},
            [](void *at, std::uint64_t milliseconds) { static_cast<Line *>(at)->now += milliseconds; },
            [](void *at, const std::uint8_t *bytes, std::size_t length) {
                static_cast<Line *>(at)->write({reinterpret_cast<const char *>(bytes), length});
                return 0;
            },
            [](void *at, std::uint8_t *bytes, std::size_t room, std::uint64_t milliseconds) {
                try {
                    const std::string came = static_cast<Line *>(at)->read(milliseconds);
                    if (came.size() > room) std::abort();
                    std::copy(came.begin(), came.end(), bytes);
                    return static_cast<int>(came.size());
                } catch (const std::runtime_error &) {
                    return -1;
                }
            },
            [](void *at) { return static_cast<Line *>(at)->now; }};
}

// A station over it, which is given its connections, or makes them itself.
template <typename Line> geocom::station station_of(Line &line, bool opens = false, std::uint64_t settle = 2000) {
    const auto read = [&line](std::uint64_t ms) { return line.read(ms); };
    const auto write = [&line](std::string_view bytes) { line.write(bytes); };
    const auto now = [&line] { return line.now; };
    if (!opens) return geocom::station(read, write, 10000, now, settle);
    return geocom::station(read, write, [&line] { line.open(); }, [] {}, 10000, settle, now, [&line](std::uint64_t ms) { line.now += ms; });
}

#endif

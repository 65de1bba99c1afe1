// A geocom::station over the line in memory of wire.h.
#ifndef WIRE_HPP
#define WIRE_HPP

#include "geocom.hpp"

#include "wire.h"

inline void made(bool is_so) {
    if (!is_so) throw std::runtime_error("the connection failed");
}

inline std::string read_of(wire &w, std::uint64_t milliseconds) {
    std::array<std::uint8_t, 256> bytes;
    const int came = wire_read(&w, bytes.data(), bytes.size(), milliseconds);
    made(came >= 0);
    return std::string(bytes.begin(), bytes.begin() + came);
}

// `look` is called before each read.
inline geocom::station station_over(wire &w, std::uint64_t timeout, std::uint64_t settle, std::function<void(std::uint64_t)> look = [](std::uint64_t) {}) {
    return geocom::station([&w, look](std::uint64_t milliseconds) { return look(milliseconds), read_of(w, milliseconds); },
                           [&w](std::string_view bytes) { made(wire_write(&w, geocom::bytes_of(bytes), bytes.size()) == 0); },
                           [&w] { made(wire_open(&w) == 0); }, [&w] { wire_close(&w); }, timeout, settle, [&w] { return w.now; },
                           [&w](std::uint64_t milliseconds) { wire_wait(&w, milliseconds); });
}

#endif

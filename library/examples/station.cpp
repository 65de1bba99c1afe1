// Measures each target once over a serial port that stty has set up (raw), angles in radians: station DEVICE NUMBER:HZ,V..
#include <cerrno>
#include <cstdio>
#include <stdexcept>
#include <string>
#include <fcntl.h>
#include <poll.h>
#include <unistd.h>
#include "geocom.hpp"

int main(int count, char **words) {
    if (count < 3) return 1;
    int fd = -1;
    geocom::station station(
        [&fd](std::uint64_t milliseconds) {
            pollfd ready{fd, POLLIN, 0};
            const int told = poll(&ready, 1, static_cast<int>(milliseconds));
            if (told == 0 || (told < 0 && errno == EINTR)) return std::string(); // a signal: nothing came yet
            char bytes[256];
            const ssize_t came = read(fd, bytes, sizeof bytes);
            if (came <= 0) throw std::runtime_error("the connection ended");
            return std::string(bytes, static_cast<std::size_t>(came));
        },
        [&fd](std::string_view bytes) {
            if (write(fd, bytes.data(), bytes.size()) != static_cast<ssize_t>(bytes.size())) throw std::runtime_error("not written");
        },
        [&fd, words] {
            fd = open(words[1], O_RDWR | O_NOCTTY);
            if (fd < 0) throw std::runtime_error("not opened");
        },
        [&fd] { close(fd); });
    for (int k = 2; k < count; ++k) {
        const std::string word = words[k], angles = word.substr(word.find(':') + 1);
        const auto target = static_cast<std::uint32_t>(std::stoul(word));
        for (const auto &s : station.measure(target, {{9027, angles + ",0,1,0"}, {2008, "1,1"}, {2108, "5000,1"}}, 35000)) {
            std::printf("%u,%u,%d,%u", s.target, s.procedure, static_cast<int>(s.outcome), s.code);
            for (const auto &item : s.items) std::printf(",%s", item.c_str());
            std::puts("");
        }
    }
}

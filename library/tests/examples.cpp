// A few of the worked examples through the C++ wrapper.
#include <cstdio>
#include <string>
#include <utility>
#include <vector>

#include "geocom.hpp"

#define SEE(E) if (!(E)) { std::printf("C++: not so: %s\n", #E); return 1; }

int main() {
    try {
        geocom::client none(8);
        return 1;
    } catch (const geocom::fault &f) {
        SEE(f.number == 61)
    }
    geocom::client client(2);
    SEE(!client.is_synchronized() && client.synchronize() == "%R1Q,0,6:\r\n" && client.synchronize("%R1P,0,0:0,654321\r\n").empty())
    try {
        client.send(1, 10, 5003);
        return 1;
    } catch (const geocom::fault &f) {
        SEE(f.number == 67)
    }
    for (const int id : {6, 5, 4, 3, 2, 1, 0, 7})
        SEE(client.synchronize("%R1P,0," + std::to_string(id) + ":0\r\n").empty() == (id == 7))
    SEE(client.is_synchronized())
    SEE(client.send(1, 10, 5003) == "%R1Q,5003,0:\r\n")
    SEE(client.next_deadline() == 10)
    SEE(client.expire(10).size() == 1 && !client.next_deadline())
    SEE(client.send(2, 20, 2108, "5000,1") == "%R1Q,2108,1:5000,1\r\n")
    try {
        client.send(3, 20, 0);
        return 1;
    } catch (const geocom::fault &f) {
        SEE(f.number == 31)
    }
    SEE(client.outstanding() == 2)
    const std::string came = "noise\n%R1P,0,0:0,123456\r\n%R1P,0,1:0,2.25,1.625,110.0625\r\n%R1P,0,9:0\r\n";
    std::vector<geocom::settlement> all;
    for (char byte : came)
        for (auto &s : client.feed(std::string(1, byte))) all.push_back(s);
    SEE(all.size() == 2 && all[0].outcome == geocom::outcome::late && all[0].target == 1)
    SEE(all[1].reading == geocom::reading::value && all[1].items.size() == 3 && all[1].items[2] == "110.0625")
    SEE(all[1].line == "%R1P,0,1:0,2.25,1.625,110.0625")
    SEE(client.count(GEOCOM_CLEARED) == 1 && client.count(GEOCOM_UNREAD) == 1)
    SEE(client.send_raw(3, 30, 2167, " 2, \"a,b\"") == "%R1Q,2167,2: 2, \"a,b\"\r\n")
    for (const auto &refused : {std::pair<std::uint16_t, std::uint32_t>(2108, 68), std::pair<std::uint16_t, std::uint32_t>(2167, 13)}) {
        try {
            client.send_raw(3, 30, refused.first, "\"");
            return 1;
        } catch (const geocom::fault &f) {
            SEE(f.number == refused.second)
        }
    }
    const auto raw = client.feed("%R1P,0,2:0, 0.0012 ,\"a,b\",\r\n");
    SEE(raw.size() == 1 && raw[0].procedure == 2167 && raw[0].reading == geocom::reading::value)
    SEE((raw[0].items == std::vector<std::string>{"0.0012", "\"a,b\"", ""}))
    client.send(4, 30, 5003);
    const auto lost = client.restart();
    SEE(lost.size() == 1 && lost[0].target == 4 && lost[0].outcome == geocom::outcome::lost)
    SEE(!client.is_synchronized() && client.synchronize() == "%R1Q,0,6:\r\n")
    std::printf("C++: the examples hold\n");
    return 0;
}

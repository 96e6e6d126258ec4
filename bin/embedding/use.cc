// use PLAN SCRIPT: as use.c, in C++, with a map that closes itself.
#include "cadedit.h"
#include <fstream>
#include <iostream>
#include <iterator>
#include <stdexcept>
#include <string>
#include <vector>

namespace {

std::string read_file(const char *path) {
    std::ifstream file(path, std::ios::binary);
    if (!file)
        throw std::runtime_error(path);
    return {std::istreambuf_iterator<char>(file), std::istreambuf_iterator<char>()};
}

const std::uint8_t *bytes(const std::string &text) { return reinterpret_cast<const std::uint8_t *>(text.data()); }

class Map {
public:
    explicit Map(const std::string &plan) {
        std::uint64_t length = 0;
        auto status = cadedit_open(&map, bytes(plan), plan.size(), 100, 12345, room.data(), room.size(), &length);
        if (status != CADEDIT_DONE)
            throw std::runtime_error("opening: " + std::to_string(status));
    }
    Map(const Map &) = delete;
    Map &operator=(const Map &) = delete;
    ~Map() { cadedit_close(&map); }

    std::string submit(const std::string &record) {
        std::uint64_t length = 0;
        auto status = cadedit_submit(&map, bytes(record), record.size(), room.data(), room.size(), &length);
        if (status == CADEDIT_DONE && length > room.size()) {
            room.resize(length);
            status = cadedit_answer(&map, 0, room.data(), room.size(), &length);
        }
        if (status != CADEDIT_DONE)
            throw std::runtime_error(record + ": " + std::to_string(status));
        return std::string(room.begin(), room.begin() + static_cast<std::ptrdiff_t>(length));
    }

private:
    cadedit_map map = CADEDIT_CLOSED_MAP;
    std::vector<std::uint8_t> room = std::vector<std::uint8_t>(16);
};

} // namespace

int main(int count, char **words) {
    if (count != 3)
        return 1;
    Map map(read_file(words[1]));
    std::ifstream script(words[2], std::ios::binary);
    for (std::string record; std::getline(script, record);)
        std::cout << map.submit(record);
    return 0;
}

/*
 * A program in C++17 over include/gen1.h: plays the battle of two Tauros that README.md shows, and prints its lines.
 *
 *     c++ -std=c++17 tests/c/lines.cpp $(pkg-config --cflags --libs gen1) -o lines
 */
#include "gen1.h"
#include "gen1.h" // Twice: a longer program includes it more than once.

#include <array>
#include <iostream>
#include <stdexcept>
#include <string>
#include <string_view>
#include <type_traits>
#include <utility>

static_assert(sizeof(gen1_battle) == 384 && std::is_trivially_copyable_v<gen1_battle>);
static_assert(sizeof(gen1_room) == GEN1_ROOM_SIZE && sizeof(gen1_spectator) == GEN1_SPECTATOR_SIZE);

namespace {

class Battle {
  public:
    Battle(const gen1_team &one, const gen1_team &two, const std::array<std::uint8_t, 10> &seed) {
        if (const auto fault = gen1_new(&battle, &one, &two, seed.data(), 0, GEN1_LIMIT); fault != 0)
            throw std::invalid_argument("team " + std::to_string(GEN1_SIDE_OF(fault)));
    }

    /* The lines of an update. */
    std::string update(std::uint8_t one, std::uint8_t two) {
        std::array<std::uint8_t, GEN1_LOG_ROOM> log;
        std::size_t length = 0;
        if (const auto refusal = gen1_update(&battle, one, two, log.data(), log.size(), &length); refusal != 0)
            throw std::runtime_error("refused " + std::to_string(refusal));
        std::string lines;
        std::array<char, GEN1_LINE_ROOM> line;
        std::size_t at = 0, count = 0;
        while (gen1_next_line(log.data(), length, &at, line.data(), line.size(), &count) == 0)
            lines += std::string_view(line.data(), count);
        return lines;
    }

  private:
    gen1_battle battle;
};

gen1_member tauros() {
    gen1_member it = {};
    it.species = 128;
    it.level = 100;
    for (auto &dv : it.dvs)
        dv = 15;
    for (auto &points : it.exp)
        points = 65535;
    it.moves[0] = 70; // Strength
    it.pp_ups[0] = 3;
    return it;
}

} // namespace

int main() {
    gen1_team team = {};
    team.members[0] = tauros();
    team.count = 1;
    Battle battle(team, team, {1, 36, 255, 7, 31, 100, 179, 254, 127, 10});
    using Pair = std::pair<std::uint8_t, std::uint8_t>;
    const std::uint8_t move = GEN1_CHOICE_MOVE(1);
    for (const auto &[one, two] : {Pair{GEN1_CHOICE_PASS, GEN1_CHOICE_PASS}, Pair{move, move}, Pair{move, move}})
        std::cout << battle.update(one, two);
}

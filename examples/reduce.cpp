// Reduces the queue controller of examples/queue.txt by delayed simulation. From the repository's root:
//
//     tools/library.sh
//     c++ -std=c++11 -O2 -Iinclude examples/reduce.cpp target/staticlib/libcapi.a -o target/reduce++
//
// Then target/reduce++ prints examples/reduce.out.
#include <cstdint>
#include <exception>
#include <iostream>
#include <stdexcept>
#include <string>
#include <vector>

#include "lucorphane.h"

namespace {

// A refused call, with the number and the place of what was refused.
class Refused : public std::runtime_error {
  public:
    Refused(const std::string &call, const lucorphane_answer &answer)
        : std::runtime_error(call + ": refused with number " + std::to_string(answer.number) + ", place " +
                             std::to_string(answer.place)),
          number(answer.number), place(answer.place) {}

    const std::uint64_t number, place;
};

// Gives an accepted answer back, and throws a refused one.
lucorphane_answer accepted(const std::string &call, const lucorphane_answer &answer) {
    if (answer.number != 0)
        throw Refused(call, answer);
    return answer;
}

struct Automaton {
    std::uint64_t n, k, start;
    std::vector<std::uint8_t> accept, moves;
};

// The table of an automaton and a mode, and the calls on it.
class Table {
  public:
    Table(const Automaton &a, std::uint64_t mode)
        : a(a), mode(mode), entries(accepted("positions", lucorphane_positions(a.n, a.k, mode)).value[0]) {}

    std::size_t size() const { return entries.size(); }

    std::uint64_t settle() {
        return accepted("settle",
                        lucorphane_settle(a.n, a.k, a.start, a.accept.data(), a.accept.size(), a.moves.data(),
                                          a.moves.size(), mode, entries.data(), entries.size()))
            .value[0];
    }

    std::vector<std::uint8_t> relation() const {
        std::vector<std::uint8_t> out(a.n * a.n);
        accepted("relation", lucorphane_relation(a.n, a.k, a.start, a.accept.data(), a.accept.size(), a.moves.data(),
                                                 a.moves.size(), mode, entries.data(), entries.size(), out.data(),
                                                 out.size()));
        return out;
    }

    // the class of each state goes to `classes`
    Automaton quotient(std::vector<std::uint8_t> &classes) {
        Automaton b = {0, a.k, 0, std::vector<std::uint8_t>(a.n), std::vector<std::uint8_t>(a.moves.size())};
        classes.resize(a.n);
        const lucorphane_answer counts =
            accepted("quotient", lucorphane_quotient(a.n, a.k, a.start, a.accept.data(), a.accept.size(), a.moves.data(),
                                                     a.moves.size(), mode, entries.data(), entries.size(),
                                                     classes.data(), classes.size(), b.accept.data(), b.accept.size(),
                                                     b.moves.data(), b.moves.size()));
        b.n = counts.value[0];
        b.start = counts.value[2];
        b.accept.resize(counts.value[0]); // what lies behind is unused, and 255
        b.moves.resize(counts.value[1] * 3);
        return b;
    }

  private:
    const Automaton a;
    const std::uint64_t mode;
    std::vector<std::uint32_t> entries;
};

void reduce(const Automaton &a, std::uint64_t mode) {
    Table table(a, mode);
    std::cout << "positions " << table.size() << "\n";
    std::cout << "raised " << table.settle() << "\n";

    const std::vector<std::uint8_t> related = table.relation();
    std::size_t ones = 0;
    for (std::uint8_t byte : related)
        ones += byte;
    std::cout << "related " << ones << "\n";
    for (std::size_t i = 0; i < related.size(); i++)
        if (related[i] == 1)
            std::cout << "pair " << i / a.n << " " << i % a.n << "\n";

    std::vector<std::uint8_t> classes;
    const Automaton b = table.quotient(classes);
    std::cout << "classes " << b.n << " moves " << b.moves.size() / 3 << " start " << b.start << "\n";
    for (std::size_t q = 0; q < classes.size(); q++)
        std::cout << "class " << q << " " << int(classes[q]) << "\n";
    for (std::size_t c = 0; c < b.accept.size(); c++)
        if (b.accept[c] == 1)
            std::cout << "accept " << c << "\n";
    for (std::size_t i = 0; i < b.moves.size(); i += 3)
        std::cout << "move " << int(b.moves[i]) << " " << int(b.moves[i + 1]) << " " << int(b.moves[i + 2]) << "\n";
}

} // namespace

int main() {
    // letter 0 is a write, 1 an answer, 2 anything else
    const Automaton queue = {4,
                             3,
                             0,
                             {1, 0, 0, 1},
                             {
                                 0, 0, 3, 0, 1, 0, 0, 2, 0, // 0: nothing waits
                                 1, 0, 1, 1, 1, 2, 1, 2, 1, // 1: a write waits
                                 2, 0, 3, 2, 1, 0, 2, 2, 0, // 2: a write was just answered
                                 3, 0, 1, 3, 1, 2, 3, 2, 1, // 3: a write has just come
                             }};
    const std::uint64_t delayed = 2;
    try {
        reduce(queue, delayed);
    } catch (const std::exception &e) {
        std::cerr << e.what() << "\n";
        return 1;
    }
    return 0;
}

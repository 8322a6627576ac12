// The command stream with a maximum matching by LEMON after each command that changes a link.
//
// In the stream the partner that departs with a load is written after it, 65,535 for none.
#pragma once

#include <lemon/list_graph.h>
#include <lemon/matching.h>

#include <array>
#include <cstdint>
#include <cstdio>
#include <iostream>
#include <iterator>
#include <optional>
#include <string_view>
#include <utility>
#include <vector>

namespace maximum {

using Graph = lemon::ListGraph;
using Load = std::uint16_t;

constexpr Load kLoads = 256;
constexpr int kMostLinks = 2048;

// The links among the loads, as a graph of the library.
class Links {
public:
    Links() {
        for (auto& node : nodes_) {
            node = graph_.addNode();
        }
        for (auto& row : links_) {
            row.fill(lemon::INVALID);
        }
    }

    const Graph& graph() const { return graph_; }

    Graph::Node node(Load a) const { return nodes_[a]; }

    Load load(Graph::Node node) const { return static_cast<Load>(graph_.id(node)); }

    // Whether the link was added.
    bool add(Load a, Load b) {
        if (!areTwo(a, b) || links_[a][b] != lemon::INVALID || count_ == kMostLinks) {
            return false;
        }
        links_[a][b] = links_[b][a] = graph_.addEdge(nodes_[a], nodes_[b]);
        ++count_;
        return true;
    }

    // Whether the link was removed.
    bool remove(Load a, Load b) {
        if (!areTwo(a, b) || links_[a][b] == lemon::INVALID) {
            return false;
        }
        graph_.erase(links_[a][b]);
        links_[a][b] = links_[b][a] = lemon::INVALID;
        --count_;
        return true;
    }

    // Whether a link of the load was removed.
    bool removeAll(Load a) {
        bool removed = false;
        for (Load b = 0; b < kLoads; ++b) {
            removed |= remove(a, b);
        }
        return removed;
    }

private:
    static bool areTwo(Load a, Load b) { return a < kLoads && b < kLoads && a != b; }

    Graph graph_;
    std::array<Graph::Node, kLoads> nodes_;
    std::array<std::array<Graph::Edge, kLoads>, kLoads> links_;
    int count_ = 0;
};

enum Kind : std::uint8_t { kLink = 1, kUnlink, kWithdraw, kDepart, kPartner };

struct Command {
    Kind kind;
    Load a;
    Load b;
};

class Reader {
public:
    explicit Reader(std::vector<std::uint8_t> stream) : stream_(std::move(stream)) {}

    std::optional<Command> next() {
        if (place_ == stream_.size()) {
            return std::nullopt;
        }
        const auto kind = static_cast<Kind>(stream_[place_++]);
        const Load a = load();
        const bool isOfOne = kind == kWithdraw || kind == kPartner;
        return Command{kind, a, isOfOne ? Load{0} : load()};
    }

private:
    Load load() {
        const Load high = stream_.at(place_++);
        const Load low = stream_.at(place_++);
        return static_cast<Load>(high << 8 | low);
    }

    std::vector<std::uint8_t> stream_;
    std::size_t place_ = 0;
};

// Carries out a command on the links, and answers whether it changed any.
inline bool play(Links& links, const Command& command) {
    switch (command.kind) {
        case kLink: return links.add(command.a, command.b);
        case kUnlink: return links.remove(command.a, command.b);
        case kWithdraw: return links.removeAll(command.a);
        case kDepart: return command.b < kLoads && (links.removeAll(command.a) | links.removeAll(command.b));
        case kPartner: return false;
    }
    return false;
}

struct Matching {
    int pairs = 0;
    // each load's partner, kLoads for none
    std::array<Load, kLoads> partners;

    Matching() { partners.fill(kLoads); }
};

// The largest matching that a search came to.
inline Matching found(const lemon::MaxMatching<Graph>& search, const Links& links) {
    Matching matching;
    matching.pairs = search.matchingSize();
    for (Load a = 0; a < kLoads; ++a) {
        const auto mate = search.mate(links.node(a));
        if (mate != lemon::INVALID) {
            matching.partners[a] = links.load(mate);
        }
    }
    return matching;
}

inline int countChanged(const Matching& before, const Matching& after) {
    int changed = 0;
    for (Load a = 0; a < kLoads; ++a) {
        changed += before.partners[a] != after.partners[a];
    }
    return changed;
}

// The program PROGRAM [--trace] < stream. A matching is worked out from the links and from the matching before it. With
// --trace a line is written for each command: how many pairs there then are, and how many loads it gave another partner or
// none.
template <typename WorkOut>
int run(int argc, char** argv, WorkOut workOut) {
    const bool tracing = argc == 2 && std::string_view(argv[1]) == "--trace";
    Reader reader({std::istreambuf_iterator<char>(std::cin), {}});
    Links links;
    Matching matching;
    while (const auto command = reader.next()) {
        int changed = 0;
        if (play(links, *command)) {
            const Matching next = workOut(links, matching);
            changed = tracing ? countChanged(matching, next) : 0;
            matching = next;
        }
        if (tracing) {
            std::printf("%d %d\n", matching.pairs, changed);
        }
    }
    if (!tracing) {
        std::printf("%d\n", matching.pairs);
    }
    return 0;
}

}  // namespace maximum

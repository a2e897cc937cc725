// Which moves of a strategy look cheap while few men stand: a table of openings says which moves hold, and some games
// from the positions behind them how much there is to show.
#pragma once

#include <algorithm>
#include <functional>
#include <unordered_map>
#include <vector>

#include "moves.h"
#include "search.h"

// The positions two moves later, and those between, by moves that hold. A position of the prover's costs what the best
// move does, and one of the other side's what all do. The moves that look best now are the outline of a strategy. Its last
// positions are weighed by a search with few nodes, or with more where they were too few: what takes the search long is
// large. Then the outline is made anew, until all of it is weighed or the nodes are spent.
template <int ROWS>
class Outline {
  public:
    using Ends = std::function<bool(Position)>;
    using Weighs = std::function<double(Position)>;

    // The prover shows the claim that the search asks about. Where there are lemmas by images, a position and its image
    // are one. What follows a position that `ends` needn't be shown; of another `weighs` says how large what follows it
    // is, by the search, whose end it heeds.
    Outline(const Board<ROWS>& board, Search<ROWS>& search, int prover, bool folds, Ends ends, Weighs weighs)
        : board_(board), search_(search), prover_(prover), folds_(folds), ends_(ends), weighs_(weighs) {}

    // The prover's moves at a position where the claim holds and behind it. None where no table has the values that far
    // behind it, or where so many nodes are too few.
    std::vector<Moved> moves(Position root, uint64_t nodes) {
        last_ = count_of(root.men) + MOVES;
        if (last_ > search_.opening_men()) return {};
        place_of(root);
        end_ = search_.nodes() + nodes;
        do add_up();
        while (looks());
        if (search_.nodes() >= end_) return {};
        std::vector<Moved> moves;
        for (const Entry& entry : entries_) {
            if (entry.proves && !entry.next.empty()) moves.push_back({board_.key(entry.at), entry.next[0].column});
        }
        return moves;
    }

  private:
    struct Next {
        size_t place;
        unsigned column;
    };
    struct Entry {
        Position at;
        bool proves;
        bool is_weighed = true;  // or it needn't be
        uint64_t given = 0;      // nodes to weigh it, which were too few
        double cost = 1;
        std::vector<Next> next = {};  // behind the moves: of the prover's the best first
    };

    static constexpr int MOVES = 2;
    static constexpr double GUESS = 500;         // of what a position costs that wasn't weighed
    static constexpr double DEAR = 0.2;          // and of what it costs for each node that was too few
    static constexpr uint64_t FIRST = 50'000;    // nodes to weigh a position
    static constexpr uint64_t MORE = 4;          // times as many the next time
    static constexpr uint64_t MOST = 4'000'000;  // nodes for one

    const Board<ROWS>& board_;
    Search<ROWS>& search_;
    int prover_;
    bool folds_;
    Ends ends_;
    Weighs weighs_;
    int last_ = 0;      // men of the positions that are weighed
    uint64_t end_ = 0;  // of the search
    std::vector<Entry> entries_;  // the root first
    std::unordered_map<Word, size_t> places_;
    std::vector<size_t> by_men_[64];

    Position standing(Position at) const {
        if (!folds_) return at;
        return board_.position(std::min(board_.key(at), board_.mirrored(board_.key(at))));
    }

    // The place of a position's entry, which is made with all that follow it.
    size_t place_of(Position position) {
        Position at = standing(position);
        auto [known, is_new] = places_.emplace(board_.key(at), entries_.size());
        size_t place = known->second;
        if (!is_new) return place;
        int men = count_of(at.men);
        bool proves = (men & 1) == prover_;
        entries_.push_back({at, proves});
        by_men_[men].push_back(place);
        if (board_.is_ended(at) || (proves && wins(at)) || ends_(at)) return place;
        if (men < last_) {
            std::vector<Next> next = all_next(at, proves);
            entries_[place].next.swap(next);
        } else {
            entries_[place].is_weighed = false;
            entries_[place].cost = GUESS;
        }
        return place;
    }

    bool wins(Position at) const { return board_.playable(at.men) & board_.wins(at.own, at.men); }

    // What follows a position: by the prover's moves that hold, or by all of the other side's.
    std::vector<Next> all_next(Position at, bool proves) {
        std::vector<Next> all;
        for (Word rest = proves ? board_.safe_moves(at) : board_.playable(at.men); rest; rest &= rest - 1) {
            Position next = board_.after(at, rest & -rest);
            if (proves && search_.reaches(next, ~uint64_t(0))) continue;
            all.push_back({place_of(next), unsigned(__builtin_ctzll(rest)) / Board<ROWS>::HEIGHT});
        }
        return all;
    }

    // What each position costs, from the last ones to the root.
    void add_up() {
        for (int men = last_; men-- > 0;) {
            for (size_t place : by_men_[men]) add_up(entries_[place]);
        }
    }

    void add_up(Entry& entry) {
        if (entry.next.empty()) return;
        if (entry.proves) {
            auto is_less = [&](const Next& one, const Next& other) { return cost_of(one) < cost_of(other); };
            std::iter_swap(entry.next.begin(), std::min_element(entry.next.begin(), entry.next.end(), is_less));
            entry.cost = 1 + cost_of(entry.next[0]);
            return;
        }
        entry.cost = 1;
        for (const Next& next : entry.next) entry.cost += cost_of(next);
    }

    double cost_of(const Next& next) const { return entries_[next.place].cost; }

    // Weighs those positions of the outline that weren't, and were given the fewest nodes so far. False where there are
    // none, or the nodes are spent.
    bool looks() {
        std::vector<size_t> left;
        uint64_t least = MOST;
        for (size_t place : outlined()) {
            const Entry& entry = entries_[place];
            if (entry.is_weighed || entry.given > least) continue;
            if (entry.given < least) left.clear();
            least = entry.given;
            left.push_back(place);
        }
        for (size_t place : left) {
            if (search_.nodes() >= end_) return false;
            look(entries_[place], std::min(MOST, least ? least * MORE : FIRST));
        }
        return !left.empty() && least < MOST;
    }

    void look(Entry& entry, uint64_t nodes) {
        search_.end = search_.nodes() + nodes;
        double weight = weighs_(entry.at);
        entry.is_weighed = search_.nodes() < search_.end;
        search_.end = ~uint64_t(0);
        entry.given = nodes;
        entry.cost = entry.is_weighed ? weight : DEAR * double(nodes);
    }

    // The places of the outline's positions.
    std::vector<size_t> outlined() const {
        std::vector<size_t> places = {0};
        std::vector<bool> is_in(entries_.size());
        for (size_t n = 0; n < places.size(); ++n) {
            const Entry& entry = entries_[places[n]];
            size_t count = entry.proves ? std::min(entry.next.size(), size_t(1)) : entry.next.size();
            for (size_t k = 0; k < count; ++k) {
                size_t place = entry.next[k].place;
                if (!is_in[place]) places.push_back(place);
                is_in[place] = true;
            }
        }
        return places;
    }
};

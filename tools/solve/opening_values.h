// The values of all positions with few men: a table of openings has those with so many, and from fewer all games are
// followed to these.
#pragma once

#include <string>
#include <unordered_map>
#include <vector>

#include "opening_table.h"
#include "score.h"

template <int ROWS>
class OpeningValues {
  public:
    // What the table hasn't is searched.
    OpeningValues(const Board<ROWS>& board, Scorer<ROWS>& scorer) : board_(board), scorer_(scorer), table_(board) {}

    // Reads a table from files. How many positions it has.
    size_t read(const std::vector<std::string>& names) {
        table_.read(names);
        known_.clear();
        return table_.size();
    }

    // How many men the positions of the table have; -1 where there is none.
    int men() const { return table_.men(); }

    bool has(Position at) const { return count_of(at.men) <= men(); }

    // The value of a position without a line, with no more men than those of the table, for the side to move: 1, 0 or
    // -1. Moves that need no search go first.
    int value(Position at) {
        if (int value = seen(at); value != UNKNOWN) return value;
        if (count_of(at.men) == men()) return scorer_.value(at);
        Word key = table_.least_key(at);
        if (auto known = known_.find(key); known != known_.end()) return known->second;
        int best = -1;
        for (bool searches : {false, true}) {
            for (Word rest = board_.safe_moves(at); rest && best < 1; rest &= rest - 1) {
                Position next = board_.after(at, rest & -rest);
                bool needs_search = count_of(next.men) == men() && seen(next) == UNKNOWN;
                if (needs_search == searches) best = std::max(best, -value(next));
            }
        }
        return known_[key] = best;
    }

  private:
    static constexpr int UNKNOWN = OpeningTable<ROWS>::UNKNOWN;

    const Board<ROWS>& board_;
    Scorer<ROWS>& scorer_;
    OpeningTable<ROWS> table_;
    std::unordered_map<Word, int> known_;  // what was found of positions with fewer men than those of the table

    // The value as far as it is seen at once, or stands in the table; else UNKNOWN.
    int seen(Position at) const {
        if (board_.playable(at.men) & board_.wins(at.own, at.men)) return 1;
        if (!board_.safe_moves(at)) return at.men == board_.full ? 0 : -1;
        return count_of(at.men) == men() ? table_.find(at) : UNKNOWN;
    }
};

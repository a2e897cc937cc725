// The search that a strategy asks: does one side win?
#pragma once

#include "opening_values.h"
#include "say.h"

// Answers the question whether one side, the asker, wins: 0 is White, 1 is Black. It is a search for scores, so what the
// tables have serves both questions. What the openings have isn't searched.
template <int ROWS>
class Search {
  public:
    Search(const Board<ROWS>& board, BoundTables& tables, int asker, Position root,
           OpeningValues<ROWS>* openings = nullptr)
        : tables_(tables), openings_(openings), scorer_(board, tables), asker_(asker),
          mirrors_(board.mirrored(board.key(root)) == board.key(root)) {
        scorer_.look = [this] { say_now(scorer_.nodes); };
    }

    Search(const Search&) = delete;
    Search& operator=(const Search&) = delete;

    int asker() const { return asker_; }

    // The root is its own mirror image.
    bool mirrors() const { return mirrors_; }

    uint64_t nodes() const { return scorer_.nodes; }
    uint64_t bytes() const { return tables_.bytes(); }

    // How many men the positions have whose values a table has; -1 where there is none.
    int opening_men() const { return openings_ ? openings_->men() : -1; }

    // Whether the side to move reaches its end: a win for the asker, and for the other side that the asker doesn't win.
    // Where `most` nodes were not enough, `is_spent` says so and the answer is nothing.
    bool reaches(Position at, uint64_t most) {
        is_spent = false;
        bool is_known = openings_ && openings_->has(at);
        return is_known ? openings_->value(at) > alpha_at(at) : reaches_searched(at, most);
    }

    // As `reaches`, by the search alone.
    bool reaches_searched(Position at, uint64_t most) {
        is_spent = false;
        int alpha = alpha_at(at);
        most = std::min(most, end > nodes() ? end - nodes() : 0);
        try {
            return scorer_.bound(at, alpha, most) > alpha;
        } catch (const Spent&) {
            is_spent = true;
            return false;
        }
    }

    // Whether the side that isn't to move wins by its move behind so many of the other's, or sooner, as far as so many
    // nodes show it.
    bool loses_within(Position at, int moves, uint64_t most) {
        int alpha = -scorer_.soonest(count_of(at.men) + 2 * moves - 1);
        try {
            return scorer_.bound(at, alpha, most) <= alpha;
        } catch (const Spent&) {
            return false;
        }
    }

    // Notes what is known of a position: whether the side to move reaches its end.
    void know(Position at, bool answer) {
        int most = scorer_.soonest(0);
        if (answer) scorer_.know(at, {alpha_at(at) + 1, most});
        else scorer_.know(at, {-most, alpha_at(at)});
    }

    bool is_spent = false;
    uint64_t end = ~uint64_t(0);  // no search goes on behind so many nodes

  private:
    BoundTables& tables_;
    OpeningValues<ROWS>* openings_;  // may be none
    Scorer<ROWS> scorer_;
    int asker_;
    bool mirrors_;

    bool asks(Position at) const { return (count_of(at.men) & 1) == asker_; }

    // A score above this is the end of the side to move.
    int alpha_at(Position at) const { return asks(at) ? 0 : -1; }
};

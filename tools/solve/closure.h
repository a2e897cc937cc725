// The strategy that answers in the column of the other side's last move, as far as nothing forces another: it is tried
// without a search, and the positions that it meets are counted.
#pragma once

#include <cstddef>
#include <vector>

#include "board.h"

// A set of numbers of positions that is emptied at once.
class Seen {
  public:
    Seen() : slots_(1 << 12), marks_(1 << 12) {}

    void clear() {
        ++mark_;
        used_ = 0;
    }

    // False where it is there already.
    bool insert(Word key) {
        if (used_ * 2 > slots_.size()) grow();
        size_t at = place(key);
        for (; marks_[at] == mark_; at = (at + 1) & (slots_.size() - 1)) {
            if (slots_[at] == key) return false;
        }
        marks_[at] = mark_;
        slots_[at] = key;
        ++used_;
        return true;
    }

  private:
    std::vector<Word> slots_;
    std::vector<uint32_t> marks_;
    uint32_t mark_ = 1;
    size_t used_ = 0;

    size_t place(Word key) const { return (key * 0x9e3779b97f4a7c15u) >> (64 - __builtin_ctzll(slots_.size())); }

    void grow() {
        std::vector<Word> slots(slots_.size() * 2);
        std::vector<uint32_t> marks(slots.size());
        slots.swap(slots_);
        marks.swap(marks_);
        uint32_t mark = mark_;
        mark_ = 1;
        used_ = 0;
        for (size_t n = 0; n < slots.size(); ++n) {
            if (marks[n] == mark) insert(slots[n]);
        }
    }
};

template <int ROWS>
class Closure {
  public:
    // The prover wants to win, or else not to lose.
    Closure(const Board<ROWS>& board, bool wins) : board_(board), wins_(wins) {}

    // Whether it reaches the prover's end from a position with the other side to move, and meets at most so many.
    bool reaches(Position at, size_t most) {
        seen_.clear();
        size = 0;
        most_ = most;
        return answers_all(at);
    }

    size_t size = 0;  // how many positions were met

  private:
    const Board<ROWS>& board_;
    bool wins_;
    size_t most_ = 0;
    Seen seen_;

    bool answers_all(Position at) {
        if (!seen_.insert(board_.key(at))) return true;
        if (++size > most_) return false;
        if (board_.is_won(at)) return true;
        if (at.men == board_.full) return !wins_;
        Word moves = board_.playable(at.men);
        if (moves & board_.wins(at.own, at.men)) return false;
        Word forced = moves & board_.wins(at.own ^ at.men, at.men);
        // Other moves than this one lose at once.
        Word quiet = !forced ? moves : forced & (forced - 1) ? 0 : forced;
        for (Word rest = quiet; rest; rest &= rest - 1) {
            if (!answers(board_.after(at, rest & -rest), rest & -rest)) return false;
        }
        size += 2 * size_t(count_of(moves & ~quiet));
        return true;
    }

    bool answers(Position at, Word last) {
        if (!seen_.insert(board_.key(at))) return true;
        ++size;
        Word moves = board_.playable(at.men);
        if (moves & board_.wins(at.own, at.men)) {
            ++size;
            return true;
        }
        if (!moves) return !wins_;
        Word safe = board_.safe_moves(at);
        Word square = safe & (safe - 1) ? safe & (last << 1) : safe;
        return square && answers_all(board_.after(at, square));
    }
};

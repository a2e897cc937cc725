// The search for scores: who wins under best play, and when.
//
// A score is that of the side to move: 0 for a draw; for a win, how many men the winner has still to place behind the
// one that wins, and that one. So a sooner win is more. A loss is what the other side has, below 0.
#pragma once

#include <algorithm>
#include <cstdint>
#include <functional>

#include "bounds.h"

// A search had no more nodes.
struct Spent {};

template <int ROWS>
class Scorer {
  public:
    Scorer(const Board<ROWS>& board, BoundTables& tables)
        : board_(board), tables_(tables), squares_(board.columns * ROWS), late_(squares_ - LATE),
          last_kept_(squares_ - LAST_KEPT) {
        for (int c = 0; c < board.columns; ++c) {
            int side = std::min(c, board.columns - 1 - c);
            for (int r = 0; r < ROWS; ++r) {
                weight_[c * board.HEIGHT + r] = side * 2 + (r > 0 && r < ROWS - 1);
                if (r % 2 == 0) odd_rows_ |= Word(1) << (c * board.HEIGHT + r);
            }
        }
    }

    uint64_t nodes = 0;          // positions that were visited
    std::function<void()> look;  // is called each some thousand of them, and may throw

    int squares() const { return squares_; }

    // The score of a win by the next man, where there are so many.
    int soonest(int men) const { return (squares_ + 1 - men) / 2; }

    // Where this is less than the score of a position without a line, another number with which that is so; else one
    // that isn't less than the score, and not more than this. It visits at most so many positions.
    int bound(Position at, int alpha, uint64_t most = NO_LIMIT) {
        most_ = nodes + most < nodes ? NO_LIMIT : nodes + most;
        pause_ = std::min(most_, next_look_);
        int men = count_of(at.men);
        if (board_.playable(at.men) & board_.wins(at.own, at.men)) return soonest(men);
        Word moves = board_.safe_moves(at);
        if (!moves) return men == squares_ ? 0 : -soonest(men + 1);
        Child root = {at, moves, key_of(at, men), 0};
        int most_here = ceiling(at, men, alpha, board_.wins(at.own ^ at.men, at.men));
        return most_here <= alpha ? most_here : visit(root, men, alpha);
    }

    // The value of a position without a line, for the side to move: 1, 0 or -1.
    int value(Position at) { return bound(at, 0) > 0 ? 1 : bound(at, -1) > -1 ? 0 : -1; }

    // Notes that the score of a position, in which no side wins at once, lies between these.
    void know(Position at, Bounds bounds) {
        int men = count_of(at.men);
        Bounds found = bounds;
        table_for(men).find(key_of(at, men), found);
        bounds = {std::max(bounds.lower, found.lower), std::min(bounds.upper, found.upper)};
        table_for(men).put(key_of(at, men), bounds, NO_LIMIT);
    }

    // How good a move looks: by the lines that it threatens to make, and by its place.
    int weight_of(Position at, Word square) const {
        return weight_of(board_.wins(at.own | square, at.men | square), square);
    }

    static constexpr uint64_t NO_LIMIT = ~uint64_t(0);

  private:
    // A position in which nobody wins at once, and the moves that don't lose at once: some are there.
    struct Child {
        Position at;
        Word moves;
        Word key;
        int weight;

        bool is_forced() const { return !(moves & (moves - 1)); }
    };

    static constexpr uint64_t PAUSE = 1 << 14;
    static constexpr int FOLDED = 12;    // with at most so many men, a position and its mirror image are one
    static constexpr int LATE = 20;      // with fewer empty squares, a position is late
    static constexpr int LAST_KEPT = 6;  // with so many or fewer, it isn't kept
    static constexpr int LAST_SEEN = 8;  // and with fewer, what follows it isn't looked up before it is searched

    const Board<ROWS>& board_;
    BoundTables& tables_;
    int squares_;
    int late_;       // more men than these are late
    int last_kept_;  // so many men or more aren't kept
    Word odd_rows_ = 0;
    uint64_t most_ = NO_LIMIT;
    uint64_t next_look_ = PAUSE;
    uint64_t pause_ = 0;  // behind so many nodes either comes
    int weight_[64] = {};

    Word key_of(Position at, int men) const {
        Word key = board_.key(at);
        return men <= FOLDED ? std::min(key, board_.mirrored(key)) : key;
    }

    BoundTable& table_for(int men) { return men > late_ ? tables_.late : tables_.early; }

    bool is_kept(const Child& child, int men) const { return men < last_kept_ && !child.is_forced(); }

    int weight_of(Word threats, Word square) const {
        return count_of(threats) * 32 + weight_[__builtin_ctzll(square)];
    }

    void pause() {
        if (nodes > most_) throw Spent();
        next_look_ = nodes + PAUSE;
        pause_ = std::min(most_, next_look_);
        if (look) look();
    }

    // The most that the side to move can reach, as far as alpha asks for it and it is seen at once: by the squares on
    // which the other side threatens to make a line, and by the lines that are open.
    int ceiling(Position at, int men, int alpha, Word threats) const {
        bool is_white = men % 2 == 0;
        threats &= is_white ? ~odd_rows_ : odd_rows_;
        if (alpha < -1 && !threats) return squares_;
        if (int most = is_white ? followed(at, alpha, threats) : led(at, threats); most <= alpha) return most;
        return alpha < 0 || board_.has_line(board_.full & ~(at.own ^ at.men)) ? squares_ : 0;
    }

    // What White reaches at most where Black follows, who has these threats on even rows. Black answers each man on an
    // odd row above it; of the columns in which an even row is next there is an even number, and a man there Black
    // answers in another of these. So White gets no other square of an even row, and Black each of them.
    int followed(Position at, int alpha, Word threats) const {
        Word empty = board_.full & ~at.men;
        Word shared = board_.playable(at.men) & ~odd_rows_;
        if (board_.has_line(at.own | (empty & odd_rows_) | shared)) return squares_;
        if (alpha >= 0) return 0;
        int most = 0;
        for (Word rest = threats & ~shared; rest; rest &= rest - 1) {
            most = std::min(most, lost_at(__builtin_ctzll(rest)));
        }
        if (most < 0 || alpha < -1) return most;
        return board_.has_line((at.own ^ at.men) | (empty & ~odd_rows_ & ~shared)) ? -1 : 0;
    }

    // What Black reaches at most where White, who has these threats on odd rows, follows. In the column of one of them
    // an even row is next, and White answers there above each man too. So Black has to begin it once the other columns
    // are full, and White gets the threat's square; of its column Black gets even rows below that alone.
    int led(Position at, Word threats) const {
        Word empty = board_.full & ~at.men;
        Word shared = board_.playable(at.men) & ~odd_rows_;
        int most = squares_;
        for (Word rest = threats; rest; rest &= rest - 1) {
            int place = __builtin_ctzll(rest);
            Word column = board_.column(place / board_.HEIGHT);
            Word below = column & ((Word(1) << place) - 1);
            Word here = below & empty & ~odd_rows_, elsewhere = ((empty & odd_rows_) | shared) & ~column;
            if ((shared & below) && !board_.has_line(at.own | here | elsewhere)) most = std::min(most, lost_at(place));
        }
        return most;
    }

    // The score of the side to move where the other side gets a square on which it threatens to make a line at the
    // latest once all other columns are full.
    int lost_at(int place) const { return -((ROWS - place % board_.HEIGHT + 1) / 2); }

    // As `bound`. The table is asked unless there is but one move.
    int visit(const Child& node, int men, int alpha) {
        if (++nodes > pause_) pause();
        Bounds known = {-(squares_ - 2 - men) / 2, (squares_ - 1 - men) / 2};
        if (known.upper <= alpha) return known.upper;
        if (known.lower > alpha) return known.lower;
        if (!is_kept(node, men)) return best(node, men, alpha);
        BoundTable& table = table_for(men);
        Bounds found;
        if (table.find(node.key, found)) {
            known = {std::max(known.lower, found.lower), std::min(known.upper, found.upper)};
            if (known.lower > alpha) return known.lower;
            if (known.upper <= alpha) return known.upper;
        }
        uint64_t before = nodes;
        int score = best(node, men, alpha);
        (score > alpha ? known.lower : known.upper) = score;
        table.put(node.key, known, nodes - before);
        return score;
    }

    int best(const Child& node, int men, int alpha) {
        Child children[10];
        int count = 0;
        if (int score = lay_out(node, men, alpha, children, count); score > alpha) return score;
        // Nobody wins by the next three men.
        if (int most = (squares_ - 3 - men) / 2; most <= alpha) return most;
        int best = -squares_;
        if (count > 1 && men < squares_ - LAST_SEEN) best = look_up(men, alpha, children, count);
        for (int n = 0; n < count && best <= alpha; ++n) {
            best = std::max(best, -visit(children[n], men + 1, -alpha - 1));
        }
        return best;
    }

    // The positions behind the moves, those with the most threats first; the lines of the table that they need are
    // fetched meanwhile. Where one is decided at once, and better than alpha, its score; else less than all scores. Two
    // squares at least are empty behind each move, since with fewer `visit` has its answer without a move.
    int lay_out(const Child& node, int men, int alpha, Child* children, int& count) {
        BoundTable& table = table_for(men + 1);
        for (Word rest = node.moves; rest; rest &= rest - 1) {
            Word square = rest & -rest;
            Position next = board_.after(node.at, square);
            Word threats = board_.wins(node.at.own | square, next.men);
            Word moves = board_.unforced(next.men, threats);
            if (!moves) return soonest(men + 2);
            if (int most = ceiling(next, men + 1, -alpha - 1, threats); most < -alpha) return -most;
            Child child = {next, moves, key_of(next, men + 1), weight_of(threats, square)};
            if (is_kept(child, men + 1)) table.prefetch(child.key);
            int n = count++;
            for (; n > 0 && children[n - 1].weight < child.weight; --n) children[n] = children[n - 1];
            children[n] = child;
        }
        return -squares_;
    }

    // Looks all positions behind the moves up before one is searched, and leaves those out that the table decides. The
    // best of their scores.
    int look_up(int men, int alpha, Child* children, int& count) {
        BoundTable& table = table_for(men + 1);
        int best = -squares_;
        int left = 0;
        for (int n = 0; n < count; ++n) {
            Bounds found;
            if (is_kept(children[n], men + 1) && table.find(children[n].key, found)) {
                if (found.upper < -alpha) return -found.upper;
                if (found.lower >= -alpha) {
                    best = std::max(best, -found.lower);
                    continue;
                }
            }
            children[left++] = children[n];
        }
        count = left;
        return best;
    }
};

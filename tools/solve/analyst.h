// Answers what is asked of positions: the value of each move, its score, and a best line. What is found is said as soon
// as it is known.
#pragma once

#include <functional>
#include <vector>

#include "game.h"
#include "opening_values.h"

// The value that a score between these bounds has; nothing where they leave it open.
inline const char* value_of(Bounds score) {
    if (score.lower > 0) return "win";
    if (score.upper < 0) return "loss";
    return score.lower == 0 && score.upper == 0 ? "draw" : nullptr;
}

// What is known of a move: the score for the side that makes it.
struct Prospect {
    Word square;
    char letter;
    Bounds score;
    int weight;  // how good it looks

    bool is_settled() const { return score.lower == score.upper; }

    // That of its value, once this is known: 1, 0 or -1.
    int rank() const { return (score.lower > 0) - (score.upper < 0); }
};

// What an analyst says: of a move, or of the position, where the letter is 0. Where the score is wanted and known there
// are moves to the end; else -1.
using Say = std::function<void(char letter, const char* value, int to_end)>;

template <int ROWS>
class Analyst {
  public:
    Analyst(const Board<ROWS>& board, Scorer<ROWS>& scorer, OpeningValues<ROWS>& openings)
        : board_(board), scorer_(scorer), openings_(openings) {}

    // Says the value of each move and of the position.
    void values(Position at, const Say& say) {
        if (says_end(at, say)) return;
        std::vector<Prospect> moves = prospects(at);
        settle_values(at, moves, say);
    }

    // The value of a position, without those of its moves.
    const char* value(Position at) {
        if (board_.is_ended(at)) return board_.is_won(at) ? "loss" : "draw";
        int value = openings_.has(at) ? openings_.value(at) : scorer_.value(at);
        return value_of({value, value});
    }

    // The values of all, and then the moves to the end.
    void scores(Position at, const Say& say) {
        if (says_end(at, say)) return;
        std::vector<Prospect> moves = prospects(at);
        settle_values(at, moves, say);
        std::stable_sort(moves.begin(), moves.end(),
                         [](const Prospect& one, const Prospect& other) { return one.rank() > other.rank(); });
        int best = -scorer_.squares();
        bool is_said = false;
        for (Prospect& move : moves) {
            // A worse value than the best leaves the score of the position as it is.
            if (!is_said && best >= 0 && move.rank() < (best > 0)) {
                say(0, value_of({best, best}), moves_to_end(at, best));
                is_said = true;
            }
            settle_score(at, move);
            best = std::max(best, move.score.lower);
            say(move.letter, value_of(move.score), moves_to_end(at, move.score.lower));
        }
        if (!is_said) say(0, value_of({best, best}), moves_to_end(at, best));
    }

    // The score of a position.
    int score_of(Position at) {
        if (board_.is_won(at)) return -scorer_.soonest(count_of(at.men) - 1);
        if (at.men == board_.full) return 0;
        Bounds score = {-scorer_.squares(), scorer_.squares()};
        for (int alpha : {0, -1}) {
            if (score.lower <= alpha && alpha < score.upper) narrow(at, alpha, score);
        }
        while (score.lower < score.upper) {
            narrow(at, score.lower >= 0 ? score.lower : score.upper - 1, score);
        }
        return score.lower;
    }

    // A best move of a position that goes on, which has this score.
    Word best_move(Position at, int score) {
        std::vector<Prospect> moves = prospects(at);
        for (Prospect& move : moves) {
            if (move.is_settled() ? move.score.lower == score : is_better(at, move, score - 1)) return move.square;
        }
        throw Fault("no move has the score of its position");
    }

    // How many moves the game goes on for under best play.
    int moves_to_end(Position at, int score) const {
        int men = count_of(at.men);
        if (score == 0) return scorer_.squares() - men;
        bool is_own = score > 0;
        int before = scorer_.squares() - 2 * std::abs(score) + ((men & 1) == is_own);
        return before + 1 - men;
    }

  private:
    const Board<ROWS>& board_;
    Scorer<ROWS>& scorer_;
    OpeningValues<ROWS>& openings_;

    // Where the game has ended, says so.
    bool says_end(Position at, const Say& say) const {
        if (!board_.is_ended(at)) return false;
        say(0, board_.is_won(at) ? "loss" : "draw", 0);
        return true;
    }

    // Finds out whether a score is above alpha.
    void narrow(Position at, int alpha, Bounds& score) {
        int bound = scorer_.bound(at, alpha);
        if (bound > alpha) score.lower = std::max(score.lower, bound);
        else score.upper = std::min(score.upper, bound);
    }

    // The same of a move.
    bool is_better(Position at, Prospect& move, int alpha) {
        Bounds next = {-move.score.upper, -move.score.lower};
        narrow(board_.after(at, move.square), -alpha - 1, next);
        move.score = {-next.upper, -next.lower};
        return move.score.lower > alpha;
    }

    // The moves, those that look best first. Of one that ends the game the score is known.
    std::vector<Prospect> prospects(Position at) const {
        std::vector<Prospect> moves;
        int men = count_of(at.men);
        Word wins = board_.wins(at.own, at.men), safe = board_.safe_moves(at);
        for (Word rest = board_.playable(at.men); rest; rest &= rest - 1) {
            Word square = rest & -rest;
            char letter = char('a' + __builtin_ctzll(square) / Board<ROWS>::HEIGHT);
            int most = scorer_.squares();
            Bounds score = {-most, most};
            int weight = scorer_.weight_of(at, square) - (safe & square ? 0 : most * most);
            if (square & wins) {
                score.lower = score.upper = scorer_.soonest(men);
                weight = most * most;
            } else if (men + 1 == most) {
                score.lower = score.upper = 0;
            }
            moves.push_back({square, letter, score, weight});
        }
        std::stable_sort(moves.begin(), moves.end(),
                         [](const Prospect& one, const Prospect& other) { return one.weight > other.weight; });
        return moves;
    }

    void settle_values(Position at, std::vector<Prospect>& moves, const Say& say) {
        Bounds best = {-scorer_.squares(), -scorer_.squares()};
        for (Prospect& move : moves) {
            bool is_won = best.lower > 0;
            settle_value(at, move);
            best = {std::max(best.lower, move.score.lower), std::max(best.upper, move.score.upper)};
            say(move.letter, value_of(move.score), -1);
            if (best.lower > 0 && !is_won) say(0, "win", -1);
        }
        if (best.lower <= 0) say(0, value_of(best), -1);
    }

    void settle_value(Position at, Prospect& move) {
        if (value_of(move.score)) return;
        Position next = board_.after(at, move.square);
        int most = scorer_.squares();
        if (openings_.has(next)) {
            int value = -openings_.value(next);
            move.score = value > 0 ? Bounds{1, most} : value < 0 ? Bounds{-most, -1} : Bounds{0, 0};
        } else if (!is_better(at, move, 0)) {
            if (is_better(at, move, -1)) move.score.upper = move.score.lower = 0;
        }
    }

    // From the value on, upward: a win may come sooner, and a loss sooner too.
    void settle_score(Position at, Prospect& move) {
        while (!move.is_settled()) {
            is_better(at, move, move.score.lower >= 0 ? move.score.lower : move.score.upper - 1);
        }
    }
};

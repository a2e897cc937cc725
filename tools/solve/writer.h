// Writes a strategy as lemmas.
#pragma once

#include <charconv>
#include <string>

#include "numbers.h"
#include "strategy.h"

template <int ROWS, class Out>
class Writer {
  public:
    // The claim is `W+`, `W-`, `B+` or `B-`. `written` counts the lemmas of the whole text.
    Writer(const Board<ROWS>& board, Strategy<ROWS>& strategy, const std::string& claim, bool has_images, Out& out,
           uint32_t& written)
        : board_(board), strategy_(strategy), claim_(claim), has_images_(has_images), out_(out), written_(written),
          numbers_(strategy.size()) {}

    // As `write`, of the position after these moves from the game's.
    uint32_t write_after(const std::string& moves, Position at) {
        path_ = moves;
        return write(at);
    }

    // Writes what shows the claim at a position, and isn't written. The number of the lemma there.
    uint32_t write(Position at) {
        Word key = board_.key(at);
        if (uint32_t number = numbers_.find(key)) return number;
        uint32_t image = has_images_ ? numbers_.find(board_.mirrored(key)) : 0;
        std::string reason = image ? "mirror " + std::to_string(image) : reason_of(at);
        Cite cites[10];
        int count = reason.empty() ? cite(at, cites) : 0;
        if ((written_ & 0x3ff) == 0) progress.heed();
        line_.clear();
        add(++written_);
        line_.append(1, ' ').append(path_.empty() ? "-" : path_).append(claim_).append(reason);
        if (count) add_cites(strategy_.proves(at), cites, count);
        out_.write(line_.append(1, '\n'));
        numbers_.put(key, written_);
        return written_;
    }

  private:
    struct Cite {
        char letter;
        uint32_t number;
    };

    const Board<ROWS>& board_;
    Strategy<ROWS>& strategy_;
    std::string claim_;
    bool has_images_;
    Out& out_;
    uint32_t& written_;
    std::string path_;
    std::string line_;
    Numbers numbers_;

    // The reason at a position, or nothing where it is by moves.
    std::string reason_of(Position at) {
        if (board_.is_ended(at)) return "end";
        std::string plan = strategy_.plan_of(at);
        return plan.empty() ? plan : "plan" + plan;
    }

    // Writes the lemmas that the one at a position cites. How many these are.
    int cite(Position at, Cite* cites) {
        Word moves = strategy_.proves(at) ? strategy_.move_of(at) : board_.playable(at.men);
        for (Word rest = moves; rest & (rest - 1); rest &= rest - 1) {
            Position next = board_.after(at, rest & -rest);
            numbers_.prefetch(board_.key(next));
            strategy_.prefetch(next);
        }
        int count = 0;
        for (Word rest = moves; rest; rest &= rest - 1) {
            char letter = char('a' + __builtin_ctzll(rest) / Board<ROWS>::HEIGHT);
            path_.push_back(letter);
            cites[count++] = {letter, write(board_.after(at, rest & -rest))};
            path_.pop_back();
        }
        return count;
    }

    void add_cites(bool is_one, const Cite* cites, int count) {
        line_ += is_one ? "one" : "all";
        for (int n = 0; n < count; ++n) {
            line_.append(1, ' ').append(1, cites[n].letter).append(1, is_one ? ' ' : ':');
            add(cites[n].number);
        }
    }

    void add(uint32_t number) {
        char digits[16];
        line_.append(digits, std::to_chars(digits, digits + sizeof digits, number).ptr);
    }
};

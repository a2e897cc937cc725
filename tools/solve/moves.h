// The prover's moves in a proof that was written before. Nothing of it is trusted.
#pragma once

#include <fstream>
#include <string>
#include <vector>

#include "game.h"

// A position by its number, and the prover's move there.
struct Moved {
    Word key;
    unsigned column;
};

template <int ROWS>
class ProofMoves {
  public:
    std::string value;  // win, loss or draw, for the side to move

    ProofMoves(const Board<ROWS>& board, const std::string& name) : board_(board), name_(name) {
        std::ifstream file(name);
        std::string line, head;
        if (!file) throw Fault("can't read " + name);
        if (!std::getline(file, line) || (line != "victor 1" && line != "victor 2")) throw is_none(1);
        for (int n = 0; n < 2 && std::getline(file, line); ++n) head += (n ? "\n" : "") + line;
        Game game;
        std::string kind;
        size_t place;
        bool is_read = read_game(head, game, kind, place);
        bool is_same = game.columns == board.columns && game.rows == ROWS && game.length == board.length;
        if (!is_read || !is_same) throw is_none(2);
        root_ = position_of(game, board);
        for (size_t number = 4; value.empty() && std::getline(file, line); ++number) {
            if (line[0] != '#' && !reads(line)) throw is_none(number);
        }
        if (value.empty()) throw Fault(name + " is no proof of this board: it has no value");
    }

    // The moves for the claim that this side wins, or that it doesn't.
    const std::vector<Moved>& of(int asker, bool wins) const { return moves_[asker][wins]; }

    Position root() const { return root_; }

  private:
    const Board<ROWS>& board_;
    const std::string& name_;
    Position root_ = {0, 0};
    std::vector<Moved> moves_[2][2];

    Fault is_none(size_t line) { return Fault(name_ + " is no proof of this board: line " + std::to_string(line)); }

    // A lemma, of which a move counts, or the verdict.
    bool reads(const std::string& line) {
        size_t path = line.find(' ') + 1, claim = line.find(' ', path) + 1, reason = line.find(' ', claim) + 1;
        if (!path || !claim) return false;
        if (line.compare(0, path, "value ") == 0) {
            value = line.substr(path, claim - 1 - path);
            return true;
        }
        bool is_claim = reason == claim + 3 && (line[claim] == 'W' || line[claim] == 'B');
        if (!is_claim || line.compare(reason, 4, "one ")) return is_claim;
        Position at = root_;
        for (size_t n = path; n + 1 < claim; ++n) {
            if (line[n] != '-' && !play(at, line[n])) return false;
        }
        Position next = at;
        if (!play(next, line[reason + 4])) return false;
        unsigned column = unsigned(line[reason + 4] - 'a');
        moves_[line[claim] == 'B'][line[claim + 1] == '+'].push_back({board_.key(at), column});
        return true;
    }

    bool play(Position& at, char letter) const {
        int column = letter - 'a';
        if (column < 0 || column >= board_.columns) return false;
        Word square = board_.playable(at.men) & board_.column(column);
        if (square) at = board_.after(at, square);
        return square;
    }
};

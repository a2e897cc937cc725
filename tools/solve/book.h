// Moves that are given beforehand, for a board: a table that another program made, or a person. Nothing of it is
// trusted: a move is taken only where the search finds that it reaches the prover's end.
#pragma once

#include <string>
#include <unordered_map>

#include "board.h"
#include "input.h"

// The text has a line `board C R` and then lines with moves, a space and a reply. A `-` stands for no moves, and a line
// that begins with `#` is passed over.
template <int ROWS>
class Book {
  public:
    explicit Book(const Board<ROWS>& board) : board_(board) {}

    // Reads a file. A position's mirror image gets the image of its reply, where it has none of its own.
    void read(const std::string& name) {
        std::string text = read_all(name, MOST);
        std::string head = "board " + std::to_string(board_.columns) + " " + std::to_string(ROWS) +
                           (board_.length == 5 ? " 5" : "");
        bool has_head = false;
        size_t number = 0;
        for (size_t begin = 0; begin < text.size(); ++number) {
            size_t end = std::min(text.find('\n', begin), text.size());
            std::string line = text.substr(begin, end - begin);
            begin = end + 1;
            if (!line.empty() && line[0] == '#') continue;
            if (!(has_head ? reads(line) : line == head)) {
                throw Fault(name + " is no book of this board: line " + std::to_string(number + 1));
            }
            has_head = true;
        }
        if (!has_head) throw Fault(name + " is no book of this board: it is empty");
    }

    // The square of the reply, or 0.
    Word find(Position at) const {
        auto entry = replies_.find(board_.key(at));
        return entry == replies_.end() ? 0 : board_.playable(at.men) & board_.column(entry->second);
    }

  private:
    static constexpr size_t MOST = size_t(1) << 26;  // bytes that are read of a file

    const Board<ROWS>& board_;
    std::unordered_map<Word, int> replies_;

    // Plays a move of this letter. False where there is none.
    bool play(Position& at, char letter) const {
        int column = letter - 'a';
        if (column < 0 || column >= board_.columns || board_.is_ended(at)) return false;
        Word square = board_.playable(at.men) & board_.column(column);
        if (square) at = board_.after(at, square);
        return square;
    }

    bool reads(const std::string& line) {
        size_t space = line.find(' ');
        if (space == std::string::npos || space == 0 || space + 2 != line.size()) return false;
        Position at = {0, 0};
        for (size_t n = 0; n < space; ++n) {
            if (!(n == 0 && space == 1 && line[0] == '-') && !play(at, line[n])) return false;
        }
        Position next = at;
        if (!play(next, line[space + 1])) return false;
        int column = line[space + 1] - 'a';
        replies_[board_.key(at)] = column;
        replies_.emplace(board_.mirrored(board_.key(at)), board_.columns - 1 - column);
        return true;
    }
};

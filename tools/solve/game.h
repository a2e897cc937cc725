// The text of a game: the board, and the moves from the empty one.
#pragma once

#include <string>

#include "board.h"
#include "input.h"

struct Game {
    int columns = 0;
    int rows = 0;
    int length = 4;  // of a line
    std::string moves = "";
};

// Reads the text up to its first fault, which is a kind and a byte place. Whether the moves are legal isn't looked at.
inline bool read_game(const std::string& text, Game& game, std::string& kind, size_t& place) {
    size_t at = 0;
    auto fails = [&](const char* name, size_t where) {
        kind = name;
        place = where;
        return false;
    };
    auto reads = [&](const char* fixed) {
        for (; *fixed && at < text.size() && text[at] == *fixed; ++fixed) ++at;
        return !*fixed;
    };
    auto size = [&](int& number, int first, bool is_even) {
        size_t begin = at;
        while (at < text.size() && text[at] >= '0' && text[at] <= '9') ++at;
        std::string digits = text.substr(begin, at - begin);
        for (number = first; number <= 10; ++number) {
            if (digits == std::to_string(number) && !(is_even && number % 2)) return true;
        }
        at = begin;
        return false;
    };
    if (!reads("board ")) return fails("BadHeader", at);
    if (!size(game.columns, 4, false)) return fails("BadSize", at);
    if (!reads(" ")) return fails("BadHeader", at);
    if (!size(game.rows, 4, true)) return fails("BadSize", at);
    if (reads(" ")) {
        size_t begin = at;
        while (at < text.size() && text[at] >= '0' && text[at] <= '9') ++at;
        if (text.compare(begin, at - begin, "5")) return fails("BadSize", begin);
        game.length = 5;
    }
    if (!reads("\nmoves ")) return fails("BadHeader", at);
    auto is_letter = [&] { return at < text.size() && text[at] >= 'a' && text[at] < 'a' + game.columns; };
    if (at < text.size() && text[at] == '-') {
        ++at;
        if (at < text.size() && text[at] != '\n') return fails("Trailing", at);
    } else {
        if (!is_letter()) return fails("BadColumn", at);
        while (is_letter()) game.moves += text[at++];
        if (at < text.size() && text[at] != '\n') return fails("BadColumn", at);
    }
    if (at + 1 < text.size()) return fails("Trailing", at + 1);
    return true;
}

// The game in a file, or in standard input.
inline Game game_of(const std::string& name) {
    Game game;
    std::string kind;
    size_t place = 0;
    if (!read_game(read_all(name == "-" ? "" : name, 256), game, kind, place)) {
        throw Fault("input fault: " + kind + " at " + std::to_string(place));
    }
    return game;
}

// The position behind the moves of a game.
template <int ROWS>
Position position_of(const Game& game, const Board<ROWS>& board) {
    Position at = {0, 0};
    for (size_t n = 0; n < game.moves.size(); ++n) {
        std::string where = " at move " + std::to_string(n + 1);
        if (board.is_ended(at)) throw Fault("input fault: GameOver" + where);
        Word square = board.playable(at.men) & board.column(game.moves[n] - 'a');
        if (!square) throw Fault("input fault: ColumnFull" + where);
        at = board.after(at, square);
    }
    return at;
}

// Calls `run` with the board of a game.
template <class Run>
void with_board(const Game& game, Run run) {
    if (game.columns * (game.rows + 1) > 63) {
        throw Fault("a board of " + std::to_string(game.columns) + " by " + std::to_string(game.rows) +
                    " is too large for this tool");
    }
    switch (game.rows) {
        case 4: return run(Board<4>(game.columns, game.length));
        case 6: return run(Board<6>(game.columns, game.length));
        case 8: return run(Board<8>(game.columns, game.length));
        default: return run(Board<10>(game.columns, game.length));
    }
}

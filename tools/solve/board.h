// Boards as words of 64 bits: a column has a bit for each row and a spare one above them, and the columns stand side
// by side.
#pragma once

#include <algorithm>
#include <cstdint>
#ifdef __BMI2__
#include <immintrin.h>
#endif

using Word = uint64_t;

// The men of the side to move, and all men.
struct Position {
    Word own;
    Word men;
};

// By additions where the processor needn't count itself: a call of the library's function takes longer.
inline int count_of(Word word) {
#ifdef __POPCNT__
    return __builtin_popcountll(word);
#else
    word -= word >> 1 & 0x5555555555555555u;
    word = (word & 0x3333333333333333u) + (word >> 2 & 0x3333333333333333u);
    word = (word + (word >> 4)) & 0x0f0f0f0f0f0f0f0fu;
    return int(word * 0x0101010101010101u >> 56);
#endif
}

// A board with ROWS rows. The bits of all columns have to fit into 63.
template <int ROWS>
struct Board {
    static constexpr int HEIGHT = ROWS + 1;
    static constexpr Word COLUMN = (Word(1) << ROWS) - 1;

    int columns;
    Word bottom = 0;
    Word full = 0;
    int length;      // of a line: four or five
    bool is_narrow;  // each column fits into a byte, and all of them into a word

    Board(int columns_, int length_) : columns(columns_), length(length_), is_narrow(HEIGHT <= 8 && columns_ <= 8) {
        for (int c = 0; c < columns; ++c) {
            bottom |= Word(1) << (c * HEIGHT);
            full |= COLUMN << (c * HEIGHT);
        }
    }

    // The lowest empty square of each column that isn't full.
    Word playable(Word men) const { return (men + bottom) & full; }

    Word column(int c) const { return COLUMN << (c * HEIGHT); }

    // The position after a man on this square, for the other side.
    static Position after(Position at, Word square) { return {at.own ^ at.men, at.men | square}; }

    // A number of the position, below 2^63: no two positions have the same.
    static Word key(Position at) { return at.own + at.men; }

    // The position with this number: in each column the men end below the highest bit of the sum.
    Position position(Word key) const {
        Word sums = key + bottom;
        Word men = sums;
        for (int r = 0; r < ROWS; ++r) men |= (men >> 1) & full;
        men = (men >> 1) & full;
        return {sums & men, men};
    }

    // The same number, of the position as a mirror shows it.
    Word mirrored(Word key) const {
#ifdef __BMI2__
        if (is_narrow) {
            constexpr Word BYTES = ~Word(0) / 255 * ((1 << std::min(HEIGHT, 8)) - 1);
            return _pext_u64(__builtin_bswap64(_pdep_u64(key, BYTES)) >> (8 * (8 - columns)), BYTES);
        }
#endif
        Word other = 0;
        for (int c = 0; c < columns; ++c) {
            other |= ((key >> (c * HEIGHT)) & ((Word(1) << HEIGHT) - 1)) << ((columns - 1 - c) * HEIGHT);
        }
        return other;
    }

    // Some of these squares are a line.
    bool has_line(Word squares) const {
        for (int step : {1, HEIGHT - 1, HEIGHT, HEIGHT + 1}) {
            Word two = squares & (squares >> step);
            Word four = two & (two >> (2 * step));
            if (length == 4 ? four : four & (four >> step)) return true;
        }
        return false;
    }

    // The empty squares on which one man makes a line with these, also where it would hang.
    Word wins(Word own, Word men) const {
        Word squares = (own << 1) & (own << 2) & (own << 3);
        if (length == 5) squares &= own << 4;
        for (int step : {HEIGHT - 1, HEIGHT, HEIGHT + 1}) {
            Word above = (own << step) & (own << (2 * step));
            Word below = (own >> step) & (own >> (2 * step));
            Word three = above & (own << (3 * step)), three_below = below & (own >> (3 * step));
            if (length == 5) {
                squares |= three & ((own << (4 * step)) | (own >> step));
                squares |= three_below & ((own >> (4 * step)) | (own << step));
                squares |= above & below;
            } else {
                squares |= three | (above & (own >> step)) | three_below | (below & (own << step));
            }
        }
        return squares & full & ~men;
    }

    // The side that isn't to move has made a line.
    bool is_won(Position at) const { return has_line(at.own ^ at.men); }

    bool is_ended(Position at) const { return at.men == full || is_won(at); }

    // The moves that don't lose at once, where the side to move can't win at once.
    Word safe_moves(Position at) const { return unforced(at.men, wins(at.own ^ at.men, at.men)); }

    // The same, where these are the squares on which the other side would win.
    Word unforced(Word men, Word threats) const {
        Word moves = playable(men);
        Word forced = moves & threats;
        if (forced & (forced - 1)) return 0;
        return (forced ? forced : moves) & ~(threats >> 1);
    }
};

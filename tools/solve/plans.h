// Plans of Black's: lists of the nine rules by which he answers each of White's moves, so that White makes no four. A
// position with a plan needs no lemma but one. docs/RULES.md has the rules; what is found here the checker judges.
#pragma once

#include <algorithm>
#include <string>
#include <vector>

#include "board.h"

// The squares of a plan's rules are laid out from the columns. White is to move, so an even number of squares is empty.
// - A column whose lowest empty square lies on an odd row can be filled with Claimevens. Two such columns can also have
//   a Baseinverse, a Lowinverse or Highinverse on it, and then Claimevens.
// - The others come in pairs: with a Baseinverse, Lowinverse, Highinverse, or a Baseclaim, which takes two squares of a
//   column of the first kind besides. Claimevens fill what is above.
// No other layout stands by the rules, so each plan is met where all are tried.
template <int ROWS>
class Plans {
  public:
    // At most `reach` layouts are tried at a position.
    Plans(const Board<ROWS>& board, unsigned reach) : board_(board), reach_(reach) {
        for (int c = 0; c < board.columns; ++c) {
            for (int r = 1; r <= ROWS; ++r) {
                add_line(c, r, 'h', 1, 0);
                add_line(c, r, 'v', 0, 1);
                add_line(c, r, 'u', 1, 1);
                add_line(c, r, 'd', 1, -1);
            }
        }
    }

    // As `finds`, of a position whose image has a plan: as many layouts are tried as it takes.
    bool surely_finds(Position at) {
        unsigned reach = reach_;
        reach_ = ~0u;
        bool does = finds(at);
        reach_ = reach;
        return does;
    }

    // Whether a plan was found at a position with White to move that hasn't ended.
    bool finds(Position at) {
        Word black = at.own ^ at.men;
        white_.clear();
        black_.clear();
        empty_ = board_.full & ~at.men;
        for (const Line& line : lines_) {
            if (!(line.squares & black)) white_.push_back(line.squares & empty_);
            if (!(line.squares & at.own)) black_.push_back(&line);
        }
        unsigned columns = 0;
        for (int c = 0; c < board_.columns; ++c) {
            lowest_[c] = ROWS + 1 - count_of(empty_ & board_.column(c));
            if (lowest_[c] <= ROWS) columns |= 1u << c;
        }
        tried_ = 0;
        zones_.clear();
        upper_ = 0;
        return lays(columns);
    }

    // The plan that was found last, each instance behind a space.
    std::string text() const {
        std::vector<std::string> instances;
        for (const Zone& zone : zones_) instances.push_back(text_of(zone));
        for (Word rest = upper_; rest; rest &= rest - 1) instances.push_back("CE:" + name_of((rest & -rest) >> 1));
        for (Word group : white_) {
            if (group & upper_ || is_barred(group)) continue;
            std::string standing = standing_for(group);
            if (std::find(instances.begin(), instances.end(), standing) == instances.end()) {
                instances.push_back(standing);
            }
        }
        std::string text;
        for (const std::string& instance : instances) text += " " + instance;
        return text;
    }

  private:
    struct Line {
        Word squares;
        std::string name;
    };
    enum Kind { BASEINVERSE, LOWINVERSE, HIGHINVERSE, BASECLAIM };
    struct Zone {
        Kind kind;
        Word first, second;                  // the lowest squares of the two columns; of a Baseclaim a and e
        Word third = 0;                      // of a Baseclaim b
        Word first_top = 0, second_top = 0;  // of a Lowinverse
    };

    const Board<ROWS>& board_;
    unsigned reach_;
    std::vector<Line> lines_;

    std::vector<Word> white_;          // the empty squares of each group of White's that has no man of Black's
    std::vector<const Line*> black_;   // the groups of Black's that have no man of White's
    Word empty_ = 0;
    int lowest_[10] = {};              // the lowest empty row of each column
    unsigned tried_ = 0;
    std::vector<Zone> zones_;          // but for the Claimevens
    Word upper_ = 0;                   // the upper squares of the Claimevens

    static constexpr int HEIGHT = Board<ROWS>::HEIGHT;

    static Word square(int column, int row) { return Word(1) << (column * HEIGHT + row - 1); }

    void add_line(int column, int row, char way, int right, int up) {
        int last_column = column + (board_.length - 1) * right, last_row = row + (board_.length - 1) * up;
        if (last_column >= board_.columns || last_row < 1 || last_row > ROWS) return;
        Word squares = 0;
        for (int n = 0; n < board_.length; ++n) squares |= square(column + n * right, row + n * up);
        lines_.push_back({squares, name_of(square(column, row)) + way});
    }

    static std::string name_of(Word square) {
        int place = __builtin_ctzll(square);
        return char('a' + place / HEIGHT) + std::to_string(place % HEIGHT + 1);
    }

    // The upper squares of the Claimevens of a column from this row, which is odd.
    static Word claimevens(int column, int row) {
        Word squares = 0;
        for (int r = row + 1; r <= ROWS; r += 2) squares |= square(column, r);
        return squares;
    }

    bool is_odd(int column) const { return lowest_[column] % 2; }

    // Whether a plan comes of some layout of these columns, beside what is laid out.
    bool lays(unsigned columns) {
        if (tried_ >= reach_) return false;
        if (!columns) {
            ++tried_;
            return answers_all();
        }
        int first = -1;
        for (int c = 0; c < board_.columns && first < 0; ++c) {
            if (columns >> c & 1 && !is_odd(c)) first = c;
        }
        if (first < 0) return lays_odd(columns, __builtin_ctz(columns));
        for (int c = first + 1; c < board_.columns; ++c) {
            if (columns >> c & 1 && !is_odd(c) && pairs(columns & ~(1u << first | 1u << c), first, c)) return true;
        }
        return false;
    }

    // All columns are of the kind that Claimevens can fill.
    bool lays_odd(unsigned columns, int first) {
        columns &= ~(1u << first);
        if (with(claimevens(first, lowest_[first]), [&] { return lays(columns); })) return true;
        for (int c = first + 1; c < board_.columns; ++c) {
            if (!(columns >> c & 1)) continue;
            zones_.push_back({BASEINVERSE, square(first, lowest_[first]), square(c, lowest_[c])});
            if (inverts(columns & ~(1u << c), first, lowest_[first] + 1, c, lowest_[c] + 1)) return true;
            zones_.pop_back();
        }
        return false;
    }

    // Two columns whose lowest squares lie on even rows.
    bool pairs(unsigned columns, int one, int two) {
        int row = lowest_[one], other = lowest_[two];
        Word above = claimevens(one, row + 1) | claimevens(two, other + 1);
        if (lays_zone({BASEINVERSE, square(one, row), square(two, other)}, above, columns)) return true;
        for (int c = 0; c < board_.columns; ++c) {
            if (!(columns >> c & 1) || !is_odd(c)) continue;
            Word b = square(c, lowest_[c]);
            Word over = above | claimevens(c, lowest_[c] + 2);
            unsigned rest = columns & ~(1u << c);
            if (lays_zone({BASECLAIM, square(one, row), square(two, other), b}, over, rest)) return true;
            if (lays_zone({BASECLAIM, square(two, other), square(one, row), b}, over, rest)) return true;
        }
        return inverts(columns, one, row, two, other);
    }

    // A Lowinverse or a Highinverse in two columns, from these rows, which are even.
    bool inverts(unsigned columns, int one, int row, int two, int other) {
        for (int top = row + 2; top <= ROWS; top += 2) {
            for (int other_top = other + 2; other_top <= ROWS; other_top += 2) {
                Zone zone = {LOWINVERSE, square(one, row), square(two, other)};
                zone.first_top = square(one, top);
                zone.second_top = square(two, other_top);
                Word above = claimevens(one, top + 1) | claimevens(two, other_top + 1);
                if (lays_zone(zone, above, columns)) return true;
            }
        }
        if (row + 2 > ROWS || other + 2 > ROWS) return false;
        Word above = claimevens(one, row + 3) | claimevens(two, other + 3);
        return lays_zone({HIGHINVERSE, square(one, row), square(two, other)}, above, columns);
    }

    bool lays_zone(const Zone& zone, Word above, unsigned columns) {
        zones_.push_back(zone);
        if (with(above, [&] { return lays(columns); })) return true;
        zones_.pop_back();
        return false;
    }

    // Goes on with these upper squares of Claimevens besides.
    template <class Next>
    bool with(Word upper, Next next) {
        upper_ |= upper;
        if (next()) return true;
        upper_ &= ~upper;
        return false;
    }

    bool answers_all() {
        for (size_t n = 0; n < white_.size(); ++n) {
            Word group = white_[n];
            if (group & upper_ || is_barred(group) || !standing_for(group).empty()) continue;
            // It is looked at first in the next layout.
            std::swap(white_[n], white_[0]);
            return false;
        }
        return true;
    }

    // The squares from a low one to a high one of the same column.
    static Word between(Word low, Word high) { return (high << 1) - low; }

    static constexpr Word odd_rows() {
        Word column = 0;
        for (int r = 1; r <= ROWS; r += 2) column |= Word(1) << (r - 1);
        Word rows = 0;
        for (int c = 0; (c + 1) * HEIGHT <= 63; ++c) rows |= column << (c * HEIGHT);
        return rows;
    }

    static bool has(Word group, Word squares) { return (group & squares) == squares; }

    // A zone other than a Claimeven bars this group.
    bool is_barred(Word group) const {
        return std::any_of(zones_.begin(), zones_.end(), [&](const Zone& zone) { return bars(zone, group); });
    }

    static bool bars(const Zone& zone, Word group) {
        Word x = zone.first, y = zone.second;
        switch (zone.kind) {
            case BASEINVERSE: return has(group, x | y);
            case BASECLAIM: return has(group, x | zone.third << 1) || has(group, zone.third | y);
            case HIGHINVERSE:
                return has(group, x << 2 | y << 2) || has(group, x << 1 | y << 1) || has(group, x << 1 | x << 2) ||
                       has(group, y << 1 | y << 2) || has(group, x | y << 2) || has(group, y | x << 2);
            default: {
                Word odd = group & odd_rows();
                Word one = odd & between(x, zone.first_top), two = odd & between(y, zone.second_top);
                return (one && two) || has(group, zone.first_top | zone.second_top) || (one | two) & group >> 1;
            }
        }
    }

    // The squares of which White never owns one and the one above it as well.
    Word pair() const {
        Word squares = 0;
        for (const Zone& zone : zones_) {
            if (zone.kind == LOWINVERSE) {
                squares |= between(zone.first, zone.first_top) & ~zone.first_top;
                squares |= between(zone.second, zone.second_top) & ~zone.second_top;
            } else if (zone.kind == HIGHINVERSE) {
                squares |= zone.first << 1 | zone.second << 1;
            }
        }
        return squares;
    }

    // The standing rule that bars this group, or nothing.
    std::string standing_for(Word group) const {
        Word both = pair();
        if (Word low = both & ~odd_rows() & group & group >> 1) return "VE:" + name_of(low & -low);
        for (const Line* line : black_) {
            Word squares = line->squares & empty_;
            if (!(squares & ~upper_) && is_above_each(group, squares)) return "AE:" + line->name;
            if (squares << 1 & ~board_.full) continue;
            if (!(squares & ~(upper_ | both)) && has(group, squares << 1)) return "BE:" + line->name;
            for (const Zone& zone : zones_) {
                if (zone.kind != BASEINVERSE) continue;
                for (auto [f, e] : {std::pair{zone.first, zone.second}, std::pair{zone.second, zone.first}}) {
                    if (line->squares & f || !(squares & e) || squares & ~(upper_ | both | e)) continue;
                    if (has(group, f | squares << 1)) return "SB:" + line->name + "," + name_of(f) + "," + name_of(e);
                }
            }
        }
        return "";
    }

    // Above each of these squares, in its column, the group has one.
    bool is_above_each(Word group, Word squares) const {
        for (Word rest = squares; rest; rest &= rest - 1) {
            Word low = rest & -rest;
            Word column = board_.column(__builtin_ctzll(low) / HEIGHT);
            if (!(group & column & ~((low << 1) - 1))) return false;
        }
        return true;
    }

    static std::string text_of(const Zone& zone) {
        Word x = zone.first, y = zone.second;
        switch (zone.kind) {
            case BASEINVERSE: return "BI:" + name_of(x) + "," + name_of(y);
            case HIGHINVERSE: return "HI:" + name_of(x) + "," + name_of(y);
            case BASECLAIM: return "BC:" + name_of(x) + "," + name_of(zone.third) + "," + name_of(y);
            default:
                return "LI:" + name_of(x) + "-" + name_of(zone.first_top) + "," + name_of(y) + "-" +
                       name_of(zone.second_top);
        }
    }
};

// A plain alpha-beta search: without a table, an order of moves or any other trick, so that what has them can be held to
// it. Reads lines `COLUMNS ROWS LENGTH MOVES`, with `-` for no moves, and writes for each a line with the value and the
// moves to the end of each move, from the left: as `a:win:3 b:draw:7`.
#include <algorithm>
#include <iostream>
#include <sstream>
#include <string>
#include <utility>

static const int MOST = 1000;  // more than the squares of a board

class Game {
  public:
    Game(int columns, int rows, int length) : columns_(columns), rows_(rows), length_(length) {}

    int columns() const { return columns_; }
    int empty() const { return columns_ * rows_ - placed_; }
    bool is_open(int column) const { return height_[column] < rows_; }

    void play(int column) { men_[column + 1][++height_[column]] = placed_++ % 2 ? 'B' : 'W'; }

    void take_back(int column) {
        men_[column + 1][height_[column]--] = 0;
        --placed_;
    }

    // The last man in this column is of a line.
    bool has_line(int column) const {
        for (auto [across, up] : {std::pair(1, 0), {0, 1}, {1, 1}, {1, -1}}) {
            if (1 + run(column, across, up) + run(column, -across, -up) >= length_) return true;
        }
        return false;
    }

  private:
    int columns_, rows_, length_;
    char men_[12][12] = {};  // from below, with an empty edge around all
    int height_[10] = {};
    int placed_ = 0;

    // How many men like this one stand next to it in a direction.
    int run(int column, int across, int up) const {
        int row = height_[column], count = 0;
        char man = men_[++column][row];
        while (men_[column += across][row += up] == man) ++count;
        return count;
    }
};

// For the side that moves into this column: above 0 where it wins, the more the sooner, and below 0 where it loses.
static int score_of(Game& game, int column, int alpha, int beta);

static int best_score(Game& game, int alpha, int beta) {
    if (!game.empty()) return 0;
    int best = -MOST;
    for (int column = 0; column < game.columns() && best < beta; ++column) {
        if (game.is_open(column)) best = std::max(best, score_of(game, column, std::max(alpha, best), beta));
    }
    return best;
}

static int score_of(Game& game, int column, int alpha, int beta) {
    game.play(column);
    // Each move until the end takes one off, so the bounds are wider by one behind a move.
    int score = game.has_line(column) ? MOST - 1 : -best_score(game, -beta - 1, -alpha + 1);
    game.take_back(column);
    return score > 0 && score < MOST - 1 ? score - 1 : score < 0 ? score + 1 : score;
}

static std::string shown(int score, int empty) {
    int to_end = score == 0 ? empty : MOST - std::abs(score);
    return (score > 0 ? ":win:" : score < 0 ? ":loss:" : ":draw:") + std::to_string(to_end);
}

int main() {
    for (std::string line; std::getline(std::cin, line);) {
        std::istringstream words(line);
        int columns, rows, length;
        std::string moves;
        words >> columns >> rows >> length >> moves;
        Game game(columns, rows, length);
        for (char letter : moves) {
            if (letter != '-') game.play(letter - 'a');
        }
        for (int column = 0; column < columns; ++column) {
            if (!game.is_open(column)) continue;
            int score = score_of(game, column, -MOST, MOST);
            std::cout << char('a' + column) << shown(score, game.empty()) << ' ';
        }
        std::cout << '\n';
    }
}

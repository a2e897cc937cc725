// Writes a book for `solve`: moves of the winning side where few men stand, behind which little is left to search.
#include <algorithm>
#include <cstdlib>
#include <map>
#include <set>
#include <vector>

#include "book.h"
#include "game.h"
#include "search.h"

static const char usage[] =
    "usage: openings [--black] [--men N] [--keep N] [--ratio N] [GAME]\n"
    "Reads the text of a game from the file GAME or from standard input, and writes a book for it to standard output:\n"
    "moves for White, or for Black. docs/SOLVED.md says more.\n";

struct Options {
    bool is_black = false;
    int men = 8;         // positions with so many aren't looked into
    size_t keep = 3;     // at most so many moves are looked into
    uint64_t ratio = 4;  // and those alone that take at most so many times the nodes of the quickest
};

// A position with many men costs the nodes that a search takes which has nothing in its table; another costs what the
// positions cost in all that the other side may come to behind the best move.
template <int ROWS>
class Planner {
  public:
    Planner(const Board<ROWS>& board, const Options& options)
        : board_(board), options_(options), tables_(size_t(1) << 28, size_t(1) << 23) {}

    // Writes a book for a position and those that follow. False where the side wasn't seen to win.
    bool write(Position at, const std::string& moves) {
        if ((proves(at) ? cost_one(at, NONE) : cost_all(at, NONE)) == NONE) return false;
        printf("board %d %d\n", board_.columns, ROWS);
        write_part(at, moves);
        return true;
    }

  private:
    struct Entry {
        uint64_t cost;  // or a bound that it reaches
        Word reply;     // of the smaller of the position and its image; 0 where the cost isn't known
    };
    struct Found {
        uint64_t nodes;
        Word square;
        bool operator<(const Found& other) const { return nodes < other.nodes; }
    };

    static constexpr uint64_t NONE = ~uint64_t(0);
    static constexpr uint64_t MOST = 400'000'000;  // nodes of one search

    // A position with so many men has a line of its own only where it costs so much: else `solve` chooses better.
    static constexpr int MEN = 8;
    static constexpr uint64_t DEAR = 2'000'000;

    const Board<ROWS>& board_;
    const Options& options_;
    BoundTables tables_;
    std::map<Word, Entry> entries_;
    std::set<Word> written_;

    bool proves(Position at) const { return (count_of(at.men) & 1) == options_.is_black; }

    bool wins_at_once(Position at) const { return board_.playable(at.men) & board_.wins(at.own, at.men); }

    // The number of the position or that of its image, the smaller one.
    Word least_key(Position at) const { return std::min(board_.key(at), board_.mirrored(board_.key(at))); }

    // The square, as it is seen from the position with the smaller number; and the other way round.
    Word turned(Position at, Word square) const {
        if (least_key(at) == board_.key(at)) return square;
        int place = __builtin_ctzll(square);
        int column = board_.columns - 1 - place / board_.HEIGHT;
        return Word(1) << (column * board_.HEIGHT + place % board_.HEIGHT);
    }

    // What the other side's moves cost in all. NONE where that is the bound or more.
    uint64_t cost_all(Position at, uint64_t bound) {
        if (board_.is_ended(at)) return board_.is_won(at) ? 1 : NONE;
        uint64_t sum = 0;
        for (Word rest = board_.playable(at.men); rest; rest &= rest - 1) {
            uint64_t cost = cost_one(board_.after(at, rest & -rest), bound - sum);
            if (cost >= bound - sum) return NONE;
            sum += cost;
        }
        return sum;
    }

    // What the best move costs. NONE where that is the bound or more.
    uint64_t cost_one(Position at, uint64_t bound) {
        if (board_.is_ended(at)) return NONE;
        if (wins_at_once(at)) return 1;
        auto entry = entries_.find(least_key(at));
        if (entry != entries_.end() && (entry->second.reply || entry->second.cost >= bound)) {
            return entry->second.reply ? entry->second.cost : NONE;
        }
        auto [cost, square] = best(at, bound);
        bool is_known = cost < bound;
        entries_[least_key(at)] = is_known ? Entry{cost, turned(at, square)} : Entry{bound, 0};
        return is_known ? cost : NONE;
    }

    bool is_leaf(Position at) const { return count_of(at.men) >= options_.men; }

    Found best(Position at, uint64_t bound) {
        std::vector<Found> found = quickest(at, bound);
        if (found.empty() || is_leaf(at)) return found.empty() ? Found{NONE, 0} : found[0];
        Found least = {bound, 0};
        for (size_t n = 0; n < found.size() && n < options_.keep; ++n) {
            if (found[n].nodes > found[0].nodes * options_.ratio) break;
            uint64_t cost = cost_all(board_.after(at, found[n].square), least.nodes);
            if (cost < least.nodes) least = {cost, found[n].square};
        }
        return least;
    }

    // The moves that win, the quickest first, as far as they are found when the first is: the limit of nodes is raised
    // until then. Of an only move that is looked into it isn't asked whether it wins.
    std::vector<Found> quickest(Position at, uint64_t bound) {
        std::vector<Found> found;
        Word moves = board_.safe_moves(at);
        if (moves && !(moves & (moves - 1)) && !is_leaf(at)) return {{1, moves}};
        for (uint64_t most = 512; most < MOST && found.empty() && moves; most *= 4) {
            if (is_leaf(at) && most / 4 > bound) break;
            uint64_t limit = most;
            for (Word rest = moves; rest; rest &= rest - 1) {
                Word square = rest & -rest;
                tables_.clear(limit);
                Search<ROWS> search(board_, tables_, options_.is_black, Position{0, 0});
                bool loses = search.reaches(board_.after(at, square), limit);
                if (search.is_spent) continue;
                moves &= ~square;
                if (loses) continue;
                found.push_back({search.nodes(), square});
                limit = std::min(limit, search.nodes() * (is_leaf(at) ? 1 : options_.ratio));
            }
        }
        std::sort(found.begin(), found.end());
        return found;
    }

    void write_part(Position at, const std::string& moves) {
        if (board_.is_ended(at)) return;
        if (!proves(at)) return write_replies(at, moves);
        if (wins_at_once(at)) return;
        const Entry& entry = entries_[least_key(at)];
        if (!entry.reply || !written_.insert(least_key(at)).second) return;
        Word square = turned(at, entry.reply);
        if (count_of(at.men) < MEN || entry.cost >= DEAR) {
            printf("%s %c\n", moves.empty() ? "-" : moves.c_str(), letter_of(square));
        }
        write_replies(board_.after(at, square), moves + letter_of(square));
    }

    void write_replies(Position at, const std::string& moves) {
        for (Word rest = board_.playable(at.men); rest; rest &= rest - 1) {
            write_part(board_.after(at, rest & -rest), moves + letter_of(rest & -rest));
        }
    }

    static char letter_of(Word square) { return char('a' + __builtin_ctzll(square) / Board<ROWS>::HEIGHT); }
};

static void run(int count, char** words) {
    Options options;
    std::string input;
    for (int n = 1; n < count; ++n) {
        std::string word = words[n];
        auto number = [&](uint64_t least, uint64_t most) { return number_of(word, words[++n], least, most); };
        if (word == "--help") {
            fputs(usage, stdout);
            return;
        }
        if (word == "--black") options.is_black = true;
        else if (word == "--men") options.men = int(number(0, 63));
        else if (word == "--keep") options.keep = number(1, 10);
        else if (word == "--ratio") options.ratio = number(1, 1000);
        else if (word[0] == '-' && word != "-") throw Fault("unknown option " + word + "; --help lists them");
        else if (input.empty()) input = word;
        else throw Fault("more than one game is named");
    }
    progress.is_quiet = true;
    Game game = game_of(input);
    with_board(game, [&](const auto& board) {
        Planner planner(board, options);
        if (!planner.write(position_of(game, board), game.moves)) throw Fault("that side wasn't seen to win");
    });
    if (fflush(stdout)) throw Fault(std::string("can't write standard output: ") + strerror(errno));
}

int main(int count, char** words) {
    return status_of("openings", [&] { run(count, words); });
}

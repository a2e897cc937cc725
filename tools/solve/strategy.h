// A strategy as the set of positions that its proof needs: one move of the prover's, all of the other side's.
//
// Each position has a count of the positions of the set that lead to it, so a part can be taken in and dropped again
// and the size of the set stays known. What was dropped keeps its move, which is taken where the position comes again.
//
// With lemmas by images, a position and its mirror image are one: the table has the one with the smaller number.
#pragma once

#include <string>
#include <vector>

#include "book.h"
#include "closure.h"
#include "moves.h"
#include "nodes.h"
#include "plans.h"
#include "search.h"

struct Options {
    uint64_t memory = uint64_t(6) << 30;
    uint64_t lemmas = 10'000'000;
    int format = 1;       // 2: there are lemmas by images
    int look = 8;         // with at most so many empty squares, all winning moves are tried
    int rounds = 4;       // at most so many rounds of better choices
    uint64_t sweeps = 1000;  // at most so many sweeps
    uint64_t seed = 1;    // of what is chosen at random
    uint64_t nodes = 20'000;  // so many nodes may be spent to see whether another move wins
    std::string book;     // a file with moves that are taken where they win
    std::vector<std::string> table;  // files with the values of openings
    uint64_t outline = 0;  // so many nodes may be spent to see which moves to the openings look cheap
    int soon = 0;          // a win within so many moves is looked for first
    std::string start;    // a proof whose moves are the first strategy
    std::string roots, index;  // files: positions that one text is about, and where they stand in it
    std::vector<Game> below;  // what comes from these positions alone is swept and renewed; all where there are none
    bool beside = false;      // or all but that
    uint64_t graph = 0;       // bytes of a graph in which the strategy is made smaller
    uint64_t work = ~uint64_t(0);  // there so many positions are taken in or searched
    uint64_t heat = 0;        // there a part may get larger by so many hundredths of a position, on an average at first
    uint64_t cool = 0;        // and at last
    std::vector<std::string> changes;  // pairs of proofs: where the second has another move, it is taken over
    std::vector<std::string> also;  // proofs whose moves are tried as well
    int starts = 1;       // parts below so many men are taken in by several orders, and the smallest stays; 1 for the
                          // whole of an empty board, 0 for none
    int mirror = 0;       // with at most so many men, the image of a move of the set is taken
    int high = 16;        // with at most so many men, each winning move is taken in for a trial
    uint64_t probe = 300'000;  // a trial ends where it has so many positions
    unsigned reach = 200;  // so many layouts of a plan are tried at a position; 0 for no plans
    uint64_t closure = 2000;  // positions that an answer in the same column may lead to in all; 0 for no such answer
    uint64_t part = 1000;  // parts with so many of the prover's moves are bettered while the first strategy grows
    uint64_t seconds = 1'000'000'000;  // no position is bettered after so many
    int order = 4;        // which moves are tried first; 4 is the better of 1 and 2
    bool covers = false;  // who mustn't lose moves on top of a man of the other side's, where orders 1 to 3 choose
    bool reuses = true;   // positions of the set are taken first
};

// Puts a value back at the end of its scope.
template <class Value>
class Restored {
  public:
    explicit Restored(Value& place) : place_(place), value_(place) {}
    ~Restored() { place_ = value_; }
    Restored(const Restored&) = delete;
    Restored& operator=(const Restored&) = delete;

  private:
    Value& place_;
    Value value_;
};

template <int ROWS>
class Strategy {
  public:
    // The prover shows that the asker of the search wins, or where it is the other side that the asker doesn't.
    Strategy(const Board<ROWS>& board, Search<ROWS>& search, int prover, const Book<ROWS>& book, const Options& options,
             uint64_t bytes)
        : board_(board), search_(search), prover_(prover), wins_(search.asker() == prover), book_(book),
          options_(options), table_(bytes), closure_(board, wins_), plans_(board, options.reach),
          has_plans_(options.reach && prover && !wins_), folds_(options.format == 2),
          lives_(size_t(1) << LEAST_LIVES_BITS) {}

    virtual ~Strategy() = default;

    uint64_t size() const { return live_; }

    bool proves(Position at) const { return (count_of(at.men) & 1) == prover_; }

    // The prover's move at a position of the set, or at the image of one.
    Word move_of(Position at) {
        Position one = standing(at);
        unsigned column = find(one)->move;
        return square_in(at, one.own == at.own && one.men == at.men ? column : unsigned(board_.columns) - 1 - column);
    }

    void prefetch(Position at) const { table_.prefetch(board_.key(standing(at))); }

    // The plan that closes a position of the set, or the image of one; or nothing. It is found again: texts of all
    // would take much memory.
    std::string plan_of(Position at) { return closes(standing(at)) && plans_.surely_finds(at) ? plans_.text() : ""; }

  protected:
    static constexpr uint64_t NO_LIMIT = ~uint64_t(0);  // of nodes, or of positions
    static constexpr int LEAST_LIVES_BITS = 20, MOST_LIVES_BITS = 24;
    static constexpr uint64_t SHORT = 200;  // nodes of a search

    // How positions are taken in and dropped.
    struct Mode {
        int order = 0;        // of the moves
        bool keeps = true;    // moves of before go before the order
        bool stays = true;    // what is dropped was taken in to stay, so its moves are kept
        bool grows = false;   // the first strategy is being taken in, and its parts are bettered
        bool probes = false;  // and there are trials
        bool tries = false;   // this is one
        bool restores = false;  // moves of before go before all
        unsigned noise = 0;   // of 256 moves so many are chosen at random
        uint64_t most = NO_LIMIT;  // no position is taken in where the set has so many
        std::vector<Word>* taken = nullptr;     // where the prover's positions that are taken in are noted
        std::vector<Moved>* dropped = nullptr;  // where the moves of what is dropped are noted
    };

    const Board<ROWS>& board_;
    Search<ROWS>& search_;
    int prover_;
    bool wins_;  // the prover shows that it wins; else that it doesn't lose
    const Book<ROWS>& book_;
    const Options& options_;
    NodeTable table_;
    Closure<ROWS> closure_;
    Plans<ROWS> plans_;
    bool has_plans_;  // a plan shows what the prover has to
    bool folds_;      // a position and its image are one
    uint64_t live_ = 0;
    uint64_t work_ = 0;  // how often a position was taken in
    int lives_bits_ = LEAST_LIVES_BITS;
    std::vector<uint8_t> lives_;  // how many positions of the set have numbers that come here: mostly none
    uint64_t random_ = options_.seed;
    Mode mode_;
    size_t part_ = 0;  // how many moves the largest bettered part of what was just taken in has

    // Is called behind each move that is taken in while the first strategy grows. `start` is where in what was noted
    // the part that came with it begins. False where the strategy is given up.
    virtual bool better_grown(size_t start) = 0;

    // Takes in what follows a position of the prover's, as small as several starts make it.
    virtual bool take_best(Position at) = 0;

    uint64_t random(uint64_t below) {
        random_ += 0x9e3779b97f4a7c15u;
        uint64_t mixed = (random_ ^ random_ >> 30) * 0xbf58476d1ce4e5b9u;
        mixed = (mixed ^ mixed >> 27) * 0x94d049bb133111ebu;
        return (mixed ^ mixed >> 31) % below;
    }

    // The position that the table has for this one: itself or its image.
    Position standing(Position at) const {
        if (!folds_) return at;
        Word key = board_.key(at);
        Word image = board_.mirrored(key);
        return image < key ? board_.position(image) : at;
    }

    Position after(Position at, Word square) const { return standing(board_.after(at, square)); }

    Node* find(Position at) { return table_.find(board_.key(at)); }

    Word square_in(Position at, unsigned column) const { return board_.playable(at.men) & board_.column(int(column)); }

    static unsigned column_of(Word square) { return unsigned(__builtin_ctzll(square)) / Board<ROWS>::HEIGHT; }

    int empty_squares(Position at) const { return count_of(board_.full & ~at.men); }

    Word winning(Position at) const { return board_.playable(at.men) & board_.wins(at.own, at.men); }

    uint8_t& lives_near(Word key) { return lives_[(key * 0x9e3779b97f4a7c15u) >> (64 - lives_bits_)]; }

    // Makes room for the counts of a set that has grown.
    void spread_lives() {
        lives_bits_ = std::min(lives_bits_ + 2, MOST_LIVES_BITS);
        lives_.assign(size_t(1) << lives_bits_, 0);
        for (const Node& node : table_.slots()) {
            if (node.key && node.refs) ++lives_near(node.key - 1);
        }
    }

    bool is_live(Position at) {
        Word key = board_.key(at);
        if (!lives_near(key)) return false;
        Node* node = table_.find(key);
        return node && node->refs;
    }

    // The prover, who has moved to this position, reaches its end there.
    bool holds(Position at, uint64_t most) {
        bool is_lost = search_.reaches(at, most);
        return !is_lost && !search_.is_spent;
    }

    // As `holds`, of the position after a move of the prover's. What is found is noted; what doesn't hold isn't looked
    // at again.
    bool move_holds(Position at, Word square, uint64_t most) {
        unsigned bit = 1u << column_of(square);
        Node& node = table_.add(board_.key(at));
        if ((node.refused | node.found) & bit) return node.found & bit;
        bool does = holds(board_.after(at, square), most);
        if (does) node.found |= bit;
        else node.refused |= bit;
        return does;
    }

    bool is_refused(Position at, Word square) { return table_.add(board_.key(at)).refused >> column_of(square) & 1; }

    // A plan shows at this position, which hasn't ended, what the prover has to.
    bool closes(Position at) {
        if (!has_plans_ || proves(at)) return false;
        Node* node = &table_.add(board_.key(at));
        if (!node->plan) node->plan = plans_.finds(at) ? Node::HAS_PLAN : Node::NO_PLAN;
        return node->plan == Node::HAS_PLAN;
    }

    // The game has ended here as the prover says.
    bool is_right_end(Position at) const { return board_.is_won(at) ? !proves(at) : !wins_; }

    // The positions behind these moves, whose lines of the table are fetched meanwhile.
    int lay_out(Position at, Word moves, Position* next) const {
        int count = 0;
        for (Word rest = moves; rest; rest &= rest - 1) {
            next[count] = after(at, rest & -rest);
            table_.prefetch(board_.key(next[count++]));
        }
        return count;
    }

    // Takes a position in. False, and the set is as before, where it would get too large, or where moves that were
    // given lead to a wrong end.
    bool take(Position at) {
        Node& node = table_.add(board_.key(at));
        if ((++work_ & 0x3ff) == 0) progress.heed();
        if (node.refs) {
            ++node.refs;
            return true;
        }
        bool is_ended = board_.is_ended(at);
        if (live_ >= mode_.most || (is_ended && !is_right_end(at))) return false;
        node.refs = 1;
        ++lives_near(board_.key(at));
        if ((++live_ & 0xffff) == 0) report();
        if (live_ > lives_.size() / 2 && lives_bits_ < MOST_LIVES_BITS) spread_lives();
        if (is_ended || closes(at)) return true;
        bool is_start = mode_.grows && options_.starts && count_of(at.men) / 2 == options_.starts / 2;
        if (proves(at) ? is_start ? take_best(at) : take_one(at) : take_all(at)) return true;
        find(at)->refs = 0;
        --lives_near(board_.key(at));
        --live_;
        return false;
    }

    bool take_one(Position at) {
        Word image = 0;
        Word square = options_.reuses && !mode_.restores ? free_move(at) : 0;
        if (!square) square = image = image_move(at);
        if (!square) square = choose(at);
        size_t start = mode_.taken ? mode_.taken->size() : 0;
        if (!square || !take(after(at, square))) return false;
        find(at)->move = column_of(square);
        if (mode_.taken && !image) mode_.taken->push_back(board_.key(at));
        if (!mode_.grows || better_grown(start)) return true;
        drop(after(at, square));
        return false;
    }

    bool take_all(Position at) {
        Position next[10];
        int count = lay_out(at, board_.playable(at.men), next);
        size_t part = 0;
        for (int n = 0; n < count; ++n) {
            part_ = 0;
            if (take(next[n])) {
                part_ = part = std::max(part, part_);
                continue;
            }
            while (n > 0) drop(next[--n]);
            return false;
        }
        return true;
    }

    void drop(Position at) {
        Node& node = *find(at);
        if (--node.refs) return;
        --lives_near(board_.key(at));
        --live_;
        if (board_.is_ended(at) || closes(at)) return;
        if (proves(at)) {
            if (mode_.stays) node.kept = node.move;
            if (mode_.dropped) mode_.dropped->push_back({node.key - 1, unsigned(node.move)});
            return drop(after(at, square_in(at, node.move)));
        }
        Position next[10];
        int count = lay_out(at, board_.playable(at.men), next);
        for (int n = 0; n < count; ++n) drop(next[n]);
    }

    // How many positions went.
    uint64_t drop_noted(Position at, std::vector<Moved>& moves) {
        uint64_t size = live_;
        Restored before(mode_);
        moves.clear();
        mode_.dropped = &moves;
        drop(at);
        return size - live_;
    }

    // Takes in what was dropped, with the moves that were noted.
    void take_again(Position at, const std::vector<Moved>& moves) {
        keep_noted(moves);
        Restored before(mode_);
        mode_ = Mode();
        mode_.restores = true;
        if (!take(at)) throw Fault("what was dropped can't be taken in again");
    }

    // Room for the positions of these moves and what they lead to: of the other side's there are no more than of the
    // prover's, or one, and of full boards no more than of these.
    void reserve(const std::vector<Moved>& moves) { table_.reserve(3 * moves.size() + 3); }

    // The moves by which what was dropped is taken in again. They are noted apart, since the table may lose what isn't
    // of the set.
    void keep_noted(const std::vector<Moved>& moves) {
        reserve(moves);
        for (const Moved& moved : moves) table_.add(moved.key).kept = moved.column;
    }

    // Of the moves that are seen to win the one that adds least, each taken in by the order alone. 0 where none is seen
    // to win, or each adds too much.
    Word probed(Position at, const Word* squares, int count) {
        uint64_t nodes = count_of(at.men) < 9 ? 3'000'000 : 100'000;
        Word good[10];
        int known = 0;
        for (int n = 0; n < count; ++n) {
            if (!is_refused(at, squares[n]) && holds(board_.after(at, squares[n]), nodes)) good[known++] = squares[n];
        }
        if (known < 2) return known ? good[0] : 0;
        Restored before(mode_);
        mode_.grows = mode_.probes = false;
        mode_.tries = true;
        mode_.taken = nullptr;
        mode_.most = std::min(mode_.most, live_ + options_.probe);
        Word best = least(at, good, known);
        return best ? best : good[0];
    }

    // A move to a position of the set, or 0. Such a position holds.
    Word free_move(Position at) {
        for (Word rest = board_.playable(at.men); rest; rest &= rest - 1) {
            if (is_live(after(at, rest & -rest))) return rest & -rest;
        }
        return 0;
    }

    // Where the first strategy has the position's mirror image: the image of the move there, or 0.
    Word image_move(Position at) {
        if (!mode_.grows || count_of(at.men) > options_.mirror || !search_.mirrors()) return 0;
        Node* node = table_.find(board_.mirrored(board_.key(at)));
        if (!node || !node->refs || node->move == NO_MOVE) return 0;
        return square_in(at, unsigned(board_.columns) - 1 - node->move);
    }

    // A move to a position that a plan closes, or 0.
    Word closing_move(Position at) {
        if (!has_plans_) return 0;
        for (Word rest = board_.safe_moves(at); rest; rest &= rest - 1) {
            Position next = after(at, rest & -rest);
            if (!board_.is_ended(next) && closes(next)) return rest & -rest;
        }
        return 0;
    }

    // The prover's move at a position where it reaches its end; 0 where each would make the set too large.
    Word choose(Position at) {
        if (mode_.noise && random(256) < mode_.noise) {
            if (Word square = any_move(at, 0)) return square;
        }
        const Node& node = *find(at);
        if (mode_.keeps && node.kept != NO_MOVE) return square_in(at, node.kept);
        if (node.chosen(mode_.order) != NO_MOVE) return square_in(at, node.chosen(mode_.order));
        if (Word wins = winning(at)) return wins & -wins;
        if (Word square = closing_move(at)) return square;
        Word square = chosen(at);
        // What is chosen without a probe where there should be one is for the probe alone.
        bool is_rough = mode_.tries && count_of(at.men) <= options_.high;
        if (square && !is_rough) find(at)->choose(mode_.order, column_of(square));
        return square;
    }

    // A move that wins, at random, other than this one; or 0.
    Word any_move(Position at, Word other) {
        Word wins = winning(at);
        for (Word moves = (wins ? wins : board_.safe_moves(at)) & ~other; moves;) {
            Word square = moves;
            for (uint64_t n = random(uint64_t(count_of(moves))); n > 0; --n) square &= square - 1;
            square &= -square;
            if (wins || move_holds(at, square, options_.nodes)) return square;
            moves &= ~square;
        }
        return 0;
    }

    Word chosen(Position at) {
        Word given = book_.find(at);
        if (given && move_holds(at, given, NO_LIMIT)) return given;
        Word squares[10];
        int count = sorted(at, board_.safe_moves(at), squares);
        if (count == 1) return squares[0];
        if (Word square = mode_.order == 2 ? closing(at, squares, count) : 0) return square;
        if (Word square = wins_ && options_.soon ? soonest(at, squares, count) : 0) return square;
        if (empty_squares(at) <= options_.look) return least(at, squares, count);
        if (mode_.probes && count_of(at.men) <= options_.high) {
            if (Word square = probed(at, squares, count)) return square;
        }
        for (int n = 0; n < count; ++n) {
            if (move_holds(at, squares[n], NO_LIMIT)) return squares[n];
        }
        // One that was refused for the nodes that it takes.
        for (int n = 0; n < count; ++n) {
            if (holds(board_.after(at, squares[n]), NO_LIMIT)) return squares[n];
        }
        return 0;
    }

    // A move behind which the prover wins within a few moves, as soon as can be; or 0 where no short search sees that.
    Word soonest(Position at, const Word* squares, int count) {
        for (int moves = 1; moves <= options_.soon; ++moves) {
            for (int n = 0; n < count; ++n) {
                if (search_.loses_within(board_.after(at, squares[n]), moves, SHORT)) return squares[n];
            }
        }
        return 0;
    }

    // The move behind which the closure meets the fewest positions, or 0.
    Word closing(Position at, const Word* squares, int count) {
        Word best = 0;
        size_t most = options_.closure;
        for (int n = 0; n < count; ++n) {
            if (!closure_.reaches(board_.after(at, squares[n]), most) || closure_.size > most) continue;
            best = squares[n];
            most = closure_.size - 1;
        }
        return best;
    }

    // Of the winning moves the one that adds least.
    Word least(Position at, const Word* squares, int count) {
        Restored before(mode_);
        mode_.stays = false;
        Word best = 0;
        for (int n = 0; n < count; ++n) {
            Position next = after(at, squares[n]);
            if (!move_holds(at, squares[n], NO_LIMIT)) continue;
            uint64_t size = live_;
            if (!take(next)) continue;
            best = squares[n];
            uint64_t added = live_ - size;
            drop(next);
            mode_.most = std::min(mode_.most, size + added - 1);
            if (added <= 1) break;
        }
        return best;
    }

    int sorted(Position at, Word moves, Word* squares) {
        int scores[10];
        int count = 0;
        for (; moves; moves &= moves - 1) {
            Word square = moves & -moves;
            int score = score_of(at, square);
            int n = count++;
            for (; n > 0 && scores[n - 1] < score; --n) {
                scores[n] = scores[n - 1];
                squares[n] = squares[n - 1];
            }
            scores[n] = score;
            squares[n] = square;
        }
        return count;
    }

    // How many replies lead to positions that aren't in the set and that the prover doesn't win at once.
    int new_replies(Position at, Word square) {
        Position next = board_.after(at, square);
        Word threats = board_.wins(at.own | square, next.men);
        Word moves = board_.playable(next.men);
        Word forced = moves & threats;
        int count = 0;
        for (Word rest = forced ? forced : moves & ~(threats >> 1); rest; rest &= rest - 1) {
            count += !is_live(after(next, rest & -rest));
        }
        return count;
    }

    int score_of(Position at, Word square) {
        Word own = at.own | square;
        Word men = at.men | square;
        Word wins = board_.wins(own, men);
        int place = __builtin_ctzll(square);
        int row = place % board_.HEIGHT;
        int column = place / board_.HEIGHT;
        int side = std::min(column, board_.columns - 1 - column);
        bool follows = row & 1;
        bool covers = options_.covers && !wins_ && row && (men & ~own) >> (place - 1) & 1;
        switch (mode_.order) {
            case 0: return count_of(wins) * 32 + side;
            case 1: return covers * 100000 + follows * 10000 + count_of(wins) * 3 - new_replies(at, square) * 1000;
            default: return covers * 100000 + follows * 100 + count_of(wins) * 3 - new_replies(at, square) * 1000;
        }
    }

    void report() {
        progress.lemmas = live_;
        progress.bytes = search_.bytes() + table_.bytes();
        say_now(search_.nodes());
    }
};

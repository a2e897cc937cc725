// A strategy as a graph that keeps its edges: each position has the places of those behind it, so a part is taken in
// and dropped without a look at the board.
//
// Three kinds of positions are told apart. At a One the prover is to move and has to choose, at an All the other side
// is to move, and a Leaf is a position where the prover wins at once. Where no position of the set is behind a Leaf, an
// End is, which several may share.
#pragma once

#include <functional>
#include <unordered_map>
#include <vector>

#include "strategy.h"

// A number on a scale of logarithms, with 1024 steps to a doubling. It is never 0.
inline uint16_t scaled(int64_t number) {
    uint64_t value = uint64_t(std::max(number, int64_t(0))) + 4;
    int high = 63 - __builtin_clzll(value);
    return uint16_t(high << 10 | int(((value << 10) >> high) & 1023));
}

template <int ROWS>
class Graph {
  public:
    // The prover shows that it wins, or that it doesn't lose; in that case `closes` says where a plan shows it at once.
    Graph(const Board<ROWS>& board, Search<ROWS>& search, bool wins, bool folds, const Options& options,
          std::function<bool(Position)> closes, uint64_t bytes)
        : board_(board), search_(search), options_(options), wins_(wins), folds_(folds), closes_(closes),
          random_(options.seed) {
        size_t slots = size_t(1) << 12;
        while (slots * 2 * BYTES <= bytes) slots *= 2;
        slots_ = Pages<Slot>(slots);
        slots_.fill(slots, Slot());
        most_ones_ = slots / 5;
        most_alls_ = slots * 2 / 5;
        most_leaves_ = slots / 4;
        ends_ = Pages<End>(slots / 2);
        ends_.fill(slots / 2, End());
        most_ends_ = slots / 8 * 3;
        ones_ = Pages<One>(most_ones_);
        alls_ = Pages<All>(most_alls_);
        leaves_ = Pages<Leaf>(most_leaves_);
        links_ = Pages<Link>(most_leaves_);
    }

    uint64_t size() const { return uint64_t(live_); }

    // No position can be added.
    bool is_full() const {
        return used_ones_ + SPARE > most_ones_ || used_alls_ + SPARE > most_alls_ ||
               used_leaves_ + SPARE > most_leaves_ || used_links_ + SPARE > most_leaves_ ||
               used_ends_ + SPARE > most_ends_;
    }

    // Takes a strategy in by its moves. At the root the prover is to move, and doesn't win at once, or it isn't.
    void start(Position root, bool proves, const std::vector<Moved>& moves) {
        root_key_ = key_of(root);
        proves_ = proves;
        for (const Moved& moved : moves) {
            Position at = board_.position(moved.key);
            if (winning(at)) continue;
            unsigned index = index_of(at, board_.playable(at.men) & board_.column(int(moved.column)));
            One& one = ones_[one_of(key_of(at))];
            if (index == NONE) continue;
            one.kept = index & 15;
            alls_[one.next[index]].status = HOLDS;
        }
        bool is_taken = proves ? take_one(one_of(root_key_)) : take_all(all_of(root_key_));
        if (!is_taken) overflows();
        for (size_t n = 0; n < used_ones_; ++n) {
            if (ones_[n].refs) search_.know(board_.position(ones_[n].key), true);
        }
        for (size_t n = 0; n < used_alls_; ++n) {
            if (alls_[n].refs) search_.know(board_.position(alls_[n].key), false);
        }
    }

    // Notes the moves of another strategy, in place of those of the one before. They needn't hold.
    void oppose(const std::vector<Moved>& moves) {
        for (size_t n = 0; n < used_ones_; ++n) ones_[n].other = NONE;
        for (const Moved& moved : moves) {
            Position at = board_.position(moved.key);
            if (is_full()) return;
            if (board_.is_ended(at) || winning(at)) continue;
            One& one = ones_[one_of(key_of(at))];
            unsigned index = index_of(at, board_.playable(at.men) & board_.column(int(moved.column)));
            one.other = index & 15;
            if (one.kept == NONE) one.kept = one.other;
        }
    }

    // The moves of the set.
    std::vector<Moved> moves() {
        std::vector<Moved> moves;
        for (size_t n = 0; n < used_ones_; ++n) {
            const One& one = ones_[n];
            if (!one.refs) continue;
            Position at = board_.position(one.key);
            Word rest = board_.playable(at.men);
            while (key_of(board_.after(at, rest & -rest)) != alls_[one.next[one.move]].key) rest &= rest - 1;
            moves.push_back({one.key, column_of(rest)});
        }
        add_leaves(moves);
        return moves;
    }

  protected:
    static constexpr int WIDTH = std::min(10, 63 / Board<ROWS>::HEIGHT);
    static constexpr uint32_t LEAF = uint32_t(1) << 31;
    static constexpr unsigned NONE = 15;
    static constexpr unsigned UNKNOWN = 0, HOLDS = 1, REFUSED_SOON = 2, REFUSED = 3;
    static constexpr uint64_t FEW_NODES = 600;
    static constexpr uint64_t SOON_NODES = 200;
    static constexpr int64_t NO_LIMIT = int64_t(1) << 40;

    struct One {
        Word key;
        uint32_t next[WIDTH];  // places of Alls, those that seem best on the board first
        uint8_t refs;          // how many positions of the set lead here
        uint8_t move : 4, kept : 4;  // the present one, and that when it was last dropped
        uint8_t count : 4, other : 4;  // the move of another strategy
        bool is_laid_out, is_marked;
    };

    struct All {
        Word key;
        uint32_t next[WIDTH];  // places of Ones, or of Leaves with LEAF
        uint8_t refs;
        uint8_t count : 4, status : 2, is_laid_out : 1;
        uint16_t cost;  // how many positions came with it lately, scaled; 0 where that isn't known
        uint32_t link;  // to the leaves that may lead here
    };

    struct Leaf {
        Word key;
        uint8_t refs;
        uint8_t supports;  // how many positions of the set it may lead to; at least one for the end of a full board
        uint8_t end;       // which of the ends it has where it needs one
        uint32_t ends[2];  // places, the same one where there is one alone
    };

    struct End {
        Word key = 0;      // one more than the number of the position
        uint8_t refs = 0;  // how many leaves of the set have it
    };

    struct Link {
        uint32_t leaf;
        uint32_t next;
    };

    // What was dropped: a One and its move.
    struct Note {
        uint32_t one;
        uint8_t move;
    };

    // How positions are taken in and dropped.
    struct Manner {
        int64_t most = NO_LIMIT;  // positions of the set, about
        unsigned noise = 0;       // of 256 moves so many are chosen by chance
        bool keeps = true;        // moves of before go before those that seem cheap
        bool heeds = false;       // moves of another strategy go before those of before
        bool stays = true;        // what is dropped was taken in to stay, so its moves are kept
        std::vector<uint32_t>* taken = nullptr;  // where the Ones that are taken in are noted
        std::vector<Note>* dropped = nullptr;    // where those that are dropped are
    };

    // What is known of a position next to the set.
    struct Known {
        Word key;
        unsigned status;
        uint16_t cost;
    };

    const Board<ROWS>& board_;
    Search<ROWS>& search_;
    const Options& options_;
    bool wins_;
    bool folds_;
    std::function<bool(Position)> closes_;
    Pages<One> ones_;
    Pages<All> alls_;
    Pages<Leaf> leaves_;
    Pages<End> ends_;
    size_t used_ones_ = 0, used_alls_ = 0, used_leaves_ = 0, used_ends_ = 0;
    Word root_key_ = 0;
    bool proves_ = false;
    std::vector<bool> others_;  // where parts are named, the Ones that come from elsewhere too
    int64_t live_ = 0;   // positions of the set
    uint64_t work_ = 0;  // how often a position was taken in
    Manner manner_;

    uint64_t random(uint64_t below) {
        random_ += 0x9e3779b97f4a7c15u;
        uint64_t mixed = (random_ ^ random_ >> 30) * 0xbf58476d1ce4e5b9u;
        mixed = (mixed ^ mixed >> 27) * 0x94d049bb133111ebu;
        return (mixed ^ mixed >> 31) % below;
    }

    // The Ones of the set; where parts are named, only those that come from nowhere else, or only the others.
    std::vector<uint32_t> part() {
        if (!options_.below.empty()) others_ = ones_beside();
        std::vector<uint32_t> ones;
        for (size_t n = 0; n < used_ones_; ++n) {
            if (ones_[n].refs && is_in_part(uint32_t(n))) ones.push_back(uint32_t(n));
        }
        return ones;
    }

    // Which Ones come from the root by a way that meets none of the positions that are named.
    std::vector<bool> ones_beside() {
        std::vector<Word> named;
        for (const Game& game : options_.below) named.push_back(key_of(position_of(game, board_)));
        auto is_named = [&](Word key) { return std::find(named.begin(), named.end(), key) != named.end(); };
        std::vector<bool> ones(used_ones_ + 1), alls(used_alls_ + 1);
        std::vector<uint32_t> open;  // Alls
        auto note = [&](uint32_t place) {
            if (ones[place] || is_named(ones_[place].key)) return;
            ones[place] = true;
            open.push_back(ones_[place].next[ones_[place].move]);
        };
        if (proves_) note(one_of(root_key_));
        else open.push_back(all_of(root_key_));
        while (!open.empty()) {
            uint32_t place = open.back();
            open.pop_back();
            const All& all = alls_[place];
            if (alls[place] || is_named(all.key)) continue;
            alls[place] = true;
            for (unsigned n = 0; n < all.count; ++n) {
                if (!(all.next[n] & LEAF)) note(all.next[n]);
            }
        }
        return ones;
    }

    // `part` names it, or would if it were of the set, as the parts were when it was called last.
    bool is_in_part(uint32_t one) const {
        return others_.empty() || (one < others_.size() && others_[one] == options_.beside);
    }

    // The Ones of the set whose moves lead to this position.
    std::vector<uint32_t> users_of(uint32_t place) {
        Position at = board_.position(alls_[place].key);
        std::vector<uint32_t> users;
        Position befores[WIDTH];
        int count = 0;
        for (Word rest = tops_of_prover(at); rest; rest &= rest - 1) {
            befores[count] = without(at, rest & -rest);
            __builtin_prefetch(&slots_[slot_place(key_of(befores[count++]))]);
        }
        for (int n = 0; n < count; ++n) {
            Position before = befores[n];
            const Slot& slot = slot_of(key_of(before));
            if (!slot.key || winning(before)) continue;
            const One& one = ones_[slot.place];
            bool is_user = one.refs && one.next[one.move] == place;
            if (is_user && std::find(users.begin(), users.end(), slot.place) == users.end()) users.push_back(slot.place);
        }
        return users;
    }

    int men_of(uint32_t one) const { return count_of(board_.position(ones_[one].key).men); }

    // Leaves nothing but the set and what is known next to it. False, and all stays, where that would be too much.
    bool shed() {
        std::vector<Known> known;
        for (size_t n = 0; n < used_ones_; ++n) {
            const One& one = ones_[n];
            for (unsigned i = 0; one.refs && i < one.count; ++i) {
                const All& all = alls_[one.next[i]];
                known.push_back({all.key, all.status, all.cost});
            }
        }
        if (known.size() * 2 > most_alls_) return false;
        std::vector<Moved> moves = this->moves();
        slots_.fill(slots_.size(), Slot());
        ends_.fill(ends_.size(), End());
        used_ones_ = used_alls_ = used_leaves_ = used_ends_ = 0;
        used_links_ = 1;
        live_ = 0;
        for (const Known& one : known) {
            All& all = alls_[all_of(one.key)];
            all.status = one.status & 3;
            all.cost = one.cost;
        }
        start(board_.position(root_key_), proves_, moves);
        return true;
    }

    // The prover, who has moved to this position, reaches its end there, as far as so many nodes show it.
    bool holds(uint32_t place, uint64_t nodes) {
        All& all = alls_[place];
        if (all.status == HOLDS) return true;
        if (all.status == REFUSED || (all.status == REFUSED_SOON && nodes < options_.nodes)) return false;
        bool is_lost = search_.reaches(board_.position(all.key), nodes);
        if (!is_lost && !search_.is_spent) all.status = HOLDS;
        else all.status = search_.is_spent && nodes < options_.nodes ? REFUSED_SOON : REFUSED;
        return all.status == HOLDS;
    }

    // Takes a position in. False, and the set is as before, where it would get too large.
    bool take_one(uint32_t place) {
        One& one = ones_[place];
        if (one.refs) {
            ++one.refs;
            return true;
        }
        if (live_ >= manner_.most || !lay_out_one(place)) return false;
        unsigned index = chosen(one);
        if (index == NONE) return false;
        ++live_;
        one.refs = 1;
        if (!take_all(one.next[index])) {
            one.refs = 0;
            --live_;
            return false;
        }
        one.move = index & 15;
        if (manner_.taken) manner_.taken->push_back(place);
        return true;
    }

    bool take_all(uint32_t place) {
        All& all = alls_[place];
        if (all.refs) {
            ++all.refs;
            return true;
        }
        if (live_ >= manner_.most || !lay_out_all(place)) return false;
        ++work_;
        fetch(all);
        int64_t before = live_++;
        all.refs = 1;
        for (uint32_t link = all.link; link; link = links_[link].next) support(leaves_[links_[link].leaf]);
        take_leaves(all);
        unsigned n = 0;
        while (live_ <= manner_.most && n < all.count && (all.next[n] & LEAF || take_one(all.next[n]))) ++n;
        if (n == all.count) {
            learn(all, scaled(live_ - before));
            return true;
        }
        all.cost = std::max(all.cost, scaled(manner_.most - before));
        while (n > 0) {
            if (!(all.next[--n] & LEAF)) drop_one(all.next[n]);
        }
        all.refs = 0;
        leave(all);
        return false;
    }

    void drop_one(uint32_t place) {
        One& one = ones_[place];
        if (--one.refs) return;
        --live_;
        if (manner_.stays) one.kept = one.move;
        if (manner_.dropped) manner_.dropped->push_back({place, one.move});
        drop_all(one.next[one.move]);
    }

    void drop_all(uint32_t place) {
        All& all = alls_[place];
        if (--all.refs) return;
        fetch(all);
        leave(all);
        for (unsigned n = 0; n < all.count; ++n) {
            if (!(all.next[n] & LEAF)) drop_one(all.next[n]);
        }
    }

    // How many positions went.
    int64_t drop_noted(uint32_t all, std::vector<Note>& notes) {
        int64_t size = live_;
        Restored before(manner_);
        notes.clear();
        manner_.dropped = &notes;
        drop_all(all);
        return size - live_;
    }

    // Has leaves share ends where two are behind them.
    void share_ends() {
        for (size_t n = 0; n < used_leaves_; ++n) {
            Leaf& leaf = leaves_[n];
            if (!leaf.refs || leaf.supports || ends_[leaf.ends[leaf.end]].refs > 1) continue;
            drop_end(leaf);
            take_end(leaf);
        }
    }

    // Takes in what was dropped, with the moves that were noted, or less than that.
    void take_again(uint32_t all, const std::vector<Note>& notes) {
        for (const Note& note : notes) ones_[note.one].kept = note.move & 15;
        Restored before(manner_);
        manner_ = Manner();
        if (!take_all(all)) throw Fault("what was dropped can't be taken in again");
    }

    // A move to a position of the set, but for this one, or NONE. Such a position holds.
    unsigned free_move(const One& one, unsigned other = NONE) const {
        for (unsigned n = 0; n < one.count; ++n) __builtin_prefetch(&alls_[one.next[n]].refs);
        for (unsigned n = 0; n < one.count; ++n) {
            if (n != other && alls_[one.next[n]].refs) return n;
        }
        return NONE;
    }

    // A move that holds, at random, other than this one; mostly one that seems to cost little. NONE where none is
    // found.
    unsigned any_move(const One& one, unsigned other, uint64_t nodes) {
        uint16_t least = least_cost(one, other);
        uint64_t weights[WIDTH];
        uint64_t sum = 0;
        for (unsigned n = 0; n < one.count; ++n) {
            const All& all = alls_[one.next[n]];
            bool is_out = n == other || all.status >= REFUSED_SOON;
            // By twice the cost it gets an eighth of the weight.
            unsigned steps = all.cost > least ? unsigned(all.cost - least) * 3 : 0;
            weights[n] = is_out ? 0 : 1 + (uint64_t(2048 - (steps & 1023)) << 20 >> std::min(steps >> 10, 40u));
            sum += weights[n];
        }
        while (sum) {
            uint64_t drawn = random(sum);
            unsigned n = 0;
            for (; drawn >= weights[n]; ++n) drawn -= weights[n];
            if (holds(one.next[n], nodes)) return n;
            sum -= weights[n];
            weights[n] = 0;
        }
        return NONE;
    }

  private:
    static constexpr uint64_t BYTES = 66;  // for a slot, and a fifth of a One, and so on
    static constexpr size_t SPARE = 1000;

    struct Slot {
        Word key = 0;  // one more than the number of the position
        uint32_t place = 0;
    };

    uint64_t random_;
    Pages<Slot> slots_;
    Pages<Link> links_;
    size_t most_ones_, most_alls_, most_leaves_, most_ends_;
    size_t used_links_ = 1;

    [[noreturn]] static void overflows() { throw Fault("the strategy needs more memory than its graph has"); }

    Word key_of(Position at) const {
        Word key = board_.key(at);
        return folds_ ? std::min(key, board_.mirrored(key)) : key;
    }

    Word winning(Position at) const { return board_.playable(at.men) & board_.wins(at.own, at.men); }

    static unsigned column_of(Word squares) { return unsigned(__builtin_ctzll(squares)) / Board<ROWS>::HEIGHT; }

    size_t slot_place(Word key) const {
        return (key * 0x9e3779b97f4a7c15u) >> (64 - __builtin_ctzll(slots_.size()));
    }

    // The slot of a position, which is empty where it isn't there.
    Slot& slot_of(Word key) {
        size_t at = slot_place(key);
        while (slots_[at].key && slots_[at].key != key + 1) at = (at + 1) & (slots_.size() - 1);
        return slots_[at];
    }

    uint32_t one_of(Word key) {
        Slot& slot = slot_of(key);
        if (slot.key) return slot.place;
        if (used_ones_ == most_ones_) overflows();
        slot = {key + 1, uint32_t(used_ones_)};
        One& one = ones_[used_ones_];
        one = One();
        one.key = key;
        one.move = one.kept = one.other = NONE;
        return uint32_t(used_ones_++);
    }

    uint32_t all_of(Word key) {
        Slot& slot = slot_of(key);
        if (slot.key) return slot.place;
        if (used_alls_ == most_alls_) overflows();
        slot = {key + 1, uint32_t(used_alls_)};
        alls_[used_alls_] = All();
        alls_[used_alls_].key = key;
        return uint32_t(used_alls_++);
    }

    uint32_t leaf_of(Word key, Position at) {
        Slot& slot = slot_of(key);
        if (slot.key) return slot.place | LEAF;
        if (used_leaves_ == most_leaves_) overflows();
        slot = {key + 1, uint32_t(used_leaves_)};
        uint32_t leaf = uint32_t(used_leaves_++);
        leaves_[leaf] = {key, 0, uint8_t(at.men == board_.full), 0, {0, 0}};
        if (at.men != board_.full) find_ends(leaves_[leaf], at);
        for (Word rest = board_.playable(at.men) & ~winning(at); rest; rest &= rest - 1) {
            const Slot& next = slot_of(key_of(board_.after(at, rest & -rest)));
            if (next.key && alls_[next.place].is_laid_out) tie(next.place, leaf);
        }
        return leaf | LEAF;
    }

    // The ends of a leaf, two at most.
    void find_ends(Leaf& leaf, Position at) {
        Word wins = winning(at);
        leaf.ends[0] = leaf.ends[1] = end_of(key_of(board_.after(at, wins & -wins)));
        if (wins &= wins - 1) leaf.ends[1] = end_of(key_of(board_.after(at, wins & -wins)));
    }

    uint32_t end_of(Word key) {
        size_t at = slot_place(key) / 2;
        while (ends_[at].key && ends_[at].key != key + 1) at = (at + 1) & (ends_.size() - 1);
        if (!ends_[at].key) {
            if (++used_ends_ > most_ends_) overflows();
            ends_[at].key = key + 1;
        }
        return uint32_t(at);
    }

    void tie(uint32_t place, uint32_t leaf) {
        if (used_links_ == most_leaves_) return;
        All& all = alls_[place];
        links_[used_links_] = {leaf, all.link};
        all.link = uint32_t(used_links_++);
        if (all.refs) support(leaves_[leaf]);
    }

    // The prover's men on top of a column, where the other side is to move. One of them came last.
    Word tops_of_prover(Position at) const {
        Word top_row = board_.bottom << (ROWS - 1);
        Word tops = (board_.playable(at.men) | (at.men & top_row) << 1) >> 1;
        return tops & (at.own ^ at.men);
    }

    // The position before this man came.
    static Position without(Position at, Word square) {
        return {(at.own ^ at.men) & ~square, at.men & ~square};
    }

    // Ties a position to the leaves that may lead to it.
    void tie_leaves(uint32_t place, Position at) {
        for (Word rest = tops_of_prover(at); rest; rest &= rest - 1) {
            Position before = without(at, rest & -rest);
            if (!winning(before)) continue;
            const Slot& slot = slot_of(key_of(before));
            if (slot.key) tie(place, slot.place);
        }
    }

    void support(Leaf& leaf) {
        if (!leaf.supports++ && leaf.refs) drop_end(leaf);
    }

    void desert(Leaf& leaf) {
        if (!--leaf.supports && leaf.refs) take_end(leaf);
    }

    // One of the set where there is one, and that of before where neither or both are.
    void take_end(Leaf& leaf) {
        if (!ends_[leaf.ends[leaf.end]].refs && ends_[leaf.ends[leaf.end ^ 1]].refs) leaf.end ^= 1;
        if (!ends_[leaf.ends[leaf.end]].refs++) ++live_;
    }

    void drop_end(const Leaf& leaf) {
        if (!--ends_[leaf.ends[leaf.end]].refs) --live_;
    }

    void take_leaves(const All& all) {
        for (unsigned n = 0; n < all.count; ++n) {
            if (!(all.next[n] & LEAF)) continue;
            Leaf& leaf = leaves_[all.next[n] & ~LEAF];
            if (leaf.refs++) continue;
            ++live_;
            if (!leaf.supports) take_end(leaf);
        }
    }

    // Has the memory bring what is behind a position.
    void fetch(const All& all) const {
        for (unsigned n = 0; n < all.count; ++n) {
            if (all.next[n] & LEAF) __builtin_prefetch(&leaves_[all.next[n] & ~LEAF]);
            else __builtin_prefetch(&ones_[all.next[n]]);
        }
        if (all.link) __builtin_prefetch(&links_[all.link]);
    }

    // What goes with a position but for what is behind its Ones.
    void leave(const All& all) {
        --live_;
        for (unsigned n = 0; n < all.count; ++n) {
            if (!(all.next[n] & LEAF)) continue;
            Leaf& leaf = leaves_[all.next[n] & ~LEAF];
            if (--leaf.refs) continue;
            --live_;
            if (!leaf.supports) drop_end(leaf);
        }
        for (uint32_t link = all.link; link; link = links_[link].next) desert(leaves_[links_[link].leaf]);
    }

    // False where there is no room, or where the prover doesn't reach its end.
    bool lay_out_one(uint32_t place) {
        if (ones_[place].is_laid_out) return true;
        if (is_full()) return false;
        One& one = ones_[place];
        Position at = board_.position(one.key);
        Word squares[WIDTH];
        int count = sorted(at, squares);
        Word keys[WIDTH];
        for (int n = 0; n < count; ++n) {
            keys[n] = key_of(board_.after(at, squares[n]));
            __builtin_prefetch(&slots_[slot_place(keys[n])]);
        }
        for (int n = 0; n < count; ++n) {
            // Two moves may lead to a position and its image.
            if (std::find(keys, keys + n, keys[n]) == keys + n) one.next[one.count++] = all_of(keys[n]);
        }
        one.is_laid_out = true;
        return true;
    }

    bool lay_out_all(uint32_t place) {
        if (alls_[place].is_laid_out) return true;
        if (is_full()) return false;
        All& all = alls_[place];
        Position at = board_.position(all.key);
        if (wins_ && at.men == board_.full && !board_.is_won(at)) return false;
        all.is_laid_out = true;
        tie_leaves(place, at);
        if (board_.is_ended(at) || (!wins_ && closes_(at))) return true;
        Position next[WIDTH];
        unsigned count = 0;
        for (Word rest = board_.playable(at.men); rest; rest &= rest - 1) {
            next[count] = board_.after(at, rest & -rest);
            __builtin_prefetch(&slots_[slot_place(key_of(next[count++]))]);
        }
        for (unsigned n = 0; n < count; ++n) {
            Word key = key_of(next[n]);
            bool is_leaf = next[n].men == board_.full || winning(next[n]);
            all.next[n] = is_leaf ? leaf_of(key, next[n]) : one_of(key);
        }
        all.count = count & 15;
        return true;
    }

    // The moves that don't lose at once, the best first.
    int sorted(Position at, Word* squares) const {
        int scores[WIDTH];
        int count = 0;
        for (Word rest = board_.safe_moves(at); rest; rest &= rest - 1) {
            Word square = rest & -rest;
            int score = score_of(at, square);
            int n = count++;
            for (; n > 0 && scores[n - 1] < score; --n) {
                scores[n] = scores[n - 1];
                squares[n] = squares[n - 1];
            }
            scores[n] = score;
            squares[n] = square;
        }
        return count;
    }

    // As order 3 of `Strategy`, but that what the set has isn't looked at.
    int score_of(Position at, Word square) const {
        Position next = board_.after(at, square);
        Word threats = board_.wins(at.own | square, next.men);
        Word moves = board_.playable(next.men);
        Word forced = moves & threats;
        int replies = count_of(forced ? forced : moves & ~(threats >> 1));
        int row = __builtin_ctzll(square) % board_.HEIGHT;
        return (row & 1) * 100 + count_of(threats) * 3 - replies * 1000;
    }

    static void learn(All& all, uint16_t cost) {
        if (!all.cost || cost < all.cost) all.cost = cost;
        else all.cost = uint16_t(all.cost + (cost - all.cost) / 8);
    }

    uint16_t least_cost(const One& one, unsigned other) const {
        uint16_t least = 65535;
        for (unsigned n = 0; n < one.count; ++n) {
            const All& all = alls_[one.next[n]];
            if (n != other && all.status == HOLDS && all.cost) least = std::min(least, all.cost);
        }
        return least;
    }

    unsigned chosen(const One& one) {
        if (unsigned index = free_move(one); index != NONE) return index;
        if (one.count == 1) return holds(one.next[0], ~uint64_t(0)) ? 0 : NONE;
        if (manner_.noise && random(256) < manner_.noise) {
            if (unsigned index = any_move(one, NONE, FEW_NODES); index != NONE) return index;
        }
        if (manner_.heeds && one.other != NONE) return one.other;
        return manner_.keeps && one.kept != NONE ? one.kept : cheapest(one);
    }

    // The move that holds with the least cost; where none is known, the first that holds.
    unsigned cheapest(const One& one) {
        uint16_t least = least_cost(one, NONE);
        for (unsigned n = 0; n < one.count; ++n) {
            if (alls_[one.next[n]].status == HOLDS && alls_[one.next[n]].cost == least) return n;
        }
        if (unsigned index = wins_ ? soonest(one) : NONE; index != NONE) return index;
        for (uint64_t nodes : {FEW_NODES, options_.nodes, ~uint64_t(0)}) {
            for (unsigned n = 0; n < one.count; ++n) {
                if (nodes > options_.nodes) alls_[one.next[n]].status = UNKNOWN;
                if (holds(one.next[n], nodes)) return n;
            }
        }
        return NONE;
    }

    // A move behind which the prover wins within a few moves, as soon as can be; or NONE where no short search sees that.
    unsigned soonest(const One& one) {
        for (int moves = 1; moves <= options_.soon; ++moves) {
            for (unsigned n = 0; n < one.count; ++n) {
                All& all = alls_[one.next[n]];
                if (!search_.loses_within(board_.position(all.key), moves, SOON_NODES)) continue;
                all.status = HOLDS;
                return n;
            }
        }
        return NONE;
    }

    // The number of a move, or NONE where it isn't one that may hold.
    unsigned index_of(Position at, Word square) {
        uint32_t place = one_of(key_of(at));
        Word key = key_of(board_.after(at, square));
        if (!lay_out_one(place)) overflows();
        const One& one = ones_[place];
        for (unsigned n = 0; n < one.count; ++n) {
            if (alls_[one.next[n]].key == key) return n;
        }
        return NONE;
    }

    // The moves at the leaves: those to a position of the set; where there is none, to an end to which the most lead.
    void add_leaves(std::vector<Moved>& moves) {
        static constexpr uint32_t CHOSEN = 1 << 30;
        std::unordered_map<Word, uint32_t> ends;
        std::vector<Position> bare;
        for (size_t n = 0; n < used_leaves_; ++n) {
            Position at = board_.position(leaves_[n].key);
            if (!leaves_[n].refs || at.men == board_.full) continue;
            if (Word square = supported(at)) {
                moves.push_back({leaves_[n].key, column_of(square)});
                continue;
            }
            bare.push_back(at);
            for (Word rest = winning(at); rest; rest &= rest - 1) ++ends[key_of(board_.after(at, rest & -rest))];
        }
        for (Position at : bare) {
            Word best = 0;
            uint32_t most = 0;
            for (Word rest = winning(at); rest; rest &= rest - 1) {
                uint32_t count = ends[key_of(board_.after(at, rest & -rest))];
                if (count <= most) continue;
                most = count;
                best = rest & -rest;
            }
            ends[key_of(board_.after(at, best))] |= CHOSEN;
            moves.push_back({board_.key(at), column_of(best)});
        }
    }

    // A move at a leaf to a position of the set, or 0.
    Word supported(Position at) {
        for (Word rest = board_.playable(at.men) & ~winning(at); rest; rest &= rest - 1) {
            const Slot& slot = slot_of(key_of(board_.after(at, rest & -rest)));
            if (slot.key && alls_[slot.place].refs) return rest & -rest;
        }
        return 0;
    }
};

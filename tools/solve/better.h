// The strategy that is written: how it is taken in first, and how it is made smaller.
#pragma once

#include <cmath>
#include <string>
#include <unordered_map>
#include <vector>

#include "outline.h"
#include "renew.h"

template <int ROWS>
class Bettered : public Strategy<ROWS> {
  public:
    using Strategy<ROWS>::Strategy;

    // The first strategy, by orders.
    void build(Position root) {
        add(root);
        if (options_.order == 4 && !progress.is_late(options_.seconds)) {
            std::vector<Moved> moves;
            uint64_t size = drop_noted(root_, moves);
            bool is_smaller = grow(1, size);
            if (!is_smaller) take_again(root_, moves);
        }
        report();
    }

    // The first strategy of one position more.
    void add(Position root) {
        root_ = standing(root);
        if (options_.outline && wins_) outline();
        if (grow(first_order(), NO_LIMIT)) return;
        throw Fault("no strategy was found: a table of openings is wrong");
    }

    // Leaves out the one that was added last.
    void take_back() { drop(root_); }

    // Moves that are taken when a position comes again.
    void keep(const std::vector<Moved>& moves) {
        reserve(moves);
        for (const Moved& moved : moves) {
            auto [node, column] = given(moved);
            node->kept = column;
        }
    }

    // As `keep`, of the moves of a proof as far as they aren't those of another.
    void keep_changed(const std::vector<Moved>& old, const std::vector<Moved>& moves) {
        std::unordered_map<Word, unsigned> before;
        for (const Moved& moved : old) {
            auto [node, column] = given(moved);
            before[node->key] = column;
        }
        reserve(moves);
        for (const Moved& moved : moves) {
            auto [node, column] = given(moved);
            auto known = before.find(node->key);
            if (known == before.end() || known->second != column) node->kept = column;
        }
    }

    // The first strategy, by the moves that were kept.
    void start(Position root) {
        root_ = standing(root);
        if (!take(root_)) throw Fault("the moves of " + options_.start + " don't lead to the end that they should");
        report();
    }

    // Takes what the graph of the strategy comes to when it is made smaller.
    void better_in_graph() {
        std::vector<Moved> moves;
        for (const std::vector<Word>& keys : prover_keys()) {
            for (Word key : keys) moves.push_back({key, unsigned(table_.find(key)->move)});
        }
        if (moves.empty() || (proves(root_) && winning(root_))) return;
        auto ends = [this](Position at) { return closes(at); };
        Renewed<ROWS> graph(board_, search_, wins_, folds_, options_, ends, options_.graph);
        graph.start(root_, proves(root_), moves);
        for (const std::vector<Moved>* others : others_) graph.cross(*others);
        graph.better();
        moves = graph.moves();
        drop(root_);
        keep(moves);
        if (!take(root_)) throw Fault("what was dropped can't be taken in again");
        report();
    }

    // Another strategy, whose moves are what an order chooses from here on, where it has chosen none. A graph takes
    // parts of it. It has to stay.
    void offer_strategy(const std::vector<Moved>& moves, int order) {
        offer(moves, order);
        others_.push_back(&moves);
    }

    // Moves that an order chooses from here on, where it has chosen none.
    void offer(const std::vector<Moved>& moves, int order) {
        for (const Moved& moved : moves) {
            auto [node, column] = given(moved);
            if (node->chosen(order) == NO_MOVE) node->choose(order, column);
        }
    }

    // Tries other moves at each position of the prover's, from the end to the root, and below them this order of moves;
    // or the moves of before, where `keeps`.
    void round(int order, bool keeps) {
        Restored before(mode_);
        mode_.order = order;
        mode_.keeps = keeps;
        for (const std::vector<Word>& keys : prover_keys()) {
            for (Word key : keys) {
                if (is_late()) return;
                improve(key);
            }
        }
    }

    // Takes other moves at all positions of the prover's.
    void sweep() {
        std::vector<Word> keys;
        for (const std::vector<Word>& some : part_keys()) keys.insert(keys.end(), some.begin(), some.end());
        vary_all(keys);
    }

    // Renews parts, each below a random position with a random number of men: mostly one with which much was gained for
    // the work. It ends when so many positions were taken in.
    void renew(uint64_t most) {
        std::vector<std::vector<Word>> keys = part_keys();
        for (uint64_t end = work_ + most; work_ < end && !is_late(); ++work_) {
            size_t place = random_place(keys);
            if (place == keys.size()) return;
            const std::vector<Word>& some = keys[place];
            uint64_t size = live_, work = work_;
            renew_part(some[random(some.size())]);
            gains_[place] = gains_[place] * KEPT + double(size - live_);
            works_[place] = works_[place] * KEPT + double(work_ - work);
        }
    }

  private:
    using Base = Strategy<ROWS>;
    using typename Base::Mode;
    using Base::NO_LIMIT;
    using Base::after;
    using Base::any_move;
    using Base::board_;
    using Base::choose;
    using Base::closes;
    using Base::column_of;
    using Base::drop;
    using Base::drop_noted;
    using Base::find;
    using Base::folds_;
    using Base::free_move;
    using Base::is_live;
    using Base::keep_noted;
    using Base::live_;
    using Base::mode_;
    using Base::move_holds;
    using Base::options_;
    using Base::part_;
    using Base::prover_;
    using Base::proves;
    using Base::random;
    using Base::report;
    using Base::reserve;
    using Base::search_;
    using Base::square_in;
    using Base::standing;
    using Base::table_;
    using Base::take;
    using Base::take_again;
    using Base::take_one;
    using Base::winning;
    using Base::wins_;
    using Base::work_;

    static constexpr int GAMES = 40;                // by which a position is weighed
    static constexpr uint64_t MANY = 1'000'000;    // positions that another first strategy may have in any case
    static constexpr size_t MOST_EMPTY = 32;       // squares above a part that is renewed
    static constexpr uint64_t SMALLEST = 20;       // part that is renewed
    static constexpr uint64_t LARGE = 200;
    static constexpr uint64_t LARGEST = 60'000;

    static constexpr double KEPT = 0.998;  // of what was gained before

    Position root_ = {0, 0};
    std::vector<const std::vector<Moved>*> others_;  // other strategies
    double gains_[64] = {};  // by renewals, and the work that they took, by the number of men
    double works_[64] = {};
    uint64_t calls_ = 0;
    bool late_ = false;
    bool is_growing_ = false;  // the first strategy is being taken in
    bool is_within_ = false;  // a part of what is being renewed is

    // The time for better choices is over. It doesn't end while the first strategy grows, which would get much larger
    // without them, but where another one is there already. The clock is looked at now and then.
    bool is_late() {
        if (++calls_ % 1024 == 0) {
            report();
            late_ = progress.is_late(options_.seconds);
        }
        return late_ && (!is_growing_ || mode_.most != NO_LIMIT);
    }

    // The entry of a position, and the column of its move there.
    std::pair<Node*, unsigned> given(const Moved& moved) {
        Position at = board_.position(moved.key);
        Word key = board_.key(standing(at));
        return {&table_.add(key), key == moved.key ? moved.column : unsigned(board_.columns) - 1 - moved.column};
    }

    // Has the orders choose the moves that look cheapest while few men stand.
    void outline() {
        Restored before(mode_);
        mode_.order = first_order();
        mode_.keeps = false;
        auto ends = [this](Position at) { return closes(at); };
        auto weighs = [this](Position at) { return weight_of(at); };
        Outline<ROWS> outline(board_, search_, prover_, folds_, ends, weighs);
        std::vector<Moved> moves = outline.moves(root_, options_.outline);
        for (int order = 0; order < 4; ++order) offer(moves, order);
        report();
    }

    int first_order() const { return options_.order < 4 ? options_.order : 2; }

    // How large a strategy is from here, in no unit: by games in which the other side moves at random. A position that a
    // game meets stands for as many as the moves before it tell. A tree of such positions grows faster than a strategy,
    // which has each of them once, and long games tell much by chance, so that powers are taken.
    double weight_of(Position at) {
        double sum = 0;
        for (int n = 0; n < GAMES && search_.nodes() < search_.end; ++n) sum += std::sqrt(weight_of_game(at));
        return std::pow(sum / GAMES, 1.3);
    }

    double weight_of_game(Position at) {
        double weight = 0, share = 1;
        for (Word square; !board_.is_ended(at) && !closes(at); at = after(at, square)) {
            square = proves(at) ? choose_at(at) : random_reply(at, weight, share);
            weight += share;
            if (!square) break;
        }
        return weight + share;
    }

    // The prover's move; 0 where it wins at once.
    Word choose_at(Position at) {
        table_.add(board_.key(at));
        return winning(at) ? 0 : choose(at);
    }

    // One of the replies that the prover doesn't answer by a win, or 0. The others are counted, and for how many positions
    // the next one stands.
    Word random_reply(Position at, double& weight, double& share) {
        Word moves = board_.playable(at.men), open = 0;
        for (Word rest = moves; rest; rest &= rest - 1) {
            if (!winning(board_.after(at, rest & -rest))) open |= rest & -rest;
        }
        weight += 2 * share * count_of(moves & ~open);
        share *= count_of(open);
        for (uint64_t n = open ? random(uint64_t(count_of(open))) : 0; n > 0; --n) open &= open - 1;
        return open & -open;
    }

    // Takes in the first strategy by an order. False where it would get larger than this.
    bool grow(int order, uint64_t most) {
        std::vector<Word> keys;
        Restored before(mode_);
        mode_.order = order;
        mode_.keeps = false;
        mode_.most = most;
        mode_.grows = options_.part;
        mode_.probes = options_.high;
        mode_.taken = mode_.grows ? &keys : nullptr;
        part_ = 0;
        Restored is_growing(is_growing_);
        is_growing_ = true;
        return take(root_);
    }

    // Betters a part of the first strategy where it has four times the moves of what was bettered in it. False where
    // another one is there already and the time is over.
    bool better_grown(size_t start) override {
        if (is_late()) return false;
        std::vector<Word>& taken = *mode_.taken;
        size_t size = taken.size() - start;
        if (size < options_.part || size < part_ * 4) return true;
        std::vector<Word> keys(taken.begin() + long(start), taken.end());
        better_part(keys);
        taken.resize(start);
        taken.insert(taken.end(), keys.begin(), keys.end());
        part_ = keys.size();
        return true;
    }

    struct Start {
        int order;
        bool probes;
    };

    bool take_best(Position at) override {
        static constexpr Start STARTS[] = {{2, true}, {1, false}, {3, true}, {2, false}, {1, true}};
        std::vector<Moved> best, moves;
        std::vector<Word> best_keys, keys;
        Word best_square = 0;
        uint64_t least = NO_LIMIT;
        for (const Start& start : STARTS) {
            if (best_square && progress.is_late(options_.seconds)) break;
            Restored before(mode_);
            // One that gets much larger than the best hardly gets smaller than that when it is bettered.
            if (best_square) mode_.most = std::min(mode_.most, live_ + 4 * least + MANY);
            if (!take_start(at, start, keys)) continue;
            Word square = square_in(at, find(at)->move);
            uint64_t added = drop_noted(after(at, square), moves);
            if (added >= least) continue;
            least = added;
            best_square = square;
            best.swap(moves);
            best_keys.swap(keys);
        }
        if (!best_square) return false;
        take_again(after(at, best_square), best);
        find(at)->move = column_of(best_square);
        part_ = best_keys.size();
        mode_.taken->insert(mode_.taken->end(), best_keys.begin(), best_keys.end());
        return true;
    }

    // Takes in what follows a position of the prover's by one start, and betters it. Its positions are noted.
    bool take_start(Position at, const Start& start, std::vector<Word>& keys) {
        Restored before(mode_);
        mode_.order = start.order;
        mode_.probes = start.probes && options_.high;
        mode_.taken = &keys;
        keys.clear();
        part_ = 0;
        if (!take_one(at)) return false;
        mode_.grows = mode_.probes = false;
        if (part_ < keys.size()) better_part(keys);
        mode_.taken = nullptr;
        vary_all(keys);
        vary_all(keys);
        return true;
    }

    // Three rounds at these positions and what comes in for them.
    void better_part(std::vector<Word>& keys) {
        std::vector<Word> more;
        Restored before(mode_);
        mode_.grows = mode_.probes = false;
        mode_.taken = &more;
        for (int n = 0; n < 3; ++n) {
            mode_.order = n == 1 ? 1 : 3;
            mode_.keeps = n == 2;
            for (Word key : keys) {
                if (!is_late()) improve(key);
            }
            keys.insert(keys.end(), more.begin(), more.end());
            more.clear();
            from_the_end(keys);
        }
    }

    // Leaves those of the set, each once, with most men first.
    void from_the_end(std::vector<Word>& keys) {
        std::vector<std::pair<int, Word>> sorted;
        for (Word key : keys) {
            Position at = board_.position(key);
            if (is_live(at)) sorted.push_back({-count_of(at.men), key});
        }
        std::sort(sorted.begin(), sorted.end());
        sorted.erase(std::unique(sorted.begin(), sorted.end()), sorted.end());
        keys.clear();
        for (const auto& [men, key] : sorted) keys.push_back(key);
    }

    // The numbers of the prover's positions, those with most men first.
    std::vector<std::vector<Word>> prover_keys() {
        std::vector<std::vector<Word>> keys(64);
        for (const Node& node : table_.slots()) {
            if (!node.key || !node.refs) continue;
            Position at = board_.position(node.key - 1);
            if (proves(at) && !board_.is_ended(at)) keys[size_t(63 - count_of(at.men))].push_back(node.key - 1);
        }
        return keys;
    }

    // As `prover_keys`; where parts are named, only those that come from nowhere else, or only the others.
    std::vector<std::vector<Word>> part_keys() {
        std::vector<std::vector<Word>> keys = prover_keys();
        if (options_.below.empty()) return keys;
        Seen others;
        for (const Game& game : options_.below) others.insert(board_.key(standing(position_of(game, board_))));
        note_all(root_, others);
        for (std::vector<Word>& some : keys) {
            auto is_other = [&](Word key) { return others.insert(key) == options_.beside; };
            some.erase(std::remove_if(some.begin(), some.end(), is_other), some.end());
        }
        return keys;
    }

    // Notes a position of the set and those that it leads to.
    void note_all(Position at, Seen& seen) {
        if (!seen.insert(board_.key(at)) || board_.is_ended(at) || closes(at)) return;
        Word moves = proves(at) ? square_in(at, find(at)->move) : board_.playable(at.men);
        for (Word rest = moves; rest; rest &= rest - 1) note_all(after(at, rest & -rest), seen);
    }

    // Looks for a move that adds less than the present one, which is dropped for that time.
    void improve(Word key) {
        Node* node = table_.find(key);
        if (!node || !node->refs) return;
        Position at = board_.position(key);
        Word old = square_in(at, node->move);
        Position there = after(at, old);
        if (find(there)->refs > 1) return;
        std::vector<Moved> moves;
        uint64_t least = drop_noted(there, moves);
        Word best = free_move(at);
        if (!best) best = least > 1 ? better(at, old, least, moves) : old;
        keep_noted(moves);
        Restored before(mode_);
        mode_.keeps = true;
        mode_.most = NO_LIMIT;
        if (!take(after(at, best))) throw Fault("what was dropped can't be taken in again");
        table_.find(key)->move = column_of(best);
    }

    // A move that adds less than this, whose moves are noted; or the old one. That is among them where what follows may
    // be another.
    Word better(Position at, Word old, uint64_t least, std::vector<Moved>& best_moves) {
        if (winning(at)) return old;
        Word moves = board_.safe_moves(at);
        if (mode_.keeps) moves &= ~old;
        Restored before(mode_);
        mode_.stays = false;
        mode_.taken = nullptr;
        Word best = old;
        for (Word rest = moves; rest; rest &= rest - 1) {
            Word square = rest & -rest;
            if (square != old && !move_holds(at, square, options_.nodes)) continue;
            mode_.most = live_ + least - !mode_.keeps;
            if (!take(after(at, square))) continue;
            best = square;
            least = drop_noted(after(at, square), best_moves);
        }
        return best;
    }

    // Takes other moves at these positions, in random order, where the set doesn't get larger by it.
    void vary_all(std::vector<Word>& keys) {
        for (size_t n = keys.size(); n > 1; --n) std::swap(keys[n - 1], keys[random(n)]);
        for (Word key : keys) {
            if (!is_late()) vary(key);
        }
    }

    void vary(Word key) {
        Node* node = table_.find(key);
        if (!node || !node->refs) return;
        Position at = board_.position(key);
        Word old = square_in(at, node->move);
        Word other = any_move(at, old);
        if (!other) return;
        Position there = after(at, old);
        // Where what follows the old move stays for another position, a new one isn't worth it.
        if (!is_live(after(at, other)) && find(there)->refs > 1) return;
        uint64_t size = live_;
        std::vector<Moved> moves;
        drop_noted(there, moves);
        if (!take_as_before(after(at, other), size)) {
            take_again(there, moves);
            other = old;
        }
        table_.find(key)->move = column_of(other);
    }

    // Takes a position in, mostly by the moves of before. False where the set would get larger than this.
    bool take_as_before(Position at, uint64_t most) {
        Restored before(mode_);
        mode_.stays = false;
        mode_.keeps = random(4);
        mode_.order = int(random(4));
        mode_.noise = random(2) ? 0 : 16;
        mode_.most = most;
        return take(at);
    }

    // One of these lists that isn't empty, of positions with few enough empty squares; or their number.
    size_t random_place(const std::vector<std::vector<Word>>& keys) {
        double rates[64], sum = 0;
        for (size_t n = 0; n < keys.size(); ++n) {
            bool is_open = !keys[n].empty() && 63 - n + MOST_EMPTY >= size_t(count_of(board_.full));
            rates[n] = is_open ? (gains_[n] + 1) / (works_[n] + 1e4) + 1e-5 : 0;
            sum += rates[n];
        }
        if (sum == 0) return keys.size();
        double drawn = sum * double(random(uint64_t(1) << 32)) / double(uint64_t(1) << 32);
        size_t place = 0;
        for (size_t n = 0; n < keys.size(); ++n) {
            if (rates[n] == 0) continue;
            place = n;
            if (drawn < rates[n]) break;
            drawn -= rates[n];
        }
        return place;
    }

    // Drops the part below a position, takes another in by a random order and betters it. It stays where it isn't
    // larger.
    void renew_part(Word key) {
        Node* node = table_.find(key);
        if (!node || !node->refs) return;
        Position at = board_.position(key);
        Word old = square_in(at, node->move);
        if (winning(at) || find(after(at, old))->refs > 1) return;
        uint64_t size = live_;
        std::vector<Moved> moves;
        uint64_t gone = drop_noted(after(at, old), moves);
        Word other = gone < SMALLEST || gone > LARGEST ? 0 : random(4) ? old : any_move(at, 0);
        if (!other || !take_bettered(after(at, other), size, gone)) {
            take_again(after(at, old), moves);
            other = old;
        }
        table_.find(key)->move = column_of(other);
    }

    // Takes a position in by a random order, and betters what came with it. False, and nothing is taken in, where the
    // set gets larger than this by it.
    bool take_bettered(Position at, uint64_t most, uint64_t gone) {
        std::vector<Word> keys;
        if (!take_by_chance(at, most + 2 * gone, keys)) return false;
        from_the_end(keys);
        better_part(keys);
        vary_all(keys);
        vary_all(keys);
        for (uint64_t n = 0; n < 3 && is_near(most, gone); ++n) renew_within(keys);
        if (live_ <= most) return true;
        drop(at);
        return false;
    }

    // What was taken in for so many positions is larger than what stood there, but not by much; and unlike that it hasn't
    // been renewed in its parts.
    bool is_near(uint64_t most, uint64_t gone) const {
        return !is_within_ && gone >= LARGE && live_ > most && live_ - most < gone / 5;
    }

    void renew_within(std::vector<Word>& keys) {
        Restored before(is_within_);
        is_within_ = true;
        from_the_end(keys);
        for (size_t n = 0; n < keys.size() / 8; ++n) renew_part(keys[random(keys.size())]);
        vary_all(keys);
    }

    bool take_by_chance(Position at, uint64_t most, std::vector<Word>& keys) {
        static constexpr unsigned NOISE[] = {4, 8, 16, 32};
        Restored before(mode_);
        mode_.stays = false;
        mode_.keeps = random(4);
        mode_.order = int(random(4));
        mode_.noise = NOISE[random(4)];
        mode_.most = most;
        mode_.taken = &keys;
        return take(at);
    }
};

// How a strategy is made smaller in its graph.
#pragma once

#include <algorithm>
#include <cmath>
#include <string>
#include <vector>

#include "graph.h"

template <int ROWS>
class Renewed : public Graph<ROWS> {
  public:
    using Graph<ROWS>::Graph;

    // Takes parts of another strategy where the set doesn't get larger by it.
    void cross(const std::vector<Moved>& moves) {
        this->oppose(moves);
        Restored before(is_crossing_);
        is_crossing_ = true;
        for (int64_t size = live_ + LARGE; size - live_ >= LARGE && !is_late() && !is_full();) {
            size = live_;
            std::vector<uint32_t> ones = part();
            auto is_later = [this](uint32_t one, uint32_t other) { return men_of(one) > men_of(other); };
            std::stable_sort(ones.begin(), ones.end(), is_later);
            for (uint32_t one : ones) {
                if (!is_late()) cross_at(one);
            }
            progress.lemmas = uint64_t(live_);
            progress.line(search_.nodes());
        }
    }

    // Sweeps and renewals in turn, while they make the set smaller and there is time.
    void better() {
        begin_ = progress.seconds();
        begin_work_ = work_ + search_.nodes();
        heat_ = heat();
        for (int idle = 0; idle < 3 && !is_late();) {
            int64_t before = live_;
            vary_all(part());
            share_ends();
            renew(30 * uint64_t(live_));
            if (is_full() && !shed()) return;
            progress.lemmas = uint64_t(live_);
            progress.line(search_.nodes());
            idle = heat_ > 0 || before - live_ > before / 50000 ? 0 : idle + 1;
        }
    }

  private:
    using Base = Graph<ROWS>;
    using typename Base::All;
    using typename Base::Note;
    using typename Base::One;
    using Base::FEW_NODES;
    using Base::HOLDS;
    using Base::NONE;
    using Base::alls_;
    using Base::any_move;
    using Base::drop_all;
    using Base::drop_noted;
    using Base::free_move;
    using Base::holds;
    using Base::is_full;
    using Base::is_in_part;
    using Base::live_;
    using Base::manner_;
    using Base::men_of;
    using Base::ones_;
    using Base::options_;
    using Base::part;
    using Base::random;
    using Base::search_;
    using Base::share_ends;
    using Base::shed;
    using Base::take_again;
    using Base::take_all;
    using Base::users_of;
    using Base::work_;

    static constexpr int64_t SMALLEST = 20;  // part that is renewed
    static constexpr int64_t LARGE = 200;
    static constexpr int64_t LARGEST = 200'000;
    static constexpr int64_t PATIENCE = 5;   // such renewals more may be what a part needs to be small enough
    static constexpr int PASSES = 20;        // while a part that was taken in by chance cools down
    static constexpr double WARM = 8;        // how many positions more may stay of a change there, on an average at first
    static constexpr uint64_t BATCH = 300;   // work that is done in one way before the next is drawn
    static constexpr double WARM_SHARE = 0.85;  // of the work or time
    static constexpr double KNOWN = 3e7;      // work that is remembered of what is done in one way

    // A One, and the move that it has before another is tried.
    struct User {
        uint32_t one;
        unsigned old;
    };

    // What was done in one way lately: the parts with one number of men are renewed, or other moves are taken there.
    struct Way {
        double draws = 0, gains = 0, work = 0;
    };

    Way ways_[128];
    double begin_ = 0;         // when the bettering began
    uint64_t begin_work_ = 0;  // what had been done then
    double heat_ = 0;    // as it was when the clock was looked at last
    double warmth_ = 0;  // of the part that is cooling down
    uint64_t calls_ = 0;
    bool late_ = false;
    bool is_trial_ = false;   // what was taken in by chance is being bettered, and may be dropped again
    bool is_within_ = false;  // a part of that is being renewed
    bool is_crossing_ = false;
    std::vector<Note> notes_, best_notes_;

    // The time for better choices is over, or the memory. The clock is looked at now and then.
    bool is_late() {
        if (++calls_ % 1024 == 0) {
            progress.lemmas = uint64_t(live_);
            say_now(search_.nodes());
            late_ = progress.is_late(options_.seconds) || done() > options_.work;
            if (heat_ > 0) heat_ = heat();
        }
        return late_;
    }

    void shuffle(std::vector<uint32_t>& ones) {
        for (size_t n = ones.size(); n > 1; --n) std::swap(ones[n - 1], ones[random(n)]);
    }

    // Positions that were taken in or searched since the bettering began.
    uint64_t done() const { return work_ + search_.nodes() - begin_work_; }

    // How many positions more may stay of a change, on an average: it goes from one number to another until the work is
    // done that there may be, or the time is over.
    double heat() const {
        if (!options_.heat) return 0;
        double seconds = std::max(double(options_.seconds) - begin_, 1.0);
        double spent = std::max((progress.seconds() - begin_) / seconds, double(done()) / double(options_.work));
        double first = double(options_.heat) / 100, last = double(options_.cool) / 100;
        return last + (first - last) * std::max(1 - spent / WARM_SHARE, 0.0);
    }

    // So many more may stay of this one.
    int64_t slack() {
        double mean = std::max(heat_, warmth_);
        if (mean == 0) return 0;
        return int64_t(-mean * std::log(double(random(uint64_t(1) << 32) + 1) / double(uint64_t(1) << 32)));
    }

    // Renews parts, and takes other moves at positions; mostly with a number of men with which much was gained for the
    // work. It ends when so many positions were taken in.
    void renew(uint64_t most) {
        std::vector<std::vector<uint32_t>> lists(64);
        for (uint32_t one : part()) lists[size_t(men_of(one))].push_back(one);
        for (uint64_t end = work_ + most; work_ < end && !is_late() && !is_full(); ++work_) {
            size_t place = drawn(lists);
            const std::vector<uint32_t>& some = lists[place % 64];
            if (some.empty()) return;
            int64_t size = live_;
            uint64_t before = work_ + search_.nodes();
            while (work_ + search_.nodes() < before + BATCH) {
                if (place < 64) renew_part(some[random(some.size())]);
                else vary(some[random(some.size())]);
                ++work_;
            }
            Way& way = ways_[place];
            double work = double(work_ + search_.nodes() - before) + 10;
            double kept = std::exp(-work / KNOWN);
            way.gains = way.gains * kept + double(size - live_);
            way.work = way.work * kept + work;
            way.draws = way.draws * kept + 1;
        }
    }

    // A way for which there are positions. What is drawn of a way is by the square of what it gains for the work, and
    // in work, not in number.
    size_t drawn(const std::vector<std::vector<uint32_t>>& lists) {
        double rates[128], sum = 0;
        for (size_t n = 0; n < 128; ++n) {
            const Way& way = ways_[n];
            double gain = (std::max(way.gains, 0.0) + 20) / (way.work + 2e5) + 2e-6;
            rates[n] = lists[n % 64].empty() ? 0 : gain * gain * (way.draws + 1) / (way.work + 1e3);
            sum += rates[n];
        }
        double drawn = sum * double(random(uint64_t(1) << 32)) / double(uint64_t(1) << 32);
        size_t place = 0;
        for (size_t n = 0; n < 128; ++n) {
            if (rates[n] == 0) continue;
            place = n;
            if (drawn < rates[n]) break;
            drawn -= rates[n];
        }
        return place;
    }

    // The Ones whose moves lead where that of this one leads, which is the first; none where one of them isn't to be
    // changed. Another move for all of them may be better where none is for one of them alone.
    std::vector<User> sharers(uint32_t place) {
        uint32_t there = there_of(place);
        std::vector<User> sharers = {{place, ones_[place].move}};
        if (alls_[there].refs == 1) return sharers;
        if (is_trial_) return {};
        for (uint32_t user : users_of(there)) {
            if (!is_in_part(user)) return {};
            if (user != place) sharers.push_back({user, ones_[user].move});
        }
        // The root may be met without a move.
        return sharers.size() == alls_[there].refs ? sharers : std::vector<User>();
    }

    // Takes the other strategy's move at a position, and its moves for what comes in by that.
    void cross_at(uint32_t place) {
        const One& one = ones_[place];
        ++work_;
        if (!one.refs || one.other == NONE || one.other == one.move) return;
        std::vector<User> users = sharers(place);
        if (users.empty()) return;
        std::vector<Note> notes;
        int64_t size = live_;
        int64_t gone = drop_shared(users, notes);
        if (!take_bettered(users, one.next[one.other], size, gone)) restore_shared(users, notes);
    }

    uint32_t there_of(uint32_t one) const { return ones_[one].next[ones_[one].move]; }

    // Drops what these share, and notes it. How many positions went.
    int64_t drop_shared(const std::vector<User>& users, std::vector<Note>& notes) {
        uint32_t there = there_of(users[0].one);
        alls_[there].refs = uint8_t(alls_[there].refs - (users.size() - 1));
        return drop_noted(there, notes);
    }

    // Takes it in again.
    void restore_shared(const std::vector<User>& users, const std::vector<Note>& notes) {
        for (const User& user : users) ones_[user.one].move = user.old & 15;
        uint32_t there = there_of(users[0].one);
        take_again(there, notes);
        alls_[there].refs = uint8_t(alls_[there].refs + (users.size() - 1));
    }

    // Takes a position in behind each of these that has a move there, and another behind the others. False, and nothing is
    // taken in, where the set would get too large.
    bool take_shared(const std::vector<User>& users, uint32_t all) {
        size_t n = 0;
        while (n < users.size() && take_instead(users[n], all)) ++n;
        if (n == users.size()) return true;
        while (n > 0) drop_all(there_of(users[--n].one));
        return false;
    }

    bool take_instead(const User& user, uint32_t all) {
        One& one = ones_[user.one];
        unsigned index = unsigned(std::find(one.next, one.next + one.count, all) - one.next);
        if (index == one.count) index = free_move(one);
        if (index == NONE && manner_.heeds) index = one.other;
        if (index == NONE) index = any_move(one, user.old, options_.nodes);
        if (index == NONE || !take_all(one.next[index])) return false;
        one.move = index & 15;
        return true;
    }

    void drop_taken(const std::vector<User>& users) {
        for (const User& user : users) drop_all(there_of(user.one));
    }

    // Drops the part below a position, takes another in by chance and betters it. It stays where it isn't larger, or
    // not by much.
    void renew_part(uint32_t place) {
        const One& one = ones_[place];
        if (!one.refs) return;
        uint32_t there = there_of(place);
        uint16_t cost = alls_[there].cost;
        if (cost > scaled(2 * LARGEST) || (cost && cost < scaled(SMALLEST / 2))) return;
        std::vector<User> users = sharers(place);
        if (users.empty()) return;
        std::vector<Note> notes;
        int64_t size = live_;
        int64_t gone = drop_shared(users, notes);
        alls_[there].cost = scaled(gone);
        unsigned other = gone < SMALLEST || gone > LARGEST ? NONE : random(4) ? one.move : any_move(one, NONE, options_.nodes);
        if (other == NONE || !take_bettered(users, one.next[other], size, gone)) restore_shared(users, notes);
    }

    // Takes a position in by chance, and betters what came with it. False, and nothing is taken in, where the set gets
    // much larger than this by it.
    bool take_bettered(const std::vector<User>& users, uint32_t all, int64_t most, int64_t gone) {
        Restored before(is_trial_);
        is_trial_ = true;
        std::vector<uint32_t> ones;
        if (!take_by_chance(users, all, most + 2 * gone, ones)) return false;
        better_part(ones);
        if (gone >= LARGE && live_ - most < gone) cool(ones);
        if (is_near(most, gone)) renew_while_it_pays(ones, most);
        if (live_ <= most + slack()) return true;
        drop_taken(users);
        return false;
    }

    bool take_by_chance(const std::vector<User>& users, uint32_t all, int64_t most, std::vector<uint32_t>& ones) {
        static constexpr unsigned NOISE[] = {4, 8, 16, 32};
        Restored before(manner_);
        manner_.stays = false;
        manner_.keeps = is_crossing_ || random(8);
        manner_.noise = is_crossing_ ? 0 : NOISE[random(4)];
        manner_.heeds = is_crossing_;
        manner_.most = most;
        manner_.taken = &ones;
        return take_shared(users, all);
    }

    // What was taken in for so many positions is larger than what stood there, but not by much; and unlike that it
    // hasn't been renewed in its parts.
    bool is_near(int64_t most, int64_t gone) const {
        return !is_within_ && gone >= LARGE && live_ > most && live_ - most < gone / 3;
    }

    // Goes on as long as some such renewals more would make the part small enough.
    void renew_while_it_pays(std::vector<uint32_t>& ones, int64_t most) {
        for (int64_t before = live_; live_ > most; before = live_) {
            renew_within(ones);
            if ((before - live_) * PATIENCE < live_ - most) return;
        }
    }

    // Sweeps in which a change may make the part larger, by less and less.
    void cool(std::vector<uint32_t>& ones) {
        Restored before(warmth_);
        for (int n = PASSES; n-- > 0;) {
            warmth_ = WARM * n / PASSES;
            noting(ones, [&] { vary_all(ones); });
        }
    }

    // Does something that takes Ones in, which are put before these. As they were noted, one that leads to another stands
    // behind it.
    template <class Does>
    void noting(std::vector<uint32_t>& ones, Does does) {
        std::vector<uint32_t> all;
        {
            Restored before(manner_);
            manner_.taken = &all;
            does();
        }
        all.insert(all.end(), ones.begin(), ones.end());
        ones.swap(all);
        tidy(ones);
    }

    void renew_within(std::vector<uint32_t>& ones) {
        Restored before(is_within_);
        is_within_ = true;
        tidy(ones);
        for (size_t n = 0; n < ones.size() / 8; ++n) renew_part(ones[random(ones.size())]);
        vary_all(ones);
    }

    // Three rounds and two sweeps at these positions and what comes in for them.
    void better_part(std::vector<uint32_t>& ones) {
        tidy(ones);
        for (int n = 0; n < 3; ++n) {
            noting(ones, [&] {
                manner_.keeps = n != 1;
                for (uint32_t one : ones) {
                    if (!is_late()) improve(one);
                }
            });
        }
        vary_all(ones);
        vary_all(ones);
    }

    // Leaves those of the set, each once.
    void tidy(std::vector<uint32_t>& ones) {
        size_t kept = 0;
        for (uint32_t one : ones) {
            if (!ones_[one].refs || ones_[one].is_marked) continue;
            ones_[one].is_marked = true;
            ones[kept++] = one;
        }
        ones.resize(kept);
        for (uint32_t one : ones) ones_[one].is_marked = false;
    }

    // Looks for a move that adds less than the present one, which is dropped for that time.
    void improve(uint32_t place) {
        One& one = ones_[place];
        ++work_;
        if (!one.refs || one.count < 2) return;
        unsigned old = one.move;
        All& there = alls_[one.next[old]];
        if (there.refs > 1) return;
        int64_t size = live_;
        drop_all(one.next[old]);
        there.cost = scaled(size - live_);
        unsigned best = free_move(one);
        if (best == NONE) {
            best = better_move(one, old, size - live_);
            for (size_t n = 0; best != old && n < best_notes_.size(); ++n) {
                ones_[best_notes_[n].one].kept = best_notes_[n].move & 15;
            }
        }
        Restored before(manner_);
        manner_.keeps = true;
        if (!take_all(one.next[best])) throw Fault("what was dropped can't be taken in again");
        one.move = best & 15;
    }

    // A move that adds less than this, where its moves are noted; or the old one.
    unsigned better_move(const One& one, unsigned old, int64_t least) {
        Restored before(manner_);
        manner_.stays = false;
        manner_.taken = nullptr;
        uint64_t nodes = std::min(options_.nodes, 200 + 10 * uint64_t(std::max(least, int64_t(0))));
        unsigned best = old;
        for (unsigned n = 0; n < one.count; ++n) {
            // What seems to cost half more is mostly passed over.
            bool is_dear = alls_[one.next[n]].cost > alls_[one.next[old]].cost + 512;
            if (n == old || (is_dear && random(16)) || !holds(one.next[n], nodes)) continue;
            manner_.most = live_ + least - 1;
            if (!take_all(one.next[n])) continue;
            best = n;
            least = drop_noted(one.next[n], best_notes_);
        }
        return best;
    }

    // Takes other moves at these positions, in random order, where the set doesn't get larger by it, or not by much.
    void vary_all(std::vector<uint32_t> ones) {
        shuffle(ones);
        for (uint32_t one : ones) {
            if (!is_late()) vary(one);
        }
    }

    void vary(uint32_t place) {
        const One& one = ones_[place];
        ++work_;
        if (!one.refs || one.count < 2) return;
        bool is_shared = alls_[there_of(place)].refs > 1;
        unsigned other = is_shared ? NONE : free_move(one, one.move);
        if (other == NONE) other = any_move(one, one.move, FEW_NODES);
        if (other == NONE) return;
        bool is_free = alls_[one.next[other]].refs;
        // Where what follows the old move stays for another position, a new one for this position alone isn't worth it.
        std::vector<User> users = is_free ? std::vector<User>{{place, one.move}} : sharers(place);
        if (users.empty()) return;
        int64_t size = live_ + slack();
        drop_shared(users, notes_);
        if (!take_as_before(users, one.next[other], size)) restore_shared(users, notes_);
    }

    // Takes a position in, mostly by the moves of before. False where the set would get larger than this.
    bool take_as_before(const std::vector<User>& users, uint32_t all, int64_t most) {
        Restored before(manner_);
        manner_.stays = false;
        manner_.keeps = random(4);
        manner_.noise = random(2) ? 0 : 16;
        manner_.most = most;
        if (!take_shared(users, all)) return false;
        if (live_ <= most) return true;
        drop_taken(users);
        return false;
    }
};

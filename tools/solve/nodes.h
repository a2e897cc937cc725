// The positions that a strategy is chosen from, and what is known of each.
#pragma once

#include <algorithm>
#include <utility>

#include "board.h"
#include "fault.h"
#include "pages.h"

constexpr unsigned NO_MOVE = 15;

struct Node {
    Word key = 0;        // one more than the number of the position; 0 in an empty slot
    uint64_t refs : 6;   // 0 where it isn't of the set; else how many moves lead there from positions of the set
    uint64_t move : 4;   // the column of the present move of the prover's
    uint64_t kept : 4;   // that of the move when it was last dropped
    uint64_t order0 : 4, order1 : 4, order2 : 4, order3 : 4;  // those that the orders choose
    uint64_t refused : 10;  // the columns of moves that weren't found to win
    uint64_t found : 10;    // those of moves that were
    uint64_t plan : 2;      // whether there is a plan: NO_PLAN or HAS_PLAN, or 0 where it isn't known
    Node()
        : refs(0), move(NO_MOVE), kept(NO_MOVE), order0(NO_MOVE), order1(NO_MOVE), order2(NO_MOVE), order3(NO_MOVE),
          refused(0), found(0), plan(0) {}

    static constexpr unsigned NO_PLAN = 1, HAS_PLAN = 2;

    unsigned chosen(int order) const {
        return order == 0 ? order0 : order == 1 ? order1 : order == 2 ? order2 : order3;
    }

    void choose(int order, unsigned column) {
        if (order == 0) order0 = column;
        else if (order == 1) order1 = column;
        else if (order == 2) order2 = column;
        else order3 = column;
    }
};

// Positions by their numbers. A reference holds until the next call of `add`.
class NodeTable {
  public:
    explicit NodeTable(uint64_t bytes) : slots_(size_t(1) << 12), most_(bytes) { slots_.fill(slots_.size(), Node()); }

    void prefetch(Word key) const { __builtin_prefetch(&slots_[place(key)]); }

    Node* find(Word key) {
        for (size_t at = place(key);; at = (at + 1) & (slots_.size() - 1)) {
            if (slots_[at].key == key + 1) return &slots_[at];
            if (!slots_[at].key) return nullptr;
        }
    }

    Node& add(Word key) {
        if (Node* node = find(key)) return *node;
        reserve(1);
        ++used_;
        return put(key);
    }

    // Makes room for so many more now, as far as there is memory for them. Where room has to be made later, those of
    // them that are there by then go, but for what is in the set.
    void reserve(uint64_t count) {
        while ((used_ + count) * 4 > slots_.size() * 3 && make_room()) {}
    }

    uint64_t bytes() const { return slots_.size() * sizeof(Node); }
    const Pages<Node>& slots() const { return slots_; }

  private:
    Pages<Node> slots_;
    uint64_t most_;
    size_t used_ = 0;

    size_t place(Word key) const {
        return (key * 0x9e3779b97f4a7c15u) >> (64 - __builtin_ctzll(slots_.size()));
    }

    Node& put(Word key) {
        size_t at = place(key);
        while (slots_[at].key) at = (at + 1) & (slots_.size() - 1);
        slots_[at].key = key + 1;
        return slots_[at];
    }

    // More slots, while there is memory for them; else what isn't in the set goes, and it is false.
    bool make_room() {
        bool can_grow = bytes() * 4 <= most_;
        auto stays = [&](const Node& node) { return node.key && (node.refs || can_grow); };
        size_t size = can_grow ? slots_.size() * 2 : slots_.size();
        used_ = size_t(std::count_if(slots_.begin(), slots_.end(), stays));
        if (used_ * 5 > size * 3) throw Fault("the strategy needs more memory than --memory allows");
        Pages<Node> before(size);
        std::swap(before, slots_);
        slots_.fill(size, Node());
        for (const Node& node : before) {
            if (stays(node)) put(node.key - 1) = node;
        }
        return can_grow;
    }
};

// The numbers of the lemmas that are written, by positions.
#pragma once

#include <cstddef>
#include <cstdint>
#include <utility>

#include "board.h"
#include "pages.h"

class Numbers {
  public:
    // For so many positions at first.
    explicit Numbers(size_t count) : slots_(size_for(count)) { slots_.fill(slots_.size(), Slot()); }

    void prefetch(Word key) const { __builtin_prefetch(&slots_[first(key)]); }

    // The number at a position, or 0.
    uint32_t find(Word key) const { return slots_[place(key)].number; }

    void put(Word key, uint32_t number) {
        Slot& slot = slots_[place(key)];
        used_ += !slot.number;
        slot = {key, number};
        if (used_ * 4 > slots_.size() * 3) grow();
    }

  private:
    struct Slot {
        Word key = 0;
        uint32_t number = 0;  // 0 in an empty slot
    };

    Pages<Slot> slots_;
    size_t used_ = 0;

    // A power of two, and half as many places again as these at least.
    static size_t size_for(size_t count) {
        size_t size = 1 << 10;
        while (size * 2 < count * 3) size *= 2;
        return size;
    }

    size_t first(Word key) const { return (key * 0x9e3779b97f4a7c15u) >> (64 - __builtin_ctzll(slots_.size())); }

    // That of a position, or the empty one where it would be.
    size_t place(Word key) const {
        size_t at = first(key);
        while (slots_[at].number && slots_[at].key != key) at = (at + 1) & (slots_.size() - 1);
        return at;
    }

    void grow() {
        Pages<Slot> before(slots_.size() * 2);
        std::swap(before, slots_);
        slots_.fill(slots_.size(), Slot());
        for (const Slot& slot : before) {
            if (slot.number) slots_[place(slot.key)] = slot;
        }
    }
};

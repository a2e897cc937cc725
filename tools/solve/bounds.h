// What is known of positions: between which bounds the score of each lies. Bounds are facts of a position, whoever asks
// and in whichever search they were found, so the tables are never cleared while the board stays.
#pragma once

#include <algorithm>
#include <cstddef>

#include "board.h"
#include "pages.h"

// The score lies between these, both included.
struct Bounds {
    int lower;
    int upper;
};

// Bounds of positions by their numbers, each in a word: 49 bits of the number, 3 for the work that it took, 6 for each
// bound. The number is multiplied by an odd one, which loses nothing; its highest bits are the place, and with the
// lowest 49 they are all of its 63.
class BoundTable {
  public:
    // Takes as many bytes as it may, a power of two.
    explicit BoundTable(uint64_t bytes) : bits_(bits_of(bytes)), most_bits_(bits_), memory_(this->bytes()) {
        buckets_ = static_cast<Bucket*>(memory_.values());
    }

    uint64_t bytes() const { return uint64_t(sizeof(Bucket)) << bits_; }

    // Has the system give all the memory now, in place of when it is used.
    void touch() { memory_.touch(); }

    // Empties it.
    void clear() { memory_.clear(bytes()); }

    // And takes no more from here on than a search with so many nodes needs.
    void clear(uint64_t nodes) {
        clear();
        bits_ = std::min(most_bits_, bits_of(2 * sizeof(Word) * nodes));
    }

    void prefetch(Word key) const { __builtin_prefetch(&buckets_[place(mixed(key))]); }

    // False where nothing is known.
    bool find(Word key, Bounds& bounds) const {
        Word mix = mixed(key);
        const Bucket& bucket = buckets_[place(mix)];
        Word slot = is_of(bucket.dear, mix) ? bucket.dear : bucket.newest;
        if (!is_of(slot, mix)) return false;
        bounds = {int(slot >> 6 & 63) - ZERO, int(slot & 63) - ZERO};
        return true;
    }

    // Of each two slots the first keeps what took more work, the second the newest.
    void put(Word key, Bounds bounds, uint64_t nodes) {
        Word mix = mixed(key);
        Bucket& bucket = buckets_[place(mix)];
        Word work = work_of(nodes);
        Word slot = mix << 15 | work << 12 | Word(bounds.lower + ZERO) << 6 | Word(bounds.upper + ZERO);
        if (is_of(bucket.dear, mix)) {
            bucket.dear = slot;
        } else if (work >= (bucket.dear >> 12 & 7)) {
            bucket.newest = bucket.dear;
            bucket.dear = slot;
        } else {
            bucket.newest = slot;
        }
    }

  private:
    struct alignas(16) Bucket {
        Word dear;
        Word newest;
    };

    static constexpr int ZERO = 32;  // stands for a score of 0, so that no slot in use is 0

    static constexpr int LEAST_BITS = 14;

    int bits_;
    int most_bits_;
    Zeros memory_;
    Bucket* buckets_;

    static int bits_of(uint64_t bytes) {
        int bits = LEAST_BITS;
        while (bits < 36 && uint64_t(sizeof(Bucket)) << (bits + 1) <= bytes) ++bits;
        return bits;
    }

    static Word mixed(Word key) { return key * 0x9e3779b97f4a7c15u; }

    size_t place(Word mix) const { return (mix & ~(Word(1) << 63)) >> (63 - bits_); }

    static bool is_of(Word slot, Word mix) { return slot && (slot ^ mix << 15) >> 15 == 0; }

    static Word work_of(uint64_t nodes) { return Word(std::min(7, (63 - __builtin_clzll(nodes | 1)) / 3)); }
};

// Late positions are looked up the most: their table stays in the caches, and the others have a large one.
struct BoundTables {
    BoundTable early;
    BoundTable late;

    BoundTables(uint64_t early_bytes, uint64_t late_bytes) : early(early_bytes), late(late_bytes) {}

    uint64_t bytes() const { return early.bytes() + late.bytes(); }

    void touch() {
        early.touch();
        late.touch();
    }

    void clear() {
        early.clear();
        late.clear();
    }

    void clear(uint64_t nodes) {
        early.clear(nodes);
        late.clear(nodes);
    }
};

// Memory for a large table, in large pages where the system has them: nearly each look into it is at another page.
#pragma once

#include <algorithm>
#include <cstddef>
#include <cstdint>
#include <cstdlib>
#include <cstring>
#include <memory>
#include <new>
#include <sys/mman.h>

// So many values of a type that needs no destructor, a power of two. They are made by `fill`.
template <class Value>
class Pages {
  public:
    Pages() = default;

    explicit Pages(size_t size) : size_(size) {
        size_t bytes = std::max(size * sizeof(Value), size_t(64));
        values_.reset(static_cast<Value*>(std::aligned_alloc(std::min(bytes, LARGE), bytes)));
        if (!values_) throw std::bad_alloc();
        madvise(values_.get(), bytes, MADV_HUGEPAGE);
    }

    void fill(size_t size, Value value) { std::uninitialized_fill_n(values_.get(), size, value); }

    size_t size() const { return size_; }
    Value& operator[](size_t place) { return values_[place]; }
    const Value& operator[](size_t place) const { return values_[place]; }
    const Value* begin() const { return values_.get(); }
    const Value* end() const { return values_.get() + size_; }

  private:
    struct Free {
        void operator()(Value* values) const { std::free(values); }
    };

    static constexpr size_t LARGE = size_t(1) << 21;

    size_t size_ = 0;
    std::unique_ptr<Value[], Free> values_;
};

// So many bytes, a multiple of the large pages or less than one, which are 0 at first and take no memory until they are
// used.
class Zeros {
  public:
    explicit Zeros(size_t bytes) : bytes_(bytes), mapped_(bytes + LARGE) {
        void* start = mmap(nullptr, mapped_, PROT_READ | PROT_WRITE, MAP_PRIVATE | MAP_ANONYMOUS | MAP_NORESERVE, -1, 0);
        if (start == MAP_FAILED) throw std::bad_alloc();
        start_ = static_cast<char*>(start);
        values_ = start_ + (LARGE - reinterpret_cast<uintptr_t>(start_) % LARGE) % LARGE;
        madvise(values_, bytes, MADV_HUGEPAGE);
    }

    ~Zeros() { munmap(start_, mapped_); }

    Zeros(const Zeros&) = delete;
    Zeros& operator=(const Zeros&) = delete;

    void* values() const { return values_; }

    // Makes the first bytes 0 again.
    void clear(size_t bytes) {
        if (bytes < LARGE) memset(values_, 0, bytes);
        else madvise(values_, bytes_, MADV_DONTNEED);
    }

    // Has the system give all the memory now.
    void touch() {
        for (size_t n = 0; n < bytes_; n += 4096) static_cast<volatile char*>(values_)[n] = 0;
    }

  private:
    static constexpr size_t LARGE = size_t(1) << 21;

    size_t bytes_;
    size_t mapped_;
    char* start_;
    char* values_;
};

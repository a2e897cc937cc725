// What the tool says on standard error while it works: a line every few seconds.
#pragma once

#include <csignal>
#include <cstdint>
#include <cstdio>
#include <ctime>
#include <functional>

struct Progress {
    const char* stage = "";
    uint64_t lemmas = 0;
    uint64_t bytes = 0;
    bool is_quiet = false;
    time_t last = time(nullptr);
    volatile sig_atomic_t is_stopped = 0;  // a signal has ended the bettering
    std::function<void()> watch;  // is called often, and may throw; where there is one, signals are left alone
    double begin = 0;             // of what is counted by seconds

    // Seconds of processor time.
    double seconds() const { return now() - begin; }

    static double now() {
        timespec now{};
        clock_gettime(CLOCK_PROCESS_CPUTIME_ID, &now);
        return double(now.tv_sec) + double(now.tv_nsec) / 1e9;
    }

    void heed() const {
        if (watch) watch();
    }

    // No choice is to be bettered any more.
    bool is_late(uint64_t most) const { return is_stopped || seconds() >= double(most); }

    void line(uint64_t nodes) {
        if (is_quiet) return;
        fprintf(stderr, "solve: %7.1f s, %s, %llu nodes searched, %llu lemmas, %llu MiB\n", seconds(), stage,
                static_cast<unsigned long long>(nodes), static_cast<unsigned long long>(lemmas),
                static_cast<unsigned long long>(bytes >> 20));
    }
};

inline Progress progress;

// From here on the first SIGINT or SIGTERM ends the bettering, so that what there is gets written; another ends the
// tool.
inline void catch_signals() {
    if (progress.watch) return;
    struct sigaction action = {};
    action.sa_handler = [](int) { progress.is_stopped = 1; };
    action.sa_flags = SA_RESETHAND | SA_RESTART;
    for (int number : {SIGINT, SIGTERM}) sigaction(number, &action, nullptr);
}

inline void say_now(uint64_t nodes) {
    progress.heed();
    time_t now = time(nullptr);
    if (now - progress.last < 5) return;
    progress.last = now;
    progress.line(nodes);
}

// The answer to a request of the engine's, as it goes on.
#pragma once

#include <ctime>
#include <string>

#include "json.h"
#include "requests.h"

struct Limits {
    double seconds = 0;  // of processor time for a request; 0 for any number
    uint64_t mib = 600;  // of memory in all

    // What the tables take: half of the memory, or less. The rest is for proofs.
    uint64_t early_bytes() const { return std::min(mib << 19, uint64_t(1) << 28); }
    uint64_t late_bytes() const { return std::min(mib << 17, uint64_t(1) << 23); }

    // What a strategy may take: its lemmas are counted beside it, and the program and its lists have a part of their own.
    uint64_t strategy_bytes(uint64_t tables) const {
        uint64_t taken = tables + (uint64_t(32) << 20);
        return mib << 20 > taken ? ((mib << 20) - taken) / 4 * 3 : 0;
    }
};

// A request was stopped, or its time is over.
struct Stopped {};

class Answer {
  public:
    Answer(const Question& question, const Limits& limits)
        : question_(question), limits_(limits), begin_(seconds_now()) {}

    uint64_t nodes = 0;

    const Limits& limits() const { return limits_; }

    // Ends the search where it has to.
    void look() {
        if (question_.is_stopped) why_ = "stop";
        else if (limits_.seconds > 0 && seconds_now() - begin_ >= limits_.seconds) why_ = "seconds";
        if (why_) throw Stopped();
    }

    // What is said of a move, or of the position where there is no letter.
    void say(char letter, const char* value, int to_end) const {
        JsonObject said = object();
        if (letter) said.add("move", std::string(1, letter));
        said.add("value", value);
        if (to_end >= 0) said.add("moves_to_end", to_end);
        said.write();
    }

    // An object, which names the request.
    JsonObject object() const { return JsonObject().add("request", question_.line); }

    // The last object.
    JsonObject end() const {
        JsonObject said = object().add("done", true);
        if (why_) said.add("stopped", why_);
        return said.add("nodes", nodes).add_seconds("seconds", seconds_now() - begin_);
    }

    JsonObject fault(const std::string& why) const { return object().add("error", why); }

  private:
    const Question& question_;
    const Limits& limits_;
    double begin_;
    const char* why_ = nullptr;

    // Seconds of processor time that this thread has taken.
    static double seconds_now() {
        timespec now{};
        clock_gettime(CLOCK_THREAD_CPUTIME_ID, &now);
        return double(now.tv_sec) + double(now.tv_nsec) / 1e9;
    }
};

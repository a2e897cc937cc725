// The lines of standard input, which a thread of its own reads, so that `stop` is seen while a request is answered.
#pragma once

#include <atomic>
#include <condition_variable>
#include <deque>
#include <memory>
#include <mutex>
#include <poll.h>
#include <string>
#include <thread>
#include <unistd.h>
#include <vector>

#include "fault.h"
#include "json.h"

struct Question {
    std::string line;
    std::atomic<bool> is_stopped{false};
};

class Requests {
  public:
    Requests() : reader_([this] { read_lines(); }) {}

    ~Requests() {
        is_over_ = true;
        reader_.join();
    }

    // The next one, once it is there. It is in hand until it is finished. Nothing at the end.
    std::shared_ptr<Question> next() {
        std::unique_lock<std::mutex> lock(mutex_);
        changed_.wait(lock, [this] { return !waiting_.empty() || has_ended_; });
        return waiting_.empty() ? nullptr : waiting_.front();
    }

    // Writes the last object about the one in hand. No `stop` comes between, so that one which is read behind the answer
    // stops what comes next.
    void finish(const JsonObject& last) {
        std::lock_guard<std::mutex> lock(mutex_);
        last.write();
        waiting_.pop_front();
        changed_.notify_all();
    }

  private:
    static constexpr size_t LONGEST = 1 << 16;  // bytes of a line; what is behind them is passed over
    static constexpr size_t MOST = 1000;        // requests that wait; there is no reading on meanwhile

    std::deque<std::shared_ptr<Question>> waiting_;  // the one in hand first
    bool has_ended_ = false;
    std::atomic<bool> is_over_{false};
    std::mutex mutex_;
    std::condition_variable changed_;
    std::thread reader_;  // begins when all else is there

    void read_lines() {
        std::vector<char> block(1 << 16);
        std::string line;
        for (ssize_t size; (size = read(STDIN_FILENO, block.data(), block.size())) > 0;) {
            for (ssize_t n = 0; n < size; ++n) {
                if (block[size_t(n)] != '\n') {
                    if (line.size() < LONGEST) line += block[size_t(n)];
                    continue;
                }
                put(line);
                line.clear();
            }
        }
        if (!line.empty()) put(line);
        end();
    }

    // `stop` ends the one in hand, or else the first that waits, and is answered behind it.
    void put(const std::string& line) {
        auto request = std::make_shared<Question>();
        request->line = line;
        std::unique_lock<std::mutex> lock(mutex_);
        if (line == "stop" && !waiting_.empty()) {
            waiting_.front()->is_stopped = true;
            waiting_.insert(waiting_.begin() + 1, request);
        } else {
            changed_.wait(lock, [this] { return waiting_.size() < MOST; });
            waiting_.push_back(request);
        }
        changed_.notify_all();
    }

    // What waits is answered still, unless nobody reads the answers any more.
    void end() {
        std::unique_lock<std::mutex> lock(mutex_);
        has_ended_ = true;
        changed_.notify_all();
        lock.unlock();
        pollfd output = {STDOUT_FILENO, 0, 0};
        while (!is_over_) {
            if (poll(&output, 1, 50) > 0) _exit(0);
        }
    }
};

// The words of a line. A word in quotes may have spaces in it, and a quote or a backslash behind a backslash.
inline std::vector<std::string> words_of(const std::string& line) {
    std::vector<std::string> words;
    for (size_t at = 0; at < line.size();) {
        if (line[at] == ' ') {
            ++at;
            continue;
        }
        std::string word;
        bool has_quotes = line[at] == '"';
        at += has_quotes;
        for (char end = has_quotes ? '"' : ' '; at < line.size() && line[at] != end; ++at) {
            if (has_quotes && line[at] == '\\' && at + 1 < line.size()) ++at;
            word += line[at];
        }
        if (has_quotes && at == line.size()) throw Fault("a quote has no end");
        at += has_quotes;
        words.push_back(word);
    }
    return words;
}

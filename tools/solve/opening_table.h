// A table of openings: the values of positions with a few men, which another run found. What it says is taken as it
// stands.
#pragma once

#include <algorithm>
#include <cerrno>
#include <cstdio>
#include <cstring>
#include <string>
#include <sys/wait.h>
#include <unistd.h>
#include <vector>

#include "board.h"
#include "fault.h"

// What a file says; where its name ends in `.xz`, what `xz -dc` says of it.
class TableText {
  public:
    explicit TableText(const std::string& name) : name_(name) {
        bool is_packed = name.size() > 3 && name.compare(name.size() - 3, 3, ".xz") == 0;
        file_ = is_packed ? unpacked() : fopen(name.c_str(), "rb");
        if (!file_) throw Fault("can't read " + name + ": " + strerror(errno));
    }

    ~TableText() {
        fclose(file_);
        if (child_ > 0) waitpid(child_, nullptr, 0);
    }

    // The next line, without its end. False behind the last.
    bool read(std::string& line) {
        line.clear();
        int letter;
        while ((letter = getc(file_)) != EOF && letter != '\n') {
            if (letter != '\r') line += char(letter);
            if (line.size() > LONGEST) throw Fault(name_ + " is no table: a line is too long");
        }
        if (letter == EOF && ferror(file_)) throw Fault("can't read " + name_ + ": " + strerror(errno));
        return letter != EOF || !line.empty();
    }

    // Sees to it that all was unpacked.
    void finish() {
        int status = 0;
        if (child_ > 0) waitpid(child_, &status, 0);
        child_ = 0;
        if (status) throw Fault("can't read " + name_ + ": xz failed");
    }

  private:
    static constexpr size_t LONGEST = 1000;

    const std::string& name_;
    FILE* file_ = nullptr;
    pid_t child_ = 0;

    FILE* unpacked() {
        int ends[2];
        if (pipe(ends)) return nullptr;
        child_ = fork();
        if (child_ == 0) {
            dup2(ends[1], STDOUT_FILENO);
            close(ends[0]);
            close(ends[1]);
            execlp("xz", "xz", "-dcqq", "--", name_.c_str(), static_cast<char*>(nullptr));
            _exit(127);
        }
        close(ends[1]);
        return fdopen(ends[0], "rb");
    }
};

template <int ROWS>
class OpeningTable {
  public:
    explicit OpeningTable(const Board<ROWS>& board) : board_(board) {}

    // Reads files of lines `moves,value`, each behind one that says so. All have as many moves, and the value is that for
    // the side to move.
    void read(const std::vector<std::string>& names) {
        std::vector<Entry> entries;
        size_t men = std::string::npos;
        for (const std::string& name : names) read_file(name, men, entries);
        std::sort(entries.begin(), entries.end());
        entries_.swap(entries);
        men_ = int(men);
    }

    // How many men the positions of the table have; -1 where there is none.
    int men() const { return men_; }

    size_t size() const { return entries_.size(); }

    // The value of a position for the side to move, 1, 0 or -1; or UNKNOWN.
    int find(Position at) const {
        Word key = least_key(at);
        auto entry = std::lower_bound(entries_.begin(), entries_.end(), Entry{key, 0});
        return entry != entries_.end() && entry->key == key ? entry->value : UNKNOWN;
    }

    // The smaller number of a position and its mirror image, which are worth the same.
    Word least_key(Position at) const { return std::min(board_.key(at), board_.mirrored(board_.key(at))); }

    static constexpr int UNKNOWN = 2;

  private:
    struct Entry {
        Word key;
        int value;
        bool operator<(const Entry& other) const { return key < other.key; }
    };

    const Board<ROWS>& board_;
    std::vector<Entry> entries_;  // in order
    int men_ = -1;

    // Adds the entries of a file, which tells how many men there are where none did before.
    void read_file(const std::string& name, size_t& men, std::vector<Entry>& entries) const {
        TableText text(name);
        std::string line;
        size_t number = 1;
        bool is_right = text.read(line) && line == "moves,value";
        while (is_right && text.read(line)) {
            if (++number == 2 && men == std::string::npos) men = line.find(',');
            is_right = reads(line, men, entries);
        }
        text.finish();
        if (!is_right || number == 1) {
            throw Fault(name + " is no table of this board: line " + std::to_string(number));
        }
    }

    bool reads(const std::string& line, size_t men, std::vector<Entry>& entries) const {
        size_t comma = line.find(',');
        if (comma == 0 || comma != men) return false;
        Position at = {0, 0};
        for (size_t n = 0; n < comma; ++n) {
            int column = line[n] - 'a';
            if (column < 0 || column >= board_.columns || board_.is_ended(at)) return false;
            Word square = board_.playable(at.men) & board_.column(column);
            if (!square) return false;
            at = board_.after(at, square);
        }
        std::string value = line.substr(comma + 1);
        if (value != "win" && value != "draw" && value != "loss") return false;
        entries.push_back({least_key(at), value == "win" ? 1 : value == "draw" ? 0 : -1});
        return true;
    }
};

// Where a proof is written to.
#pragma once

#include <cerrno>
#include <cstdio>
#include <cstring>
#include <filesystem>
#include <string>
#include <sys/stat.h>
#include <unistd.h>

#include "fault.h"

// The file that a name stands for, behind any links, which needn't be there.
inline std::string file_behind(std::string name) {
    namespace fs = std::filesystem;
    std::error_code none;
    for (int links = 0; links < 40 && fs::is_symlink(fs::symlink_status(name, none)); links++) {
        fs::path to = fs::read_symlink(name, none);
        name = to.is_absolute() ? to : fs::path(name).parent_path() / to;
    }
    return name;
}

// Where the proof goes: standard output, or a file's FILE.part until it is whole. A pipe or a device is written to as
// it stands.
class Output {
  public:
    explicit Output(const std::string& name) : said_(name.empty() ? "standard output" : name) {
        struct stat there;
        if (name.empty()) {
            file_ = stdout;
        } else if (!stat(name.c_str(), &there) && !S_ISREG(there.st_mode)) {
            file_ = fopen(name.c_str(), "wb");
        } else {
            name_ = file_behind(name);
            file_ = fopen(part().c_str(), "wb");
        }
        if (!file_) fails();
    }

    ~Output() {
        if (file_ && file_ != stdout) fclose(file_);
        if (file_ && !name_.empty()) unlink(part().c_str());
    }

    void write(const std::string& text) {
        waiting_ += text;
        if (waiting_.size() >= BLOCK) flush();
    }

    void finish() {
        flush();
        if (fflush(file_)) fails();
        if (file_ == stdout) return;
        if (fsync(fileno(file_)) && errno != EINVAL && errno != EROFS) fails();
        FILE* file = file_;
        file_ = nullptr;
        if (fclose(file) || (!name_.empty() && rename(part().c_str(), name_.c_str()))) {
            int why = errno;
            if (!name_.empty()) unlink(part().c_str());
            errno = why;
            fails();
        }
    }

  private:
    static constexpr size_t BLOCK = 1 << 18;  // bytes that are written at once

    std::string said_;
    std::string name_;  // of the file that gets its name at the end; none where it is written to as it stands
    FILE* file_;
    std::string waiting_ = "";

    void flush() {
        if (fwrite(waiting_.data(), 1, waiting_.size(), file_) != waiting_.size()) fails();
        waiting_.clear();
    }

    std::string part() const { return name_ + ".part"; }
    [[noreturn]] void fails() { throw Fault("can't write " + said_ + ": " + strerror(errno)); }
};

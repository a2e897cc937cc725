// How both programs read files, and the numbers behind options.
#pragma once

#include <cerrno>
#include <cstdint>
#include <cstdio>
#include <cstdlib>
#include <cstring>
#include <string>

#include "fault.h"

// The first bytes of a file, at most so many; of standard input where there is no name.
inline std::string read_all(const std::string& name, size_t most) {
    FILE* file = name.empty() ? stdin : fopen(name.c_str(), "rb");
    if (!file) throw Fault("can't read " + name + ": " + strerror(errno));
    std::string text(most, '\0');
    text.resize(fread(text.data(), 1, most, file));
    bool failed = ferror(file);
    int why = errno;
    if (file != stdin) fclose(file);
    if (failed) throw Fault("can't read " + (name.empty() ? "standard input" : name) + ": " + strerror(why));
    return text;
}

inline uint64_t number_of(const std::string& option, const char* text, uint64_t least, uint64_t most) {
    uint64_t number = 0;
    bool is_number = text && *text && strlen(text) <= 12 && strspn(text, "0123456789") == strlen(text);
    if (is_number) number = strtoull(text, nullptr, 10);
    if (!is_number || number < least || number > most) {
        throw Fault(option + " takes a number from " + std::to_string(least) + " to " + std::to_string(most));
    }
    return number;
}

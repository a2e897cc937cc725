// Objects in JSON, written one a line.
#pragma once

#include <cstdint>
#include <cstdio>
#include <string>

// A text in quotes. Bytes that aren't printable ASCII come as if each were a character of its own.
inline std::string quoted(const std::string& text) {
    std::string quoted = "\"";
    for (unsigned char letter : text) {
        if (letter == '"' || letter == '\\') {
            quoted += '\\';
            quoted += char(letter);
        } else if (letter >= ' ' && letter < 127) {
            quoted += char(letter);
        } else {
            char code[8];
            snprintf(code, sizeof code, "\\u%04x", letter);
            quoted += code;
        }
    }
    return quoted + '"';
}

// An object, whose members stand in the order in which they were added.
class JsonObject {
  public:
    JsonObject& add(const char* name, const std::string& text) { return member(name, quoted(text)); }
    JsonObject& add(const char* name, const char* text) { return member(name, quoted(text)); }
    JsonObject& add(const char* name, bool is_so) { return member(name, is_so ? "true" : "false"); }
    JsonObject& add(const char* name, int number) { return member(name, std::to_string(number)); }
    JsonObject& add(const char* name, uint64_t number) { return member(name, std::to_string(number)); }

    JsonObject& add_seconds(const char* name, double seconds) {
        char digits[32];
        snprintf(digits, sizeof digits, "%.6f", seconds);
        return member(name, digits);
    }

    // Writes it as one line, at once.
    void write() const {
        std::string line = "{" + members_ + "}\n";
        fwrite(line.data(), 1, line.size(), stdout);
        fflush(stdout);
    }

  private:
    std::string members_;

    JsonObject& member(const char* name, const std::string& value) {
        members_ += (members_.empty() ? "" : ", ") + quoted(name) + ": " + value;
        return *this;
    }
};

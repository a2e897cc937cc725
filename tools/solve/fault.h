// What a program can't do, said in one line.
#pragma once

#include <cstdio>
#include <new>
#include <stdexcept>
#include <string>

struct Fault : std::runtime_error {
    using std::runtime_error::runtime_error;
};

// The status of a program that runs this: 0, or 2 behind a line that says why.
template <class Run>
int status_of(const char* program, Run run) {
    std::string why;
    try {
        run();
        return 0;
    } catch (const std::bad_alloc&) {
        why = "out of memory";
    } catch (const std::exception& fault) {
        why = fault.what();
    }
    fprintf(stderr, "%s: %s\n", program, why.c_str());
    return 2;
}

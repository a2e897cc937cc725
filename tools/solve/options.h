// The options of `solve`, each once: its parser, its --help and the table of docs/SOLVED.md come from here.
#pragma once

#include <algorithm>
#include <cstdio>
#include <functional>
#include <string>
#include <vector>

#include "input.h"
#include "say.h"
#include "strategy.h"

// What a command line asks for.
struct Request {
    Options options;
    std::string input, output;  // files; standard input and output where they are empty
    bool wants_help = false, wants_table = false;
};

using Values = const std::vector<std::string>&;
using Take = std::function<void(Request&, Values)>;

struct Option {
    std::string name, value;  // what stands behind it: a word, two, or none
    std::string text;         // what it does
    Take take;
    std::string unset = {};  // what holds without it
};

// A number, which is shifted to the left by so many bits.
template <class Number>
Take number(const char* name, uint64_t least, uint64_t most, Number Options::*place, int shift = 0) {
    return [=](Request& asked, Values values) {
        asked.options.*place = Number(number_of(name, values[0].c_str(), least, most) << shift);
    };
}

template <class Number>
std::string default_of(Number Options::*place, int shift = 0) {
    return std::to_string(uint64_t(Options().*place) >> shift);
}

inline Take text(std::string Options::*place) {
    return [=](Request& asked, Values values) { asked.options.*place = values[0]; };
}

inline Take flag(bool Options::*place, bool set = true) {
    return [=](Request& asked, Values) { asked.options.*place = set; };
}

inline const std::vector<Option>& all_options() {
    static const std::vector<Option> all = {
        {"-o", "FILE",
         "the file that the proof is written to; without it, standard output",
         [](Request& asked, Values values) { asked.output = values[0]; }},
        {"--memory", "MIB",
         "memory for the tables, of which the search takes up to a third, and 264 MiB at most after the first "
         "moves",
         number("--memory", 1, 1 << 20, &Options::memory, 20), default_of(&Options::memory, 20)},
        {"--lemmas", "N",
         "no proof with more lemmas is written",
         number("--lemmas", 1, 10'000'000, &Options::lemmas), default_of(&Options::lemmas)},
        {"--book", "FILE",
         "moves that are tried first, where they stand in this file",
         text(&Options::book)},
        {"--table", "FILE",
         "a table of openings with their values, which aren't searched then (docs/OPENINGS.md); may stand more than "
         "once",
         [](Request& asked, Values values) { asked.options.table.push_back(values[0]); }},
        {"--outline", "N",
         "with a table, a side that wins spends at most N nodes of the search to see which moves leave little to show",
         number("--outline", 0, 1'000'000'000, &Options::outline), default_of(&Options::outline)},
        {"--soon", "N",
         "a side that wins takes a move behind which it wins within N moves, as soon as can be, where a short search sees "
         "that; 0 for never",
         number("--soon", 0, 30, &Options::soon), default_of(&Options::soon)},
        {"--mirror", "N",
         "with at most N men, the first strategy takes the image of a move that it has already; 0 for none",
         number("--mirror", 0, 63, &Options::mirror), default_of(&Options::mirror)},
        {"--reach", "N",
         "of a position where White mustn't win, at most N layouts of a plan are tried; 0 for no plans",
         number("--reach", 0, 1'000'000, &Options::reach), default_of(&Options::reach)},
        {"--order", "N",
         "the order of moves of the first strategy, 0 to 3; 4 takes 1 or 2, whichever gives a smaller one",
         number("--order", 0, 4, &Options::order), default_of(&Options::order)},
        {"--closure", "N",
         "order 2 takes a move after which each move is answered in its own column, where this meets at "
         "most N positions; 0 for never",
         number("--closure", 0, 1'000'000, &Options::closure), default_of(&Options::closure)},
        {"--covers", "",
         "where a side mustn't lose, orders 1 to 3 take a square on top of a man of the other side's first",
         flag(&Options::covers)},
        {"--part", "N",
         "parts with at least N moves are bettered while the first strategy grows; 0 for none",
         number("--part", 0, 1'000'000'000, &Options::part), default_of(&Options::part)},
        {"--high", "N",
         "with at most N men each winning move is tried while the first strategy grows; 0 for none",
         number("--high", 0, 63, &Options::high), default_of(&Options::high)},
        {"--probe", "N",
         "such a trial ends where it adds N positions",
         number("--probe", 1, 1'000'000'000, &Options::probe), default_of(&Options::probe)},
        {"--no-reuse", "",
         "a position that the strategy has already isn't preferred",
         flag(&Options::reuses, false)},
        {"--look", "N",
         "with at most N empty squares each winning move is tried",
         number("--look", 0, 63, &Options::look), default_of(&Options::look)},
        {"--rounds", "N",
         "at most N rounds of better choices",
         number("--rounds", 0, 1000, &Options::rounds), default_of(&Options::rounds)},
        {"--sweeps", "N",
         "after them at most N sweeps, each with many renewals; three that bring nothing are the last",
         number("--sweeps", 0, 1'000'000'000, &Options::sweeps), default_of(&Options::sweeps)},
        {"--nodes", "N",
         "nodes that may be spent to see whether another move wins",
         number("--nodes", 0, 1'000'000'000, &Options::nodes), default_of(&Options::nodes)},
        {"--starts", "N",
         "the part below each position of the prover's with N or N + 1 men (N even; 1 stands for none or "
         "one man) is taken in by five orders, and the smallest stays; 0 for none",
         number("--starts", 0, 63, &Options::starts), default_of(&Options::starts)},
        {"--seed", "N",
         "of what is chosen at random",
         number("--seed", 0, 1'000'000'000, &Options::seed), default_of(&Options::seed)},
        {"--format", "N",
         "2: a position and its image are one, and lemmas by images are written",
         number("--format", 1, 2, &Options::format), default_of(&Options::format)},
        {"--start", "FILE",
         "the moves of this proof are the first strategy, and its value is taken without a search",
         text(&Options::start)},
        {"--also", "FILE",
         "the moves of this proof are what an order chooses after it, and before a graph is made smaller its parts are "
         "taken where that makes it no larger; may stand more than once",
         [](Request& asked, Values values) { asked.options.also.push_back(values[0]); }},
        {"--changes", "OLD NEW",
         "after `--start`: where the proof NEW has another move than the proof OLD, it is taken over; may"
         " stand more than once",
         [](Request& asked, Values values) {
             for (const std::string& value : values) asked.options.changes.push_back(value);
         }},
        {"--below", "MOVES",
         "only what comes from the position after these moves alone is swept and renewed, in a graph too;"
         " may stand more than once",
         [](Request& asked, Values values) { asked.options.below.emplace_back().moves = values[0]; }},
        {"--beside", "",
         "all but that is",
         flag(&Options::beside)},
        {"--graph", "MIB",
         "memory beside that for a graph, in which the strategy is made smaller before the sweeps; 0 for "
         "none",
         number("--graph", 0, 1 << 20, &Options::graph, 20), default_of(&Options::graph, 20)},
        {"--work", "N",
         "in the graph at most N million positions are taken in or searched, so that the same words give the same proof on "
         "a machine of any speed",
         [](Request& asked, Values values) {
             asked.options.work = 1'000'000 * number_of("--work", values[0].c_str(), 0, 1'000'000'000);
         }},
        {"--heat", "N",
         "in the graph a change may make it larger by a number drawn at random, N hundredths on average; it falls to "
         "that of `--cool` until 85 parts in 100 of `--seconds` are over or of `--work` are done",
         number("--heat", 0, 10'000, &Options::heat), default_of(&Options::heat)},
        {"--cool", "N",
         "what `--heat` comes to at the end",
         number("--cool", 0, 10'000, &Options::cool), default_of(&Options::cool)},
        {"--seconds", "N",
         "no choice is bettered after N CPU seconds, but in the first strategy, nor is "
         "another one taken in",
         number("--seconds", 0, 1'000'000'000, &Options::seconds)},
        {"--roots", "FILE INDEX",
         "lemmas for the values of the positions in FILE, each a line of moves that begins with the game's, in "
         "one text, as many as `--lemmas` allows; INDEX says which lemma shows the value of which",
         [](Request& asked, Values values) {
             asked.options.roots = values[0];
             asked.options.index = values[1];
         }},
        {"--quiet", "",
         "nothing is said but a fault",
         [](Request&, Values) { progress.is_quiet = true; }},
    };
    return all;
}

// How many words stand behind an option.
inline size_t count_of_values(const Option& option) {
    return option.value.empty() ? 0 : size_t(1 + std::count(option.value.begin(), option.value.end(), ' '));
}

inline std::string named(const Option& option) {
    return option.value.empty() ? option.name : option.name + " " + option.value;
}

// Prints a text in lines that begin in one column.
inline void print_wrapped(const std::string& head, const std::string& text) {
    constexpr size_t left = 22, wide = 76;
    printf("  %-*s", int(left - 2), head.c_str());
    size_t begin = 0;
    while (text.size() - begin > wide) {
        size_t end = text.rfind(' ', begin + wide);
        printf("%s\n%*s", text.substr(begin, end - begin).c_str(), int(left), "");
        begin = end + 1;
    }
    printf("%s\n", text.substr(begin).c_str());
}

inline void print_help() {
    printf("usage: solve [OPTION]... [GAME]\n"
           "Reads the text of a game from the file GAME or from standard input, and writes a proof of its value. A number\n"
           "in brackets is what holds without the option. docs/SOLVED.md says more.\n");
    for (const Option& option : all_options()) {
        print_wrapped(named(option), option.text + (option.unset.empty() ? "" : " (" + option.unset + ")"));
    }
    print_wrapped("--help-table", "the same as a table in Markdown");
}

inline void print_table() {
    printf("| option | | without it |\n|---|---|---|\n");
    for (const Option& option : all_options()) {
        std::string unset = option.unset.empty() ? "" : option.unset + " ";
        printf("| `%s` | %s | %s|\n", named(option).c_str(), option.text.c_str(), unset.c_str());
    }
}

// Takes the option that a word names, with the words behind it. The number of words taken.
inline int take_option(Request& asked, const std::string& word, int left, char** words) {
    for (const Option& option : all_options()) {
        if (option.name != word) continue;
        std::vector<std::string> values(words, words + std::min(size_t(left), count_of_values(option)));
        bool is_whole = values.size() == count_of_values(option);
        for (const std::string& value : values) is_whole = is_whole && !value.empty();
        if (!is_whole) throw Fault(word + " takes " + option.value + " behind it");
        option.take(asked, values);
        return int(values.size());
    }
    throw Fault("unknown option " + word + "; --help lists them");
}

inline Request read_words(int count, char** words) {
    Request asked;
    for (int n = 1; n < count; ++n) {
        std::string word = words[n];
        if (word == "--help") asked.wants_help = true;
        else if (word == "--help-table") asked.wants_table = true;
        else if (word[0] == '-' && word != "-") n += take_option(asked, word, count - n - 1, words + n + 1);
        else if (asked.input.empty()) asked.input = word;
        else throw Fault("more than one game is named");
    }
    return asked;
}

// What the engine knows of a board, and what can be asked of it.
#pragma once

#include <memory>

#include "analyst.h"
#include "answer.h"
#include "options.h"
#include "prover.h"

class Desk {
  public:
    virtual ~Desk() = default;

    // Answers `value`, `outcome`, `score`, `line`, or `proof` with the words behind the moves.
    virtual void answer(const std::string& kind, const Game& game, const std::vector<std::string>& words,
                        Answer& answer) = 0;

    // Reads a table of openings from files. How many positions it has.
    virtual size_t read_table(const std::vector<std::string>& names) = 0;
};

template <int ROWS>
class DeskOf : public Desk {
  public:
    DeskOf(const Board<ROWS>& board, BoundTables& tables)
        : board_(board), tables_(tables), scorer_(board_, tables), openings_(board_, scorer_),
          analyst_(board_, scorer_, openings_) {}

    void answer(const std::string& kind, const Game& game, const std::vector<std::string>& words,
                Answer& answer) override {
        Position at = position_of(game, board_);
        uint64_t before = scorer_.nodes;
        auto say = [&](char letter, const char* value, int to_end) { answer.say(letter, value, to_end); };
        scorer_.look = [&] { answer.look(); };
        try {
            answer.look();
            if (kind == "value") analyst_.values(at, say);
            else if (kind == "outcome") say(0, analyst_.value(at), -1);
            else if (kind == "score") analyst_.scores(at, say);
            else if (kind == "line") say_line(at, answer);
            else prove(game, words, answer);
        } catch (const Stopped&) {
            // What was said stands.
        }
        answer.nodes += scorer_.nodes - before;
    }

    size_t read_table(const std::vector<std::string>& names) override { return openings_.read(names); }

  private:
    Board<ROWS> board_;
    BoundTables& tables_;
    Scorer<ROWS> scorer_;
    OpeningValues<ROWS> openings_;
    Analyst<ROWS> analyst_;

    void say_line(Position at, Answer& answer) {
        int score = analyst_.score_of(at);
        JsonObject said = answer.object();
        said.add("value", value_of({score, score}));
        said.add("moves_to_end", board_.is_ended(at) ? 0 : analyst_.moves_to_end(at, score));
        std::string line;
        for (; !board_.is_ended(at); score = -score) {
            Word square = analyst_.best_move(at, score);
            line += char('a' + __builtin_ctzll(square) / Board<ROWS>::HEIGHT);
            at = board_.after(at, square);
        }
        said.add("line", line).write();
    }

    // Writes a proof to the file that the first word names, by options of `solve` and a claim.
    void prove(const Game& game, std::vector<std::string> words, Answer& answer) {
        std::string name = words[0];
        std::optional<Claim> claim = claim_in(words);
        Options options = options_in(words);
        uint64_t most = answer.limits().strategy_bytes(tables_.bytes()) + tables_.bytes();
        options.memory = std::min(options.memory, most);
        progress = Progress();
        progress.is_quiet = true;
        progress.begin = Progress::now();
        progress.watch = [&] { answer.look(); };
        Prover<ROWS> prover(board_, game, options, tables_, &openings_);
        std::string verdict = claim ? prover.prove_claim(*claim, name) : prover.prove_value(name);
        answer.nodes = prover.nodes();
        JsonObject said = answer.object();
        said.add("file", name);
        if (claim) said.add("claim", claim->text());
        said.add("value", verdict.substr(6, verdict.find(' ', 6) - 6)).add("lemmas", uint64_t(prover.lemmas())).write();
    }

    // Takes `--claim C` out of the words.
    static std::optional<Claim> claim_in(std::vector<std::string>& words) {
        for (size_t n = 1; n < words.size(); ++n) {
            if (words[n] != "--claim") continue;
            std::string claim = n + 1 < words.size() ? words[n + 1] : "";
            if (claim != "W+" && claim != "W-" && claim != "B+" && claim != "B-") {
                throw Fault("--claim takes W+, W-, B+ or B-");
            }
            words.erase(words.begin() + long(n), words.begin() + long(n) + 2);
            return Claim{claim[0] == 'B', claim[1] == '+'};
        }
        return std::nullopt;
    }

    // The options behind the first word.
    static Options options_in(std::vector<std::string>& words) {
        std::vector<char*> all;
        for (std::string& word : words) all.push_back(word.data());
        Request asked = read_words(int(all.size()), all.data());
        bool has_other = asked.wants_help || asked.wants_table || !asked.options.table.empty();
        if (has_other || !asked.input.empty() || !asked.output.empty()) {
            throw Fault("proof takes moves, a file, and options of solve, but for -o, --table and --help");
        }
        return asked.options;
    }
};

// Proves the value of a game, or one claim.
#pragma once

#include <optional>

#include "better.h"
#include "game.h"
#include "moves.h"
#include "output.h"
#include "writer.h"

// The game, as a proof of it begins.
inline std::string head_of(const Game& game, int format) {
    return "victor " + std::to_string(format) + "\nboard " + std::to_string(game.columns) + " " +
           std::to_string(game.rows) + (game.length == 5 ? " 5" : "") + "\nmoves " +
           (game.moves.empty() ? "-" : game.moves) + "\n";
}

// The tables for the search, which take at most a third of the memory, and less where a game ends soon. More than this
// makes the search no quicker, but where nearly all squares are empty.
template <int ROWS>
BoundTables tables_for(const Board<ROWS>& board, const Game& game, const Options& options) {
    int empty = board.columns * ROWS - int(game.moves.size());
    uint64_t early = uint64_t(1) << std::min(empty > 36 ? 30 : 28, 10 + std::max(0, empty) * 3 / 4);
    return BoundTables(std::min(options.memory / 4, early), std::min(options.memory / 16, uint64_t(1) << 23));
}

// A claim of a proof: that one side, the asker, wins, or that it doesn't.
struct Claim {
    int asker;
    bool wins;

    std::string text() const { return std::string(asker ? "B" : "W") + (wins ? "+" : "-"); }

    // The side that shows it.
    int prover() const { return wins ? asker : 1 - asker; }
};

template <int ROWS>
class Prover {
  public:
    Prover(const Board<ROWS>& board, const Game& game, const Options& options, BoundTables& tables,
           OpeningValues<ROWS>* openings)
        : game_(game), options_(options), board_(board), root_(position_of(game, board_)), book_(board_),
          tables_(tables), openings_(openings) {
        if (!options.book.empty()) book_.read(options.book);
        if (!options.start.empty()) start_.emplace(board_, options.start);
        for (const std::string& name : options.changes) changes_.emplace_back(board_, name);
        for (const std::string& name : options.also) also_.emplace_back(board_, name);
        if (start_ && board_.key(start_->root()) != board_.key(root_)) {
            throw Fault(options.start + " is a proof of another game");
        }
        for (const Game& part : options.below) {
            if (part.moves.find_first_not_of(std::string("abcdefghij", size_t(board.columns))) != std::string::npos) {
                throw Fault("--below takes moves, and not " + part.moves);
            }
        }
        progress.bytes = tables_.bytes();
    }

    // Writes a proof of the value, and gives the line that says it.
    std::string prove_value(const std::string& name) {
        Output out(name);
        out.write(head_of(game_, options_.format));
        std::string verdict;
        if (int winner = winner_of(); winner >= 0) {
            verdict = verdict_of(winner, prove({winner, true}, out));
        } else {
            uint32_t black = prove({0, false}, out);
            verdict = "value draw " + std::to_string(black) + " " + std::to_string(prove({1, false}, out));
        }
        return finish(verdict, out);
    }

    // Writes lemmas for one claim. Where it isn't the value, the proof says nothing of that.
    std::string prove_claim(const Claim& claim, const std::string& name) {
        Output out(name);
        out.write(head_of(game_, options_.format));
        if (!holds(claim, root_)) throw Fault("the claim " + claim.text() + " is false here");
        uint32_t lemma = prove(claim, out);
        return finish(claim.wins ? verdict_of(claim.asker, lemma) : "value unknown", out);
    }

    uint32_t lemmas() const { return written_; }
    uint64_t nodes() const { return nodes_; }

  protected:
    const Game& game_;
    const Options& options_;
    Board<ROWS> board_;
    Position root_;
    Book<ROWS> book_;
    std::optional<ProofMoves<ROWS>> start_;
    std::vector<ProofMoves<ROWS>> changes_;  // old and new ones in turn
    std::vector<ProofMoves<ROWS>> also_;
    BoundTables& tables_;
    OpeningValues<ROWS>* openings_;
    uint32_t written_ = 0;
    uint64_t nodes_ = 0;

    std::string verdict_of(int winner, uint32_t lemma) const {
        return (winner == (count_of(root_.men) & 1) ? "value win " : "value loss ") + std::to_string(lemma);
    }

    std::string finish(const std::string& verdict, Output& out) {
        out.write(verdict + "\n");
        out.finish();
        if (!progress.is_quiet) {
            fprintf(stderr, "solve: %7.1f s, %s, %u lemmas\n", progress.seconds(), verdict.c_str(), written_);
        }
        return verdict;
    }

    // The side that wins, or -1. What a proof says is taken, since without it there is none to be written.
    int winner_of() {
        if (start_) return start_->value == "draw" ? -1 : (count_of(root_.men) & 1) ^ (start_->value != "win");
        return winner_at(root_);
    }

    int winner_at(Position at) {
        for (int asker : {0, 1}) {
            if (holds({asker, true}, at)) return asker;
        }
        return -1;
    }

    bool holds(const Claim& claim, Position at) {
        if (board_.is_ended(at)) {
            return (board_.is_won(at) && (count_of(at.men) & 1) != claim.asker) == claim.wins;
        }
        progress.stage = claim.asker ? "does Black win" : "does White win";
        Search<ROWS> search(board_, tables_, claim.asker, at, openings_);
        bool is_mover = (count_of(at.men) & 1) == claim.asker;
        bool wins = search.reaches(at, ~uint64_t(0)) == is_mover;
        progress.line(search.nodes());
        nodes_ += search.nodes();
        return wins == claim.wins;
    }

    // Writes the lemmas that show a claim. The number of the last.
    uint32_t prove(const Claim& claim, Output& out) {
        auto [asker, wins] = claim;
        Search<ROWS> search(board_, tables_, asker, root_, openings_);
        uint64_t bytes = options_.memory > tables_.bytes() ? options_.memory - tables_.bytes() : 0;
        Bettered<ROWS> strategy(board_, search, claim.prover(), book_, options_, bytes);
        progress.stage = "choosing";
        if (start_) {
            strategy.keep(start_->of(asker, wins));
            for (size_t n = 0; n < changes_.size(); n += 2) {
                strategy.keep_changed(changes_[n].of(asker, wins), changes_[n + 1].of(asker, wins));
            }
            strategy.start(root_);
        } else {
            strategy.build(root_);
        }
        progress.line(search.nodes());
        for (size_t n = 0; n < also_.size(); ++n) strategy.offer_strategy(also_[n].of(asker, wins), int(n % 4));
        better(strategy, search);
        nodes_ += search.nodes();
        if (written_ + strategy.size() > options_.lemmas) throw too_many(written_ + strategy.size());
        return Writer(board_, strategy, " " + claim.text() + " ", options_.format == 2, out, written_).write(root_);
    }

    Fault too_many(uint64_t lemmas) const {
        return Fault("the proof would have " + std::to_string(lemmas) + " lemmas, more than " +
                     std::to_string(options_.lemmas));
    }

    // Positions that renewals take in between two sweeps. By a small strategy's hundredfold alone the last of three
    // sweeps that brought nothing came before most parts were tried.
    static uint64_t work_for(uint64_t size) { return std::max(100 * size, std::min(uint64_t(2'000'000), 4000 * size)); }

    // Rounds, then sweeps and renewed parts in turn, while they make the strategy smaller.
    void better(Bettered<ROWS>& strategy, Search<ROWS>& search) {
        catch_signals();
        auto is_late = [&] { return progress.is_late(options_.seconds); };
        for (int n = 0; n < options_.rounds && !is_late(); ++n) {
            progress.stage = "improving";
            strategy.round(n % 5 < 4 ? n % 5 : 3, n % 5 == 4);
            progress.lemmas = strategy.size();
            progress.line(search.nodes());
        }
        if (options_.graph && !is_late()) {
            progress.stage = "renewing";
            strategy.better_in_graph();
        }
        int idle = 0;
        for (uint64_t n = 0; n < options_.sweeps && idle < 3 && !is_late(); ++n) {
            uint64_t before = strategy.size();
            progress.stage = "sweeping";
            strategy.sweep();
            progress.stage = "renewing";
            strategy.renew(work_for(before));
            progress.lemmas = strategy.size();
            progress.line(search.nodes());
            idle = before - strategy.size() > before / 50000 ? 0 : idle + 1;
        }
    }
};

// Proves the values of many positions in one text: those after one game, its ancestor. What they have in common is
// written once.
#pragma once

#include <fstream>
#include <memory>
#include <vector>

#include "prover.h"

// A position, and which lemmas show its value: two of a draw, else one.
struct Root {
    std::string moves;  // after those of the ancestor
    Position at;
    int winner = -1;
    std::vector<uint32_t> lemmas = {};
};

template <int ROWS>
class RootsProver : public Prover<ROWS> {
  public:
    RootsProver(const Board<ROWS>& board, const Game& game, const Options& options, BoundTables& tables,
                OpeningValues<ROWS>* openings)
        : Prover<ROWS>(board, game, options, tables, openings) {
        bool has_one = !options.start.empty() || !options.also.empty() || !options.changes.empty();
        if (has_one || !options.below.empty() || options.graph) {
            throw Fault("--roots takes none of --start, --also, --changes, --below and --graph");
        }
    }

    // Writes the lemmas, and the index. The roots stand in it in their order, as many as the text has room for.
    void prove(const std::string& name) {
        std::vector<Root> roots = read_roots();
        Output out(name), index(options_.index);
        out.write(head_of(game_, options_.format));
        take(roots);
        for (const std::unique_ptr<Part>& part : parts_) {
            if (part) write(*part, roots, out);
        }
        write_index(roots, index);
        this->finish("value unknown", out);
        index.finish();
    }

  private:
    using Base = Prover<ROWS>;
    using Base::board_;
    using Base::game_;
    using Base::nodes_;
    using Base::openings_;
    using Base::options_;
    using Base::root_;
    using Base::tables_;
    using Base::written_;

    // A claim, and the strategy that shows it at all roots where it is wanted.
    struct Part {
        Claim claim;
        Search<ROWS> search;
        Bettered<ROWS> strategy;

        Part(const Claim& claim_, RootsProver& prover, uint64_t bytes)
            : claim(claim_), search(prover.board_, prover.tables_, claim.asker, prover.root_, prover.openings_),
              strategy(prover.board_, search, claim.prover(), prover.book_, prover.options_, bytes) {}
    };

    std::unique_ptr<Part> parts_[4];  // by the claim's asker, and whether it wins

    std::vector<Root> read_roots() const {
        std::ifstream file(options_.roots);
        if (!file) throw Fault("can't read " + options_.roots);
        std::vector<Root> roots;
        for (std::string line; std::getline(file, line);) {
            size_t size = game_.moves.size();
            Game game = game_;
            game.moves = line == "-" ? "" : line;
            bool has_letters = game.moves.find_first_not_of(letters()) == std::string::npos;
            if (!has_letters || line.empty() || game.moves.compare(0, size, game_.moves)) {
                std::string line_number = std::to_string(roots.size() + 1);
                throw Fault(options_.roots + " has no moves after the game's: line " + line_number);
            }
            roots.push_back({game.moves.substr(size), position_of(game, board_)});
        }
        if (roots.empty()) throw Fault(options_.roots + " has no positions");
        return roots;
    }

    std::string letters() const { return std::string("abcdefghij", size_t(board_.columns)); }

    static std::vector<Claim> claims_of(const Root& root) {
        if (root.winner >= 0) return {{root.winner, true}};
        return {{0, false}, {1, false}};
    }

    Part& part_of(const Claim& claim) {
        std::unique_ptr<Part>& part = parts_[claim.asker * 2 + claim.wins];
        uint64_t bytes = options_.memory > tables_.bytes() ? (options_.memory - tables_.bytes()) / 4 : 0;
        if (!part) part = std::make_unique<Part>(claim, *this, bytes);
        return *part;
    }

    uint64_t size() const {
        uint64_t size = 0;
        for (const std::unique_ptr<Part>& part : parts_) size += part ? part->strategy.size() : 0;
        return size;
    }

    // Takes the roots in, in turn. That with which there are too many lemmas, and those after it, are left out.
    void take(std::vector<Root>& roots) {
        for (size_t n = 0; n < roots.size(); ++n) {
            roots[n].winner = this->winner_at(roots[n].at);
            progress.stage = "choosing";
            for (const Claim& claim : claims_of(roots[n])) part_of(claim).strategy.add(roots[n].at);
            if (size() <= options_.lemmas) continue;
            if (n == 0) throw this->too_many(size());
            for (const Claim& claim : claims_of(roots[n])) part_of(claim).strategy.take_back();
            roots.resize(n);
        }
    }

    void write(Part& part, std::vector<Root>& roots, Output& out) {
        this->better(part.strategy, part.search);
        nodes_ += part.search.nodes();
        Writer writer(board_, part.strategy, " " + part.claim.text() + " ", options_.format == 2, out, written_);
        for (Root& root : roots) {
            for (const Claim& claim : claims_of(root)) {
                if (claim.text() == part.claim.text()) root.lemmas.push_back(writer.write_after(root.moves, root.at));
            }
        }
    }

    void write_index(const std::vector<Root>& roots, Output& index) const {
        index.write("moves,value,lemma,second\n");
        for (const Root& root : roots) {
            bool is_movers = root.winner == (count_of(root.at.men) & 1);
            std::string value = root.winner < 0 ? "draw" : is_movers ? "win" : "loss";
            std::string second = root.lemmas.size() > 1 ? std::to_string(root.lemmas[1]) : "";
            std::string moves = game_.moves + root.moves;
            index.write((moves.empty() ? "-" : moves) + "," + value + "," + std::to_string(root.lemmas[0]) + "," +
                        second + "\n");
        }
    }
};

// Solves a game and writes a proof of its value, which `victor check` judges. Nothing here is trusted.
#include <csignal>

#include "game.h"
#include "options.h"
#include "roots.h"

static void run(int count, char** words) {
    Request asked = read_words(count, words);
    if (asked.wants_help) return print_help();
    if (asked.wants_table) return print_table();
    Game game = game_of(asked.input);
    with_board(game, [&](const auto& board) {
        const Options& options = asked.options;
        BoundTables tables = tables_for(board, game, options);
        Scorer scorer(board, tables);
        scorer.look = [&] { say_now(scorer.nodes); };
        OpeningValues openings(board, scorer);
        if (!options.table.empty()) openings.read(options.table);
        if (options.roots.empty()) Prover(board, game, options, tables, &openings).prove_value(asked.output);
        else RootsProver(board, game, options, tables, &openings).prove(asked.output);
    });
}

int main(int count, char** words) {
    // A file that gets too large is a fault like others.
    signal(SIGXFSZ, SIG_IGN);
    return status_of("solve", [&] { run(count, words); });
}

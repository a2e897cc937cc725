// Answers questions about positions, one a line, and keeps what it finds for the next. docs/ENGINE.md has the protocol.
// Nothing here is trusted: what it says is searched, and not proved.
#include <cmath>
#include <optional>

#include "desk.h"

static const char usage[] =
    "usage: engine\n"
    "Reads requests from standard input, one a line, and writes objects in JSON to standard output, one a line:\n"
    "value MOVES, outcome MOVES, score MOVES, line MOVES, proof MOVES FILE [OPTION]..., stop, board C R [5],\n"
    "limits SECONDS MIB, table FILE... and new. docs/ENGINE.md says more.\n";

class Engine {
  public:
    void run() {
        Requests requests;
        while (auto question = requests.next()) requests.finish(last_object(*question));
    }

  private:
    using Words = std::vector<std::string>;

    Limits limits_;
    Game board_ = usual_board();
    std::optional<BoundTables> tables_;
    std::unique_ptr<Desk> desk_;

    static Game usual_board() {
        Game game;
        game.columns = 7;
        game.rows = 6;
        return game;
    }

    JsonObject last_object(const Question& question) {
        Answer answer(question, limits_);
        try {
            respond(words_of(question.line), answer);
            return answer.end();
        } catch (const std::bad_alloc&) {
            return answer.fault("out of memory");
        } catch (const std::exception& fault) {
            return answer.fault(fault.what());
        }
    }

    void respond(Words words, Answer& answer) {
        std::string kind = words.empty() ? "" : words[0];
        if (!words.empty()) words.erase(words.begin());
        if (kind == "value" || kind == "outcome" || kind == "score" || kind == "line") {
            needs(words.size() == 1, kind + " takes moves, as dcd, or - for none");
            ask(kind, words, answer);
        } else if (kind == "proof") {
            needs(words.size() >= 2 && !words[1].empty(), "proof takes moves, a file, and options of solve");
            ask(kind, words, answer);
        } else if (kind == "table") {
            needs(!words.empty(), "table takes names of files");
            answer.object().add("positions", uint64_t(desk().read_table(words))).write();
        } else if (kind == "board") {
            set_board(words);
        } else if (kind == "limits") {
            set_limits(words);
        } else {
            needs(kind == "new" || kind == "stop",
                  "a request is value, outcome, score, line, proof, stop, board, limits, table or new");
            needs(words.empty(), kind + " takes nothing behind it");
            if (kind == "new") forget();
        }
    }

    static void needs(bool is_right, const std::string& why) {
        if (!is_right) throw Fault(why);
    }

    // The words are the moves and what stands behind them.
    void ask(const std::string& kind, Words words, Answer& answer) {
        Game game = game_in(text_of(board_) + (words[0].empty() ? "?" : words[0]));
        words.erase(words.begin());
        desk().answer(kind, game, words, answer);
    }

    // The desk for the board, which is made when it is first asked.
    Desk& desk() {
        if (!tables_) make_tables();
        if (!desk_) {
            with_board(board_, [&](const auto& board) { desk_ = desk_of(board); });
        }
        return *desk_;
    }

    template <int ROWS>
    std::unique_ptr<Desk> desk_of(const Board<ROWS>& board) {
        return std::make_unique<DeskOf<ROWS>>(board, *tables_);
    }

    // A desk finds new tables where the old ones were.
    void make_tables() {
        tables_.emplace(limits_.early_bytes(), limits_.late_bytes());
        tables_->touch();
    }

    // Bounds are facts of a board: nothing is forgotten while it stays.
    void forget() {
        if (!tables_) return make_tables();
        tables_->clear();
        tables_->touch();
    }

    // The text of a game up to its moves.
    static std::string text_of(const Game& game) {
        return "board " + std::to_string(game.columns) + " " + std::to_string(game.rows) +
               (game.length == 5 ? " 5" : "") + "\nmoves ";
    }

    static Game game_in(const std::string& text) {
        Game game;
        std::string kind;
        size_t place = 0;
        if (read_game(text, game, kind, place)) return game;
        needs(kind != "BadSize" && kind != "BadHeader",
              "board takes from 4 to 10 columns, 4, 6, 8 or 10 rows, and 5 for lines of five");
        throw Fault("moves are the letters of columns, as dcd, or - for none");
    }

    void set_board(const Words& words) {
        std::string text = "board";
        for (const std::string& word : words) text += " " + word;
        Game game = game_in(text + "\nmoves -");
        with_board(game, [](const auto&) {});
        if (text_of(game) == text_of(board_)) return;
        board_ = game;
        desk_.reset();
        forget();
    }

    // What is known is kept, unless the tables get another size.
    void set_limits(const Words& words) {
        const char* why = "limits takes seconds, 0 for any number, and MiB from 16 to 1048576";
        needs(words.size() == 2 && !words[0].empty(), why);
        char* end = nullptr;
        Limits limits;
        limits.seconds = strtod(words[0].c_str(), &end);
        bool is_number = words[0].find_first_not_of("0123456789.") == std::string::npos && !*end;
        needs(is_number && std::isfinite(limits.seconds), why);
        limits.mib = number_of("limits", words[1].c_str(), 16, 1 << 20);
        bool is_same = limits.early_bytes() == limits_.early_bytes() && limits.late_bytes() == limits_.late_bytes();
        limits_ = limits;
        if (!is_same || !tables_) make_tables();
    }
};

int main(int count, char** words) {
    if (count > 1) {
        bool asks_help = std::string(words[1]) == "--help";
        fputs(usage, asks_help ? stdout : stderr);
        return asks_help ? 0 : 2;
    }
    return status_of("engine", [] { Engine().run(); });
}

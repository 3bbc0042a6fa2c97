#include "lines.hpp"

namespace {

constexpr int NAME_COLUMNS = 2;

std::string digits_of(const ddTableResults &table) {
    std::string digits;
    for (int seat : DECLARERS)
        for (int strain : STRAINS)
            digits += "0123456789abcd"[table.resTable[strain][seat]];
    return digits;
}

// The side and the score of par.
std::string score_of(const ParScore &par) {
    return par.side + " " + std::to_string(par.score);
}

// Par as a line of tricks has it.
std::string text_of(const ParScore &par) {
    return score_of(par) + (par.contracts.empty() ? "" : " " + par.contracts);
}

// A text set right in its columns.
std::string set_right(const std::string &text) {
    return std::string(NAME_COLUMNS - text.size(), ' ') + text;
}

// The rows of the table of results, which follow its tag.
std::string rows_of(const ddTableResults &table, const std::string &end) {
    static const std::string seats = "NESW";
    static const std::string strains[DDS_STRAINS] = {"S", "H", "D", "C", "NT"};
    std::string rows;
    for (int seat : DECLARERS)
        for (int strain : STRAINS)
            rows += end + seats[seat] + ' ' + set_right(strains[strain]) + ' ' +
                    set_right(std::to_string(table.resTable[strain][seat]));
    return rows;
}

std::string json_names(const ddTableResults &table, const std::optional<ParScore> &par) {
    const std::string names = ",\"tricks\":\"" + digits_of(table) + '"';
    return par ? names + ",\"par\":\"" + text_of(*par) + '"' : names;
}

// The tags that a board doesn't have, each on a line of its own after another.
std::string pbn_tags(const Board &board, const ddTableResults &table, const std::string &end) {
    std::string tags;
    const auto add = [&](const char *name, const std::string &value) {
        const bool is_new = !board.tags.count(name);
        if (is_new)
            tags += end + '[' + name + " \"" + value + "\"]";
        return is_new;
    };
    add("DoubleDummyTricks", digits_of(table));
    const auto par = par_of(board, table);
    if (par)
        add("OptimumScore", score_of(*par));
    if (par && !par->contracts.empty())
        add("ParContract", par->contracts);
    if (add("OptimumResultTable", "Declarer;Denomination\\2R;Result\\2R"))
        tags += rows_of(table, end);
    return tags;
}

// The end of a line that begins at a place, with what is before it there; a line feed where the input ends.
std::string end_of_line(const std::string &text, size_t at) {
    const size_t feed = text.find('\n', at);
    return feed != std::string::npos && feed > 0 && text[feed - 1] == '\r' ? "\r\n" : "\n";
}

// Adds the tags after the deal. What follows on the deal's line gets a line of its own.
void add_tags(std::string &text, const Board &board, const ddTableResults &table) {
    const std::string end = end_of_line(text, board.add_at), tags = pbn_tags(board, table, end);
    const size_t next = text.find_first_not_of(" \t\r", board.add_at);
    const bool is_followed = next != std::string::npos && text[next] != '\n';
    if (!tags.empty())
        text.insert(board.add_at, tags + (is_followed ? end : ""));
}

} // namespace

std::string line_of(const Board &board, Solver &solver) {
    const ddTableResults table = solver.table();
    const auto par = par_of(board, table);
    return digits_of(table) + (par ? " " + text_of(*par) : "") + ' ' + deal_text(*board.cards) + '\n';
}

std::string with_tricks(const Board &board, Solver &solver) {
    if (board.has_tricks)
        return board.text;
    const ddTableResults table = solver.table();
    std::string text = board.text;
    if (board.form == Form::json)
        return text.insert(board.add_at, json_names(table, par_of(board, table)));
    const auto fill = [&] {
        if (board.unread)
            text.replace(board.unread->at, board.unread->length, digits_of(table));
    };
    // What comes first in the text is changed last, so that the other's place stays.
    const bool is_before = board.unread && board.unread->at < board.add_at;
    if (!is_before)
        fill();
    add_tags(text, board, table);
    if (is_before)
        fill();
    return text;
}

#include "pbn.hpp"

#include <algorithm>
#include <utility>

namespace {

constexpr const char *BLANKS = " \t\r\n";
// A board's number that is longer isn't told.
constexpr size_t MOST_DIGITS = 13;
const std::set<std::string> TAGS_OF_TRICKS = {"DoubleDummyTricks", "OptimumScore", "ParContract", "OptimumResultTable"};
// A digit for each declarer and strain.
constexpr size_t TRICKS = 20;

// Whether the first bytes of a text are blanks alone.
bool is_blank(const std::string &text, size_t length) {
    return std::min(text.find_first_not_of(BLANKS), text.size()) >= length;
}

// Whether something follows a carriage return, as in a text whose lines end with these alone.
bool has_lines(const std::string &line) {
    return line.find_first_not_of(BLANKS, line.find('\r')) != std::string::npos;
}

// Whether tricks can be read, as `deals show` does.
bool are_tricks(const std::string &value) {
    return value.size() == TRICKS && value.find_first_not_of("0123456789abcdABCD") == std::string::npos;
}

// The quote that ends a value. A backslash takes away what the sign after it means.
size_t end_of_value(const std::string &line, size_t at) {
    while (at < line.size() && line[at] != '"')
        at += line[at] == '\\' ? 2 : 1;
    return at < line.size() ? at : std::string::npos;
}

} // namespace

// The tag that begins at a bracket: [Name "value"]. Its last bracket may be missing.
PbnReader::Tag PbnReader::tag_at(const std::string &line, size_t at) {
    const size_t name = std::min(line.find_first_not_of(BLANKS, at + 1), line.size());
    const size_t stop = std::min(line.find_first_of(" \t\r\n\"", name), line.size());
    Tag tag{line.substr(name, stop - name), "", at, at + 1, at + 1, false};
    const size_t quote = line.find_first_not_of(BLANKS, stop);
    if (quote == std::string::npos || line[quote] != '"')
        return tag;
    const size_t end = end_of_value(line, quote + 1);
    if (end == std::string::npos)
        return tag;
    const size_t bracket = line.find_first_not_of(BLANKS, end + 1);
    tag.value = line.substr(quote + 1, end - quote - 1);
    tag.value_at = quote + 1;
    tag.end = bracket != std::string::npos && line[bracket] == ']' ? bracket + 1 : end + 1;
    tag.is_whole = !tag.name.empty();
    return tag;
}

std::optional<Board> PbnReader::next() {
    while (ready.empty() && !failure && !is_ended)
        read_more();
    if (ready.empty() && failure)
        throw *failure;
    if (ready.empty())
        return std::nullopt;
    Board first = std::move(ready.front());
    ready.pop_front();
    return first;
}

void PbnReader::read_more() {
    std::optional<std::string> line;
    try {
        line = input.next();
        if (line)
            read_line(*line);
        else
            end_input();
        is_ended = !line;
    } catch (Failure &found) {
        failure = std::move(found);
        put_fault(line.value_or(""));
    }
}

// What there is of a game with a fault, up to the end of its line.
void PbnReader::put_fault(const std::string &line) {
    if (names.empty() || wanted != Wanted::text)
        return;
    Board last;
    last.text = (has_boards ? "" : head) + board.text + line.substr(std::min(kept, line.size()));
    last.is_faulty = true;
    ready.push_back(std::move(last));
}

void PbnReader::read_line(const std::string &line) {
    kept = 0;
    const bool is_empty = !comment && is_blank(line, line.size());
    const bool is_escaped = !comment && line[0] == '%';
    has_text = has_text || !(is_empty || is_escaped) || has_lines(line);
    if (!is_empty && !is_escaped)
        read_tags(line);
    keep(line, line.size());
    if (is_empty)
        end_game();
}

// Tags begin a line or follow a tag. Text in braces may go on over lines; from a semicolon it ends with the line.
void PbnReader::read_tags(const std::string &line) {
    bool may_begin = true;
    for (size_t at = 0; at < line.size();) {
        const char letter = line[at];
        if (comment) {
            comment = letter == '}' ? 0 : comment;
            at++;
        } else if (letter == ';') {
            return;
        } else if (letter == '[' && may_begin) {
            at = read_tag(line, at);
        } else {
            comment = letter == '{' ? input.number() : 0;
            may_begin = may_begin && (comment || std::string(BLANKS).find(letter) != std::string::npos);
            at++;
        }
    }
}

// Reads a tag, and tells where the line goes on. What isn't a tag is text, but not where a deal is awaited, or where
// the input was cut.
size_t PbnReader::read_tag(const std::string &line, size_t at) {
    const Tag tag = tag_at(line, at);
    if (tag.is_whole) {
        take(tag, line);
    } else if (tag.name == "Deal") {
        begin_game(tag, line);
        throw deal_failure();
    } else if (has_boards && line.back() != '\n') {
        throw line_failure(input.number(), "the board is cut off");
    }
    return tag.end;
}

// A deal that can't be read, with the number of its board, if the game has told one.
Failure PbnReader::deal_failure() const {
    const bool has_number = !number.empty() && number.find_first_not_of("0123456789") == std::string::npos;
    const std::string whose = has_number && number.size() <= MOST_DIGITS ? " of board " + number : "";
    return line_failure(input.number(), "the deal" + whose + " can't be read");
}

void PbnReader::take(const Tag &tag, const std::string &line) {
    begin_game(tag, line);
    if (tag.name == "Board")
        number = tag.value;
    if (tag.name == "Dealer")
        board.dealer = read_dealer(tag.value);
    if (tag.name == "Vulnerable")
        board.vulnerable = read_vulnerable(tag.value);
    if (tag.name == "Deal")
        take_deal(tag);
    if (TAGS_OF_TRICKS.count(tag.name))
        take_tricks(tag);
    // With all that par needs, tricks need not wait for the end of the game.
    if (wanted == Wanted::tricks && board.cards && board.dealer && board.vulnerable)
        hand_on();
}

void PbnReader::take_deal(const Tag &tag) {
    board.cards = read_deal(tag.value);
    if (!board.cards)
        throw deal_failure();
    board.add_at = board.text.size() + tag.end - kept;
    had_deal = true;
}

// The value of a tag without tricks is kept in mind, since tricks are put there: a game has each tag once.
void PbnReader::take_tricks(const Tag &tag) {
    board.tags.insert(tag.name);
    if (tag.name != "DoubleDummyTricks")
        return;
    board.has_tricks = are_tricks(tag.value);
    if (!board.has_tricks)
        board.unread = Place{board.text.size() + tag.value_at - kept, tag.value.size()};
}

// A tag that the game has already is the next game's first; a game may have several notes.
void PbnReader::begin_game(const Tag &tag, const std::string &line) {
    const size_t begin = is_blank(line, tag.begin) ? 0 : tag.begin;
    if (!has_tags) {
        keep(line, begin);
        head = std::exchange(board.text, "");
        has_tags = true;
    }
    if (tag.name != "Note" && names.count(tag.name)) {
        keep(line, begin);
        end_game();
    }
    names.insert(tag.name);
}

void PbnReader::keep(const std::string &line, size_t end) {
    board.text.append(line, kept, end - kept);
    kept = end;
    if (board.text.size() > LONGEST)
        throw line_failure(input.number(), "a board of more than " + std::to_string(LONGEST) + " bytes");
}

void PbnReader::hand_on() {
    if (wanted == Wanted::number)
        throw line_failure(input.number(), "no numbers: they need JSON, as deals pick --format json writes it");
    if (!has_boards && wanted == Wanted::text)
        put_head();
    has_boards = true;
    ready.push_back(board);
    board.cards.reset();
}

void PbnReader::put_head() {
    Board first;
    first.text = std::move(head);
    ready.push_back(std::move(first));
}

// What comes between two games belongs to the second.
void PbnReader::end_game() {
    if (names.empty())
        return;
    if (board.cards)
        hand_on();
    board = Board{};
    names.clear();
    number.clear();
    had_deal = false;
}

void PbnReader::end_input() {
    const bool is_cut = comment || (!names.empty() && !had_deal);
    if (!is_cut || wanted == Wanted::tricks)
        end_game();
    if (!has_boards && has_text)
        throw Failure{INPUT, "no deal: the input has to be PBN or JSON, as deals make writes it"};
    if (comment)
        throw line_failure(comment, "the comment isn't closed");
    if (is_cut)
        throw line_failure(input.number(), "the board is cut off");
    if (!has_boards && wanted == Wanted::text) {
        head = std::move(board.text);
        put_head();
    }
}

#include "json.hpp"

#include <utility>

#include <nlohmann/json.hpp>

#include "failure.hpp"

namespace {

using nlohmann::json;

// The text of a name; empty if it has none.
std::string text_of(const json &object, const char *name) {
    const auto found = object.find(name);
    return found != object.end() && found->is_string() ? found->get<std::string>() : "";
}

std::optional<uint64_t> number_of(const json &object) {
    const auto found = object.find("number");
    if (found == object.end() || !found->is_number_unsigned())
        return std::nullopt;
    return found->get<uint64_t>();
}

} // namespace

Board JsonReader::read(std::string line) const {
    const json object = json::parse(line, nullptr, false);
    Board board;
    board.form = Form::json;
    if (object.is_object())
        board.cards = read_deal(text_of(object, "deal"));
    if (!board.cards)
        throw line_failure(input.number(), "the deal can't be read");
    board.dealer = read_dealer(text_of(object, "dealer"));
    board.vulnerable = read_vulnerable(text_of(object, "vulnerable"));
    board.number = number_of(object);
    if (wanted == Wanted::number && !board.number)
        throw line_failure(input.number(), "the board has no candidate's number");
    board.add_at = line.rfind('}');
    board.has_tricks = object.contains("tricks");
    board.text = std::move(line);
    return board;
}

std::optional<Board> JsonReader::next() {
    while (auto line = input.next())
        if (line->find_first_not_of(" \t\r\n") != std::string::npos)
            return read(std::move(*line));
    return std::nullopt;
}

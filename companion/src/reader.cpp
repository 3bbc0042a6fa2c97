#include "reader.hpp"

#include "json.hpp"
#include "pbn.hpp"

// A comment of PBN may begin with a brace too, but hardly with a name in quotes.
std::unique_ptr<Reader> read_boards(Input &input, Wanted wanted) {
    const std::string &line = input.peek();
    const size_t next = line.find_first_not_of(" \t", 1);
    if (line[0] == '{' && next != std::string::npos && line[next] == '"')
        return std::make_unique<JsonReader>(input, wanted);
    return std::make_unique<PbnReader>(input, wanted);
}

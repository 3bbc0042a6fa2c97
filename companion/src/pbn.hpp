// Boards in Portable Bridge Notation.
//
// A game ends at an empty line, and at a tag that it has already; its text begins where that of the game before ended.
// A game with a deal is a board. What comes before the first tag are the file's first lines.

#pragma once

#include <deque>
#include <optional>
#include <set>
#include <string>

#include "failure.hpp"
#include "reader.hpp"

class PbnReader : public Reader {
public:
    PbnReader(Input &input, Wanted wanted) : input(input), wanted(wanted) {}

    std::optional<Board> next() override;

private:
    struct Tag {
        std::string name, value;
        // Where it begins in its line, its value does, and what comes after it.
        size_t begin, value_at, end;
        bool is_whole;
    };

    static Tag tag_at(const std::string &line, size_t at);

    void read_more();
    void put_fault(const std::string &line);
    void read_line(const std::string &line);
    void read_tags(const std::string &line);
    size_t read_tag(const std::string &line, size_t at);
    void take(const Tag &tag, const std::string &line);
    void take_deal(const Tag &tag);
    void take_tricks(const Tag &tag);
    Failure deal_failure() const;
    void begin_game(const Tag &tag, const std::string &line);
    void keep(const std::string &line, size_t end);
    void hand_on();
    void put_head();
    void end_game();
    void end_input();

    Input &input;
    Wanted wanted;
    // The boards that next() gives first, and why nothing comes after them.
    std::deque<Board> ready;
    std::optional<Failure> failure;
    bool is_ended = false;
    // The file's first lines, until a board comes.
    std::string head;
    // The game that is being read, its number as it is told, and how much of the line is in its text.
    Board board;
    std::set<std::string> names;
    std::string number;
    bool had_deal = false;
    size_t kept = 0;
    // The line in which a comment began that goes on; 0 outside of comments.
    size_t comment = 0;
    bool has_tags = false, has_text = false, has_boards = false;
};

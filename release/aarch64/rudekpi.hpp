/* Rudekpi for C++17: a network and an audit as classes that own their memory, and faults as exceptions.
 *
 * Each member calls a function of rudekpi.h, which documents its effect, result and cost. Nodes are 1 to
 * the number of names. A node that points nowhere has an empty optional as its pointer. One thread at a time
 * uses a network or an audit; both may be moved. Members throw std::bad_alloc if memory runs out, and
 * std::invalid_argument for a number out of range. Neither error changes anything, except that the first turns
 * of a drive or a scramble may remain. */
#ifndef RUDEKPI_HPP
#define RUDEKPI_HPP

#include <cstdint>
#include <memory>
#include <new>
#include <optional>
#include <stdexcept>
#include <string>
#include <string_view>
#include <utility>
#include <vector>
#include "rudekpi.h"

namespace rudekpi {

using Node = std::uint32_t;
using Entry = std::uint32_t;

/* Returns the version of the library: 1,000,000 times the major, plus 1,000 times the minor, plus the
 * patch number. */
inline std::uint32_t version() {
    return rudekpi_version();
}

enum class Rules : std::uint32_t { hsu_huang = RUDEKPI_HSU_HUANG, manne = RUDEKPI_MANNE };

enum class Rule : std::uint32_t {
    update = RUDEKPI_UPDATE,
    marry = RUDEKPI_MARRY,
    seduce = RUDEKPI_SEDUCE,
    abandon = RUDEKPI_ABANDON
};

inline const char *text(Rule rule) {
    return rudekpi_rule_text(static_cast<std::uint32_t>(rule));
}

/* The machine refused the event, and an entry says so; the network is unchanged. */
class Refused : public std::runtime_error {
  public:
    Refused(std::uint32_t why, Entry number) : std::runtime_error(rudekpi_refusal_text(why)), why(why), entry(number) {}
    std::uint32_t why; /* one of RUDEKPI_UNKNOWN_NODE and those after it */
    Entry entry;
};

/* The log has 16,777,216 entries and takes no more until the network is renumbered. */
class LogFull : public std::runtime_error {
  public:
    LogFull() : std::runtime_error(rudekpi_status_text(RUDEKPI_LOG_FULL)) {}
};

/* Rounds are asked for, and the network does not count them: call count_rounds first. */
class NotCounted : public std::logic_error {
  public:
    NotCounted() : std::logic_error(rudekpi_status_text(RUDEKPI_NOT_COUNTED)) {}
};

/* A line is neither empty nor a command. */
class BadLine : public std::invalid_argument {
  public:
    explicit BadLine(std::uint64_t number) : std::invalid_argument("line " + std::to_string(number) + ": not a command"), number(number) {}
    std::uint64_t number;
};

/* A chosen node, and optionally the neighbour that it is to point at. */
struct Item {
    Node node;
    std::optional<Node> wish = {};
};

/* A node that moved, its rule, and its new pointer if the rule wrote one. */
struct Move {
    Node node;
    Rule rule;
    std::optional<Node> target;
};

struct Enabled {
    Node node;
    Rule rule;
};

using Pair = std::pair<Node, Node>;

/* A node's pointer and flag, and whether the node is present. */
struct Registers {
    std::optional<Node> pointer;
    bool flag;
    bool present;
};

using Counts = rudekpi_counts;

/* The verdict of an audit: the counts of a transcript, or the first wrong line and what is wrong with it. */
struct Verdict : rudekpi_verdict {
    bool accepted() const {
        return kind == RUDEKPI_ACCEPTED;
    }
    const char *text() const {
        return rudekpi_verdict_text(kind);
    }
};

/* The bytes are no transcript: the verdict has the first wrong line and what is wrong with it. */
class Damaged : public std::runtime_error {
  public:
    explicit Damaged(const Verdict &verdict) : std::runtime_error("line " + std::to_string(verdict.line) + ": " + verdict.text()), verdict(verdict) {}
    Verdict verdict;
};

/* What a node of your own holds: its name, pointer and flag, or a neighbour's. */
struct Record {
    Node node;
    std::optional<Node> pointer = {};
    bool flag = false;
};

/* What a node does by its rule, and its registers afterwards. Without a rule it is a repair: the node's pointer
 * is at no neighbour, and becomes null. */
struct LocalMove {
    std::optional<Rule> rule;
    std::optional<Node> target;
    std::optional<Node> pointer;
    bool flag;
};

/* No state of the machine shows what a node holds: `fault` is one of RUDEKPI_NOT_ASCENDING and those after it,
 * and `at` the name that it is about, if there is one. */
class BadView : public std::invalid_argument {
  public:
    BadView(std::uint32_t fault, Node at)
        : std::invalid_argument(rudekpi_view_fault_text(fault)), fault(fault), at(at ? std::optional<Node>(at) : std::nullopt) {}
    std::uint32_t fault;
    std::optional<Node> at;
};

namespace detail {

inline std::optional<Node> node_or_null(Node node) {
    return node ? std::optional<Node>(node) : std::nullopt;
}

inline const std::uint8_t *bytes_of(std::string_view text) {
    return reinterpret_cast<const std::uint8_t *>(text.data() ? text.data() : "");
}

[[noreturn]] inline void fail(std::uint32_t status, const rudekpi_told &told = {}) {
    switch (status) {
    case RUDEKPI_REFUSED:
        throw Refused(told.refusal, told.entry);
    case RUDEKPI_LOG_FULL:
        throw LogFull();
    case RUDEKPI_NO_MEMORY:
        throw std::bad_alloc();
    case RUDEKPI_NO_SESSION:
        throw std::logic_error(rudekpi_status_text(status));
    case RUDEKPI_NOT_COUNTED:
        throw NotCounted();
    default:
        throw std::invalid_argument(rudekpi_status_text(status));
    }
}

inline void check(std::uint32_t status, const rudekpi_told &told = {}) {
    if (status != RUDEKPI_DONE) fail(status, told);
}

inline rudekpi_record record_of(const Record &it) {
    return {it.node, it.pointer.value_or(0), it.flag};
}

/* The records of neighbours as C's rows, and at least one row, so that there is an address. */
inline std::vector<rudekpi_record> rows_of(const std::vector<Record> &neighbours) {
    std::vector<rudekpi_record> rows;
    rows.reserve(neighbours.size() + 1);
    for (const auto &it : neighbours) rows.push_back(record_of(it));
    rows.push_back({});
    return rows;
}

/* A slot at a fixed address, emptied by the destructor. */
template <typename Slot, void (*free)(Slot *)> struct Emptied {
    void operator()(Slot *slot) const {
        free(slot);
        delete slot;
    }
};

} // namespace detail

/* A network that maintains a maximal matching, with its transcript. A moved-from network may only be
 * destroyed or assigned to. */
class Network {
  public:
    Network(Rules rules, std::uint32_t nodes) : Network(rules, nodes, nodes) {}

    Network(Rules rules, std::uint32_t nodes, std::uint32_t present) : slot_(new rudekpi_slot(RUDEKPI_NONE)) {
        detail::check(rudekpi_session_new(static_cast<std::uint32_t>(rules), nodes, present, slot_.get()));
    }

    /* Returns a network that goes on where the run of a transcript, or of a base alone, ended. Its own transcript
     * begins with the base there, and its next entry has the next number. Throws Damaged if the bytes are no
     * transcript. */
    static Network resume(std::string_view transcript) {
        Network net;
        Verdict verdict{};
        auto status = rudekpi_session_resume(net.slot(), detail::bytes_of(transcript), transcript.size(), &verdict);
        if (status == RUDEKPI_DAMAGED) throw Damaged(verdict);
        detail::check(status);
        return net;
    }

    /* Edits and faults; each returns the number of its entry. */
    Entry link(Node a, Node b) {
        return done([&](auto told) { return rudekpi_link(slot(), a, b, told); });
    }
    Entry unlink(Node a, Node b) {
        return done([&](auto told) { return rudekpi_unlink(slot(), a, b, told); });
    }
    Entry join(Node node) {
        return done([&](auto told) { return rudekpi_join(slot(), node, told); });
    }
    Entry leave(Node node) {
        return done([&](auto told) { return rudekpi_leave(slot(), node, told); });
    }
    Entry point(Node node, std::optional<Node> target) {
        return done([&](auto told) { return rudekpi_point(slot(), node, target.value_or(0), told); });
    }
    Entry flag(Node node, bool value) {
        return done([&](auto told) { return rudekpi_flag(slot(), node, value, told); });
    }

    /* Lets nodes move at once. Returns their moves. */
    std::vector<Move> step(const std::vector<Item> &items) {
        std::vector<rudekpi_item> chosen(items.size() + 1);
        for (std::size_t at = 0; at < items.size(); at++) chosen[at] = {items[at].node, items[at].wish.value_or(0)};
        std::vector<Move> moves;
        for (const auto &row : rows([&](auto told) { return rudekpi_step(slot(), chosen.data(), items.size(), told); }))
            moves.push_back({row.node, static_cast<Rule>(row.rule), detail::node_or_null(row.other)});
        return moves;
    }

    /* Makes up to `count` steps of a seeded daemon, and stops when no node is enabled. Returns the last
     * entry's number. */
    Entry drive(std::uint64_t seed, std::uint32_t count) {
        return done([&](auto told) { return rudekpi_drive(slot(), seed, count, told); });
    }
    /* Makes `count` seeded faults of registers. Returns the last entry's number. */
    Entry scramble(std::uint64_t seed, std::uint32_t count) {
        return done([&](auto told) { return rudekpi_scramble(slot(), seed, count, told); });
    }

    /* Questions; each adds an entry. */
    std::optional<Node> show(Node node) {
        rudekpi_told told{};
        detail::check(rudekpi_show(slot(), node, &told), told);
        return detail::node_or_null(told.target);
    }
    std::vector<Enabled> enabled() {
        std::vector<Enabled> nodes;
        for (const auto &row : rows([&](auto told) { return rudekpi_enabled(slot(), told); }))
            nodes.push_back({row.node, static_cast<Rule>(row.rule)});
        return nodes;
    }
    std::vector<Pair> matching() {
        std::vector<Pair> pairs;
        for (const auto &row : rows([&](auto told) { return rudekpi_pairs(slot(), told); }))
            pairs.emplace_back(row.node, row.other);
        return pairs;
    }
    Counts status() {
        rudekpi_told told{};
        Counts counts{};
        detail::check(rudekpi_status(slot(), &counts, &told), told);
        return counts;
    }

    /* Questions that add no entry. */
    std::optional<Node> partner(Node node) {
        return detail::node_or_null(asked<Node>([&](auto it) { return rudekpi_partner(slot(), node, it); }));
    }
    std::uint32_t moves_left() {
        return asked<std::uint32_t>([&](auto it) { return rudekpi_moves_left(slot(), it); });
    }
    /* Counts rounds from here on, or from here anew. */
    void count_rounds() {
        detail::check(rudekpi_count_rounds(slot()));
    }
    /* How many rounds are complete since the last accepted edit or fault, or since counting began. Throws
     * NotCounted before count_rounds. */
    std::uint32_t rounds() {
        return asked<std::uint32_t>([&](auto it) { return rudekpi_rounds(slot(), it); });
    }
    /* How many rounds can still be completed before the next edit or fault, 0 in silence. Throws NotCounted
     * before count_rounds. */
    std::uint32_t rounds_left() {
        return asked<std::uint32_t>([&](auto it) { return rudekpi_rounds_left(slot(), it); });
    }
    bool is_at_rest(Node node) {
        return asked<bool>([&](auto it) { return rudekpi_is_at_rest(slot(), node, it); });
    }
    Registers registers(Node node) {
        auto found = asked<rudekpi_node>([&](auto it) { return rudekpi_registers(slot(), node, it); });
        return {detail::node_or_null(found.pointer), found.flag, found.present};
    }
    /* All neighbours, all nodes that are present, and those not at rest, ascending. */
    std::vector<Node> neighbours(Node node) {
        return names([&](auto... it) { return rudekpi_neighbours(slot(), node, it...); });
    }
    std::vector<Node> nodes() {
        return names([&](auto... it) { return rudekpi_nodes(slot(), it...); });
    }
    std::vector<Node> restless() {
        return names([&](auto... it) { return rudekpi_restless(slot(), it...); });
    }
    /* The edges, each with its lower end first, ascending. */
    std::vector<Pair> edges() {
        std::vector<Pair> pairs;
        for (const auto &row : listed<rudekpi_row>([&](auto... it) { return rudekpi_edges(slot(), it...); }))
            pairs.emplace_back(row.node, row.other);
        return pairs;
    }

    /* The cost, in moves, of an edit or a fault at this moment: the charge grows by at most this. */
    std::uint32_t cost_of_link(Node a, Node b) {
        return asked<std::uint32_t>([&](auto it) { return rudekpi_cost_of_link(slot(), a, b, it); });
    }
    std::uint32_t cost_of_unlink(Node a, Node b) {
        return asked<std::uint32_t>([&](auto it) { return rudekpi_cost_of_unlink(slot(), a, b, it); });
    }
    std::uint32_t cost_of_join(Node node) {
        return asked<std::uint32_t>([&](auto it) { return rudekpi_cost_of_join(slot(), node, it); });
    }
    std::uint32_t cost_of_leave(Node node) {
        return asked<std::uint32_t>([&](auto it) { return rudekpi_cost_of_leave(slot(), node, it); });
    }
    std::uint32_t cost_of_point(Node node, std::optional<Node> target) {
        return asked<std::uint32_t>([&](auto it) { return rudekpi_cost_of_point(slot(), node, target.value_or(0), it); });
    }
    std::uint32_t cost_of_flag(Node node, bool value) {
        return asked<std::uint32_t>([&](auto it) { return rudekpi_cost_of_flag(slot(), node, value, it); });
    }

    /* The most moves that an edit or a fault of a silent network can cause; empty if a rule is enabled. */
    std::optional<std::uint32_t> silent_cost_of_link(Node a, Node b) {
        return if_silent([&](auto it) { return rudekpi_silent_cost_of_link(slot(), a, b, it); });
    }
    std::optional<std::uint32_t> silent_cost_of_unlink(Node a, Node b) {
        return if_silent([&](auto it) { return rudekpi_silent_cost_of_unlink(slot(), a, b, it); });
    }
    std::optional<std::uint32_t> silent_cost_of_join(Node node) {
        return if_silent([&](auto it) { return rudekpi_silent_cost_of_join(slot(), node, it); });
    }
    std::optional<std::uint32_t> silent_cost_of_leave(Node node) {
        return if_silent([&](auto it) { return rudekpi_silent_cost_of_leave(slot(), node, it); });
    }
    std::optional<std::uint32_t> silent_cost_of_point(Node node, std::optional<Node> target) {
        return if_silent([&](auto it) { return rudekpi_silent_cost_of_point(slot(), node, target.value_or(0), it); });
    }
    std::optional<std::uint32_t> silent_cost_of_flag(Node node, bool value) {
        return if_silent([&](auto it) { return rudekpi_silent_cost_of_flag(slot(), node, value, it); });
    }

    /* The nodes that an edit or a fault would reach, ascending. */
    std::vector<Node> reach_of_link(Node a, Node b) {
        return names([&](auto... it) { return rudekpi_reach_of_link(slot(), a, b, it...); });
    }
    std::vector<Node> reach_of_unlink(Node a, Node b) {
        return names([&](auto... it) { return rudekpi_reach_of_unlink(slot(), a, b, it...); });
    }
    std::vector<Node> reach_of_join(Node node) {
        return names([&](auto... it) { return rudekpi_reach_of_join(slot(), node, it...); });
    }
    std::vector<Node> reach_of_leave(Node node) {
        return names([&](auto... it) { return rudekpi_reach_of_leave(slot(), node, it...); });
    }
    std::vector<Node> reach_of_point(Node node, std::optional<Node> target) {
        return names([&](auto... it) { return rudekpi_reach_of_point(slot(), node, target.value_or(0), it...); });
    }
    std::vector<Node> reach_of_flag(Node node, bool value) {
        return names([&](auto... it) { return rudekpi_reach_of_flag(slot(), node, value, it...); });
    }

    /* Carries out a line of a script. A refused event throws nothing; its entry says so. */
    void feed(std::string_view line) {
        std::uint64_t number = 0;
        auto status = rudekpi_session_feed(slot(), detail::bytes_of(line), line.size(), &number);
        if (status == RUDEKPI_BAD_LINE) throw BadLine(number);
        detail::check(status);
    }

    /* Adds the lines of a base to the transcript; an audit can begin at a base. Returns the last entry's
     * number. */
    Entry checkpoint() {
        return done([&](auto told) { return rudekpi_checkpoint(slot(), told); });
    }

    /* Returns the text of the transcript since the last call. */
    std::string transcript() {
        std::string text(rudekpi_session_length(slot()), '\0');
        rudekpi_session_read(slot(), reinterpret_cast<std::uint8_t *>(text.data()), text.size());
        return text;
    }

    /* Numbers the entries from 1 again, in the same state. Returns how many bytes of the next transcript() end the
     * transcript so far, with a base; the bytes after them begin the next transcript. */
    std::size_t renumber() {
        return asked<std::size_t>([&](auto it) { return rudekpi_session_renumber(slot(), it); });
    }

    /* Decides whether the network keeps its text from here on. If `keeps` is false, drops the unread text. */
    void keep_transcript(bool keeps) {
        detail::check(rudekpi_transcript(slot(), keeps));
    }

  private:
    Network() : slot_(new rudekpi_slot(RUDEKPI_NONE)) {}

    rudekpi_slot *slot() {
        return slot_.get();
    }

    template <typename Call> Entry done(Call call) {
        rudekpi_told told{};
        detail::check(call(&told), told);
        return told.entry;
    }

    template <typename Call> std::vector<rudekpi_row> rows(Call call) {
        rudekpi_told told{};
        detail::check(call(&told), told);
        std::vector<rudekpi_row> answer(told.rows);
        rudekpi_row none{};
        rudekpi_rows(slot(), answer.empty() ? &none : answer.data(), answer.size());
        return answer;
    }

    template <typename Value, typename Call> Value asked(Call call) {
        Value value{};
        detail::check(call(&value));
        return value;
    }

    template <typename Call> std::optional<std::uint32_t> if_silent(Call call) {
        std::uint32_t cost = 0;
        auto status = call(&cost);
        if (status == RUDEKPI_NOT_SILENT) return std::nullopt;
        detail::check(status);
        return cost;
    }

    template <typename Item, typename Call> std::vector<Item> listed(Call call) {
        std::size_t count = 0;
        Item none{};
        detail::check(call(&none, std::size_t{0}, &count));
        std::vector<Item> items(count);
        if (count) detail::check(call(items.data(), items.size(), &count));
        return items;
    }

    template <typename Call> std::vector<Node> names(Call call) {
        return listed<Node>(call);
    }

    std::unique_ptr<rudekpi_slot, detail::Emptied<rudekpi_slot, rudekpi_session_free>> slot_;
};

/* Returns what a node does by its rule, from what it holds alone: its own record, and those of its neighbours,
 * ascending by name. Empty if no rule is enabled. Needs no network, and any thread may call it. Throws BadView
 * if no state of the machine shows this, and std::invalid_argument for a name out of range. */
inline std::optional<LocalMove> local_rule(Rules rules, const Record &own, const std::vector<Record> &neighbours) {
    auto me = detail::record_of(own);
    auto rows = detail::rows_of(neighbours);
    rudekpi_local_move move{};
    auto status = rudekpi_local_rule(static_cast<std::uint32_t>(rules), &me, rows.data(), neighbours.size(), &move);
    if (status == RUDEKPI_NOT_SHOWN) throw BadView(move.fault, move.at);
    detail::check(status);
    if (!move.rule) return std::nullopt;
    auto rule = move.rule == RUDEKPI_REPAIR ? std::nullopt : std::optional<Rule>(static_cast<Rule>(move.rule));
    return LocalMove{rule, detail::node_or_null(move.target), detail::node_or_null(move.pointer), move.flag};
}

/* Returns whether the machine may move a node by this rule, to this target; update and abandon have none.
 * Throws as local_rule does, and BadView also if the node needs a repair. */
inline bool may_move(Rules rules, const Record &own, const std::vector<Record> &neighbours, Rule rule,
                     std::optional<Node> target = {}) {
    auto me = detail::record_of(own);
    auto rows = detail::rows_of(neighbours);
    bool may = false;
    auto status = rudekpi_may_move(static_cast<std::uint32_t>(rules), &me, rows.data(), neighbours.size(),
                                   static_cast<std::uint32_t>(rule), target.value_or(0), &may);
    if (status == RUDEKPI_NOT_SHOWN) {
        rudekpi_local_move move{};
        rudekpi_local_rule(static_cast<std::uint32_t>(rules), &me, rows.data(), neighbours.size(), &move);
        throw BadView(move.fault, move.at);
    }
    detail::check(status);
    return may;
}

/* Judges a transcript in memory. */
inline Verdict audit(std::string_view transcript) {
    Verdict verdict{};
    rudekpi_audit(detail::bytes_of(transcript), transcript.size(), &verdict);
    if (verdict.kind == RUDEKPI_UNJUDGED) throw std::bad_alloc();
    return verdict;
}

/* Judges a transcript that comes in pieces. */
class Audit {
  public:
    Audit() : slot_(new rudekpi_audit_slot(RUDEKPI_NONE)) {
        detail::check(rudekpi_audit_new(slot_.get()));
    }

    /* Feeds the next bytes, cut anywhere. Returns whether no damage was found so far. */
    bool feed(std::string_view piece) {
        auto status = rudekpi_audit_feed(slot_.get(), detail::bytes_of(piece), piece.size());
        if (status != RUDEKPI_DAMAGED) detail::check(status);
        return status == RUDEKPI_DONE;
    }

    /* Returns the verdict on all bytes fed, and ends the audit. */
    Verdict finish() {
        Verdict verdict{};
        detail::check(rudekpi_audit_finish(slot_.get(), &verdict));
        if (verdict.kind == RUDEKPI_UNJUDGED) throw std::bad_alloc();
        return verdict;
    }

  private:
    std::unique_ptr<rudekpi_audit_slot, detail::Emptied<rudekpi_audit_slot, rudekpi_audit_free>> slot_;
};

} // namespace rudekpi

#endif

/* Tests the classes of rudekpi.hpp: each call once, with answers worked out by hand, and each fault as its
 * exception. Three nodes in a row: 1 - 2 - 3, Hsu and Huang's rules. */
#include <iostream>
#include <string>
#include "rudekpi.hpp"

using rudekpi::Network;
using rudekpi::Rule;
using rudekpi::Rules;

static int wrong = 0;

static void expect(const char *name, bool holds) {
    if (holds) return;
    std::cerr << name << " does not hold\n";
    wrong++;
}

template <typename Fault, typename Call> static void throws(const char *name, Call call) {
    try {
        call();
    } catch (const Fault &) {
        return;
    }
    expect(name, false);
}

static void edits_and_steps() {
    Network net(Rules::hsu_huang, 4, 2);
    expect("join", net.join(3) == 1);
    expect("link", net.link(1, 2) == 2 && net.link(2, 3) == 3);
    expect("costs", net.cost_of_link(1, 3) == 2 && net.cost_of_unlink(1, 2) == 0 && net.cost_of_leave(3) == 0 &&
                        net.cost_of_join(4) == 0 && net.cost_of_point(1, 2) == 1 && net.cost_of_flag(1, true) == 0);
    auto enabled = net.enabled();
    expect("enabled", enabled.size() == 3 && enabled[0].node == 1 && enabled[0].rule == Rule::seduce);
    auto moves = net.step({{2, 3}});
    expect("step", moves.size() == 1 && moves[0].node == 2 && moves[0].rule == Rule::seduce && moves[0].target == 3u);
    expect("show", net.show(2) == 3u && !net.show(3));
    expect("drive", net.drive(1, 9) == 8);
    expect("matching", net.matching() == std::vector<rudekpi::Pair>{{2, 3}});
    expect("partner", net.partner(3) == 2u && !net.partner(1));
    expect("at rest", net.is_at_rest(1) && net.moves_left() == 0);
    expect("views", net.neighbours(2) == std::vector<rudekpi::Node>{1, 3} && net.neighbours(4).empty() &&
                        net.nodes() == std::vector<rudekpi::Node>{1, 2, 3} && net.restless().empty() &&
                        net.edges() == std::vector<rudekpi::Pair>{{1, 2}, {2, 3}});
    auto of_two = net.registers(2), of_four = net.registers(4);
    expect("registers", of_two.pointer == 3u && of_two.present && !of_two.flag && !of_four.pointer && !of_four.present);
    auto counts = net.status();
    expect("status", counts.nodes == 3 && counts.edges == 2 && counts.pairs == 1 && counts.enabled == 0);
}

static void reach_and_faults() {
    Network net(Rules::manne, 3);
    net.link(1, 2);
    net.link(2, 3);
    net.drive(1, 99);
    expect("reach of a cut that is none", net.reach_of_unlink(1, 3).empty());
    expect("reach of a flag", net.reach_of_flag(1, true) == std::vector<rudekpi::Node>{1});
    expect("reach", net.reach_of_link(1, 3).size() <= 2 && !net.reach_of_leave(2).empty() &&
                        net.reach_of_join(1).empty() && !net.reach_of_point(2, {}).empty());
    expect("point", net.point(1, {}) > 0 && net.flag(1, false) > 0 && net.unlink(1, 2) > 0 && net.leave(3) > 0);
    expect("scramble", net.scramble(3, 2) > 0 && text(Rule::update) == std::string("update"));
}

static void silent_costs() {
    /* 1 and 2 are a pair, 3 is linked with 2 and points nowhere */
    Network net(Rules::hsu_huang, 5, 4);
    net.link(1, 2);
    net.link(2, 3);
    expect("not silent", !net.silent_cost_of_unlink(1, 2));
    net.step({{1, std::nullopt}});
    net.step({{2, std::nullopt}});
    expect("link in silence", net.silent_cost_of_link(3, 4) == 2u);
    expect("unlink in silence", net.silent_cost_of_unlink(1, 2) == 2u);
    expect("join in silence", net.silent_cost_of_join(5) == 0u);
    expect("leave in silence", net.silent_cost_of_leave(1) == 2u);
    expect("point in silence", net.silent_cost_of_point(1, std::nullopt) == 3u);
    expect("flag in silence", net.silent_cost_of_flag(1, true) == 0u);
    throws<std::invalid_argument>("a name that is 0", [&] { net.silent_cost_of_leave(0); });
}

static void exceptions() {
    Network net(Rules::hsu_huang, 2);
    throws<rudekpi::Refused>("a loop is refused", [&] { net.link(1, 1); });
    try {
        net.link(1, 1);
    } catch (const rudekpi::Refused &it) {
        expect("why", it.why == RUDEKPI_SELF_LOOP && it.entry == 2 && it.what() == std::string("self-loop"));
    }
    throws<std::invalid_argument>("no name", [&] { net.link(0, 1); });
    throws<std::invalid_argument>("too many names", [] { Network(Rules::manne, 65536); });
    throws<rudekpi::BadLine>("no line", [&] { net.feed("lnk 1 2"); });
    net.feed("");
    net.feed({});
    Network other = std::move(net);
    expect("moved", other.link(1, 2) == 3);
}

static void rounds() {
    /* three nodes, each linked with each, that point at each other in a ring */
    Network net(Rules::hsu_huang, 3);
    for (auto [a, b] : {std::pair(1, 2), std::pair(1, 3), std::pair(2, 3)}) net.link(a, b);
    for (rudekpi::Node node : {1, 2, 3}) net.point(node, node % 3 + 1);
    throws<rudekpi::NotCounted>("rounds are not counted", [&] { net.rounds(); });
    throws<rudekpi::NotCounted>("nor are those left", [&] { net.rounds_left(); });
    net.count_rounds();
    expect("no round yet", net.rounds() == 0 && net.rounds_left() == 3);
    struct {
        rudekpi::Item item;
        std::uint32_t rounds, left;
    } const longest[] = {{{1}, 0, 3}, {{2}, 1, 2}, {{2, 1}, 1, 2}, {{1, 3}, 2, 1}, {{2}, 3, 0}};
    for (const auto &it : longest) {
        net.step({it.item});
        expect("the rounds of the longest run", net.rounds() == it.rounds && net.rounds_left() == it.left);
    }
    throws<rudekpi::Refused>("a loop", [&] { net.link(1, 1); });
    expect("a refused edit cuts no round off", net.rounds() == 3);
    net.unlink(1, 3);
    expect("an edit does", net.rounds() == 0 && net.rounds_left() == 3);
}

static void audits() {
    Network net(Rules::hsu_huang, 2);
    net.link(1, 2);
    net.checkpoint();
    auto text = net.transcript();
    expect("read once", net.transcript().empty());
    expect("accepted", rudekpi::audit(text).accepted() && rudekpi::audit(text).entries == 1);
    auto verdict = rudekpi::audit("");
    expect("no transcript", !verdict.accepted() && verdict.line == 1 && verdict.text() == std::string("bad header"));
    rudekpi::Audit audit;
    for (char byte : text) expect("fed", audit.feed(std::string_view(&byte, 1)));
    expect("finished", audit.finish().accepted());
    throws<std::logic_error>("finished twice", [&] { audit.finish(); });
    rudekpi::Audit damaged;
    expect("damaged", !damaged.feed("matching hh x\n") && damaged.finish().line == 1);
    net.keep_transcript(false);
    net.show(1);
    expect("no text is kept", net.transcript().empty());
}

static void resumptions() {
    Network net(Rules::manne, 4, 3);
    net.link(1, 2);
    net.link(2, 3);
    net.step({{1, std::nullopt}});
    const auto text = net.transcript();
    Network other = Network::resume(text);
    const std::string base = "matching2 manne 4\nbase 3 spent=1 nodes=3 edges=2\nnode 1 2 0\nnode 2 - 0\nnode 3 - 0\n"
                             "edge 1 2\nedge 2 3\n";
    expect("the base at the end", other.transcript() == base);
    auto counts = other.status();
    expect("goes on", counts.nodes == 3 && counts.edges == 2 && counts.spent == 1 && other.join(4) == 5);
    expect("one transcript", rudekpi::audit(text + base + other.transcript()).entries == 5);
    expect("a base alone", Network::resume(base).link(1, 3) == 4);
    throws<rudekpi::Damaged>("no transcript", [] { Network::resume({}); });
    try {
        Network::resume(text + "4 link 1 2 = ok\n");
    } catch (const rudekpi::Damaged &it) {
        expect("verdict", it.verdict.kind == RUDEKPI_NOT_THE_REPLY && it.verdict.line == 5 && !it.verdict.accepted() &&
                              it.what() == std::string("line 5: not the machine's reply"));
        return;
    }
    expect("damaged", false);
}

static void rule_of_one_node() {
    using rudekpi::BadView, rudekpi::local_rule, rudekpi::Record;
    /* node 3 under Manne's rules: 7 points at it; without that it seduces the greatest open one above it */
    auto made = local_rule(Rules::manne, {3}, {{5}, {7, 3, true}});
    expect("marries", made && made->rule == Rule::marry && made->target == 7u && made->pointer == 7u && !made->flag);
    made = local_rule(Rules::manne, {3}, {{5}, {7, {}, true}});
    expect("seduces", made && made->rule == Rule::seduce && made->target == 5u && made->pointer == 5u);
    made = local_rule(Rules::manne, {3, 7}, {{7, 3}});
    expect("updates", made && made->rule == Rule::update && !made->target && made->pointer == 7u && made->flag);
    expect("no rule", !local_rule(Rules::hsu_huang, {3}, {}) && !local_rule(Rules::manne, {3}, {{1}}));
    made = local_rule(Rules::manne, {3, 8, true}, {{7}});
    expect("repairs", made && !made->rule && !made->target && !made->pointer && made->flag);
    expect("may move", rudekpi::may_move(Rules::hsu_huang, {3}, {{5}, {7}}, Rule::seduce, 7u) &&
                           !rudekpi::may_move(Rules::hsu_huang, {3}, {{5}, {7}}, Rule::seduce, 9u) &&
                           !rudekpi::may_move(Rules::hsu_huang, {3}, {}, Rule::abandon));
    throws<std::invalid_argument>("a name of 0", [] { local_rule(Rules::manne, {0}, {}); });
    throws<BadView>("itself", [] { local_rule(Rules::manne, {3}, {{3}}); });
    throws<BadView>("a stranger", [] { rudekpi::may_move(Rules::manne, {3, 8}, {{7}}, Rule::abandon); });
    try {
        local_rule(Rules::manne, {3}, {{7}, {5}});
    } catch (const BadView &it) {
        expect("order", it.fault == RUDEKPI_NOT_ASCENDING && it.at == 5u);
        return;
    }
    expect("out of order", false);
}

static void renumbering() {
    Network net(Rules::hsu_huang, 2);
    net.link(1, 2);
    net.step({{1, std::nullopt}});
    const auto ended = net.renumber();
    expect("the first entry again", net.step({{2, std::nullopt}}).size() == 1 && net.status().spent == 2);
    const auto text = net.transcript();
    const std::string base = " spent=1 nodes=2 edges=1\nnode 1 2 0\nnode 2 - 0\nedge 1 2\n",
                      head = "matching2 hh 2\nbase ";
    expect("the first transcript",
           text.substr(0, ended) == "matching hh 2\n1 link 1 2 = ok\n2 step 1 = 1:seduce>2\n" + head + "2" + base);
    expect("the next transcript", text.substr(ended).rfind(head + "0" + base + "1 step 2 = 2:marry>1\n", 0) == 0);
    expect("both are accepted", rudekpi::audit(text.substr(0, ended)).entries == 2 &&
                                    rudekpi::audit(text.substr(ended)).entries == 2 &&
                                    !rudekpi::audit(text).accepted());
}

static void versions() {
    const std::uint32_t number = rudekpi::version();
    const std::string text = std::to_string(number / 1000000) + "." + std::to_string(number / 1000 % 1000) + "." +
                             std::to_string(number % 1000);
    expect("version", number == RUDEKPI_VERSION_NUMBER && text == RUDEKPI_VERSION);
}

int main() {
    rule_of_one_node();
    versions();
    edits_and_steps();
    reach_and_faults();
    silent_costs();
    rounds();
    exceptions();
    audits();
    resumptions();
    renumbering();
    std::cout << "classes: " << wrong << " wrong\n";
    return wrong != 0;
}

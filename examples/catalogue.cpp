/* Lists every network of an order that meets a wish, each once, as graph6 lines.
 *
 *     (cd crates/cafruzek && rt lib) && apt-get install g++ libz3-dev
 *     c++ -std=c++17 -O2 -Iinclude examples/catalogue.cpp crates/cafruzek/out/libcafruzek.a -lz3 -o catalogue
 *     ./catalogue --order 8 --connected --triangle-free --most-links-at-a-node 3
 *
 * Z3 draws: it has a variable for each link, and formulas for the wish. While it is
 * still drawing it calls back (its "user propagator"), the checker is asked, and the
 * clause goes to Z3 as a conflict. docs/SOLVERS.md says what to mind.
 *
 * For another solver, put its callbacks where Z3's are, in struct Search:
 *   fixed, push, pop   CaDiCaL: notify_assignment, notify_new_decision_level,
 *                      notify_backtrack; clasp: propagate, undo
 *   conflict           CaDiCaL: cb_has_external_clause, then the clause's literals one
 *                      by one by cb_add_external_clause_lit; clasp: addClause
 *   final              CaDiCaL: cb_check_found_model; clasp: check */
#include <algorithm>
#include <chrono>
#include <cstdlib>
#include <iostream>
#include <map>
#include <optional>
#include <string>
#include <vector>

#include <z3++.h>
#include <z3_version.h>

#include "cafruzek.h"

/* Steps for a drawing that goes on, and for one that is finished. */
constexpr uint32_t SMALL_BUDGET = 500, LARGEST_BUDGET = UINT32_MAX;

/* ---- The wish ---- */

constexpr char HELP[] =
    "catalogue --order N [wishes]\n"
    "Lists every network of N nodes (1 to 32) that meets the wishes, each once, as graph6 lines.\n"
    "  --triangle-free              no three nodes are all linked with each other\n"
    "  --most-links-at-a-node D     no node has more than D links\n"
    "  --least-links-at-a-node D    no node has fewer than D links\n"
    "  --links K                    there are K links\n"
    "  --connected                  every node can be reached from every other\n"
    "  --blocks 1,4,9               nodes 1 to 3, 4 to 8 and 9 to N are of different kinds: networks are\n"
    "                               the same only if exchanging nodes of one kind makes them so\n";

struct Wish {
    std::optional<unsigned> order, most, least, links;
    bool triangle_free = false, connected = false;
    uint32_t starts = 1; /* bit v - 1 is set where node v starts a block */
};

[[noreturn]] void stop(int status, const std::string &why)
{
    std::cerr << "catalogue: " << why << std::endl;
    std::exit(status);
}

unsigned number(const std::string &option, const std::string &text)
{
    if (text.empty() || text.size() > 9 || text.find_first_not_of("0123456789") != std::string::npos)
        stop(2, option + " needs a whole number of at most nine digits, not \"" + text + "\"");
    return (unsigned)std::stoul(text);
}

/* The starts 1,4,9 as bits. */
uint32_t blocks(const std::string &option, const std::string &text)
{
    uint32_t starts = 0;
    for (size_t from = 0; from <= text.size();) {
        size_t comma = std::min(text.find(',', from), text.size());
        unsigned start = number(option, text.substr(from, comma - from));
        if (start < 1 || start > CAFRUZEK_MOST_VERTICES || starts >> (start - 1) != 0 || (starts == 0 && start != 1))
            stop(2, option + " needs nodes in rising order, the first of them 1");
        starts |= UINT32_C(1) << (start - 1);
        from = comma + 1;
    }
    return starts;
}

Wish read_wish(const std::vector<std::string> &words)
{
    Wish wish;
    std::map<std::string, bool *> plain = {{"--triangle-free", &wish.triangle_free}, {"--connected", &wish.connected}};
    std::map<std::string, std::optional<unsigned> *> counted = {{"--order", &wish.order},
                                                                {"--most-links-at-a-node", &wish.most},
                                                                {"--least-links-at-a-node", &wish.least},
                                                                {"--links", &wish.links}};
    for (size_t k = 0; k < words.size(); k++) {
        const std::string &option = words[k];
        auto value = [&] { return k + 1 < words.size() ? words[++k] : ""; };
        if (plain.count(option))
            *plain[option] = true;
        else if (counted.count(option))
            *counted[option] = number(option, value());
        else if (option == "--blocks")
            wish.starts = blocks(option, value());
        else
            stop(2, "there is no wish \"" + option + "\"; --help lists them");
    }
    return wish;
}

void check_sense(const Wish &wish)
{
    unsigned n = wish.order.value_or(0), least = wish.least.value_or(0), links = wish.links.value_or(0);
    if (n < 1 || n > CAFRUZEK_MOST_VERTICES)
        stop(2, "--order is needed, from 1 to 32");
    std::string order = std::to_string(n);
    if (wish.starts >> (n - 1) > 1)
        stop(2, "--blocks has a start past the last node, " + order);
    if (least > n - 1)
        stop(2, "no node of " + order + " can have " + std::to_string(least) + " links");
    if (wish.most && *wish.most < least)
        stop(2, "--most-links-at-a-node is below --least-links-at-a-node");
    if (links > n * (n - 1) / 2)
        stop(2, "there is no room for " + std::to_string(links) + " links between " + order + " nodes");
}

/* ---- The drawing ---- */

/* Two nodes i < j, counted from 0. */
struct Pair {
    unsigned i, j;
};

enum class Entry { none, link, open };

/* The rows that the checker reads. */
struct Drawing {
    uint32_t edges[32] = {}, unknowns[32] = {};

    bool linked(Pair pair) const { return edges[pair.i] >> pair.j & 1; }

    static void mark(uint32_t rows[32], Pair pair, bool set)
    {
        uint32_t in_i = UINT32_C(1) << pair.j, in_j = UINT32_C(1) << pair.i;
        rows[pair.i] = set ? rows[pair.i] | in_i : rows[pair.i] & ~in_i;
        rows[pair.j] = set ? rows[pair.j] | in_j : rows[pair.j] & ~in_j;
    }

    void set(Pair pair, Entry entry)
    {
        mark(edges, pair, entry == Entry::link);
        mark(unknowns, pair, entry == Entry::open);
    }

    /* The nodes that can be reached from the first, as bits. */
    uint32_t reached() const
    {
        uint32_t seen = 1, before = 0;
        while (seen != before) {
            before = seen;
            for (unsigned v = 0; v < 32; v++)
                seen |= before >> v & 1 ? edges[v] : 0;
        }
        return seen;
    }

    /* The order, then the links column by column, six to a byte. */
    std::string graph6(unsigned order) const
    {
        std::string line(1, (char)(63 + order));
        unsigned bit = 0;
        for (unsigned j = 1; j < order; j++)
            for (unsigned i = 0; i < j; i++, bit++) {
                if (bit % 6 == 0)
                    line += (char)63;
                line.back() += (char)(linked({i, j}) << (5 - bit % 6));
            }
        return line;
    }
};

/* ---- The search ---- */

/* Callbacks name a variable by a number in Z3 4.8 (Debian 12), by itself in later ones. */
#if Z3_MAJOR_VERSION == 4 && Z3_MINOR_VERSION <= 8
using Name = unsigned;
Name watch(z3::solver &solver, const z3::expr &variable)
{
    return Z3_solver_propagate_register(solver.ctx(), solver, variable);
}
#else
using Name = Z3_ast;
Name watch(z3::solver &solver, const z3::expr &variable)
{
    Z3_solver_propagate_register(solver.ctx(), solver, variable);
    return variable;
}
#endif

/* Pairs are known by an index: the checker's pair number, less 1. */
struct Search {
    Wish wish;
    unsigned order = *wish.order;
    z3::context context;
    z3::solver solver{context, z3::solver::simple()};
    std::vector<Pair> pairs;
    std::vector<z3::expr> links; /* Z3's variable for each pair */
    std::vector<Name> names;
    std::map<Name, unsigned> index_of;

    Drawing drawing;             /* what Z3 has fixed so far */
    std::vector<unsigned> trail; /* the pairs that are fixed, in their order */
    std::vector<size_t> scopes;  /* how long the trail was at each push */
    bool told = false;           /* a conflict was told, and Z3 has not gone back yet */
    bool was_cut = false;        /* the last finished drawing could not be judged to the end */

    uint64_t found = 0, asked = 0, learnt = 0, unsure = 0;
    std::chrono::steady_clock::time_point reported = std::chrono::steady_clock::now();

    explicit Search(const Wish &w) : wish(w)
    {
        Z3_solver_propagate_init(context, solver, this, push, pop, fresh);
        Z3_solver_propagate_fixed(context, solver, fixed);
        Z3_solver_propagate_final(context, solver, final);
        for (unsigned i = 0; i < order; i++)
            for (unsigned j = i + 1; j < order; j++)
                add({i, j});
    }

    void add(Pair pair)
    {
        std::string text = std::to_string(pair.i + 1) + "-" + std::to_string(pair.j + 1);
        links.push_back(context.bool_const(text.c_str()));
        names.push_back(watch(solver, links.back()));
        index_of[names.back()] = (unsigned)pairs.size();
        pairs.push_back(pair);
        drawing.set(pair, Entry::open);
    }

    template <class Condition> std::vector<unsigned> where(Condition condition) const
    {
        std::vector<unsigned> those;
        for (unsigned index = 0; index < pairs.size(); index++)
            if (condition(pairs[index]))
                those.push_back(index);
        return those;
    }

    /* ---- What is told to Z3 ---- */

    /* These pairs can't all be as they are drawn. */
    void conflict(Z3_solver_callback to, const std::vector<unsigned> &those)
    {
        std::vector<Name> all;
        for (unsigned index : those)
            all.push_back(names[index]);
        Z3_solver_propagate_consequence(context, to, (unsigned)all.size(), all.data(), 0, nullptr, nullptr,
                                        context.bool_val(false));
        told = true;
    }

    /* Asks the checker. What is lent to the call lives as long as the call. */
    uint32_t ask(Z3_solver_callback to, uint32_t budget)
    {
        int32_t clause[CAFRUZEK_MOST_LITERALS];
        uint8_t arrangement[32];
        uint64_t answer = cafruzek_judge_rows(order, drawing.edges, drawing.unknowns, wish.starts, CAFRUZEK_BY_ROWS,
                                              budget, clause, CAFRUZEK_MOST_LITERALS, arrangement);
        if (cafruzek_refusal(answer) != 0)
            stop(1, "the checker refused the drawing by " + std::to_string(cafruzek_refusal(answer)));
        asked++;
        if (cafruzek_code(answer) == CAFRUZEK_SMALLER) {
            std::vector<unsigned> those;
            for (size_t k = 0; k < cafruzek_literals(answer); k++)
                those.push_back((unsigned)std::abs(clause[k]) - 1);
            learnt++;
            conflict(to, those);
        }
        return cafruzek_code(answer);
    }

    /* Where a finished drawing is in parts, some link must leave the first node's. */
    bool in_parts(Z3_solver_callback to)
    {
        uint32_t part = drawing.reached();
        std::vector<unsigned> across = where([=](Pair p) { return (part >> p.i & 1) != (part >> p.j & 1); });
        if (!across.empty())
            conflict(to, across);
        return !across.empty();
    }

    /* ---- What Z3 calls; later versions have one argument more in push and pop ---- */

    static Search &of(void *search) { return *static_cast<Search *>(search); }

    static void push(void *search) { of(search).scopes.push_back(of(search).trail.size()); }
    static void push(void *search, Z3_solver_callback) { push(search); }
    static void pop(void *search, Z3_solver_callback, unsigned count) { pop(search, count); }
    static void pop(void *search, unsigned count)
    {
        Search &s = of(search);
        size_t length = s.scopes[s.scopes.size() - count];
        s.scopes.resize(s.scopes.size() - count);
        for (; s.trail.size() > length; s.trail.pop_back())
            s.drawing.set(s.pairs[s.trail.back()], Entry::open);
        s.told = false;
    }

    static void *fresh(void *search, Z3_context) { return search; }

    /* A link is drawn, or its absence. After "none" and after "cut" Z3 goes on. */
    static void fixed(void *search, Z3_solver_callback to, Name name, Z3_ast value)
    {
        Search &s = of(search);
        unsigned index = s.index_of.at(name);
        bool link = Z3_get_bool_value(s.context, value) == Z3_L_TRUE;
        s.drawing.set(s.pairs[index], link ? Entry::link : Entry::none);
        s.trail.push_back(index);
        if (!s.told)
            s.ask(to, SMALL_BUDGET);
        s.report_now_and_then();
    }

    /* The drawing is finished. Z3 goes on if a conflict is told; else this is a find. */
    static void final(void *search, Z3_solver_callback to)
    {
        Search &s = of(search);
        if (s.trail.size() != s.pairs.size())
            stop(1, "Z3 calls a drawing finished that has open links");
        if (!s.wish.connected || !s.in_parts(to))
            s.was_cut = s.ask(to, LARGEST_BUDGET) == CAFRUZEK_CUT;
    }

    /* ---- The wish as formulas ---- */

    void no_triangle(unsigned i, unsigned j, unsigned k)
    {
        z3::expr_vector missing(context);
        for (unsigned index : where([=](Pair p) { return (p.i == i || p.i == j) && (p.j == j || p.j == k); }))
            missing.push_back(!links[index]);
        solver.add(z3::mk_or(missing));
    }

    /* From least to most of these links are there: counts[k] says that at least k of
     * those seen so far are. Z3 4.8.12 loses networks where its own counts (atmost,
     * pble) meet a propagator, so these are plain formulas. */
    void count(const std::vector<unsigned> &those, unsigned least, unsigned most)
    {
        unsigned limit = std::min(most, (unsigned)those.size()) + 1;
        std::vector<z3::expr> counts(limit + 1, context.bool_val(false));
        counts[0] = context.bool_val(true);
        for (unsigned index : those)
            for (unsigned k = limit; k > 0; k--)
                counts[k] = counts[k] || (counts[k - 1] && links[index]);
        solver.add(counts[least] && !counts[limit]);
    }

    void encode()
    {
        for (unsigned k = 2; wish.triangle_free && k < order; k++)
            for (unsigned j = 1; j < k; j++)
                for (unsigned i = 0; i < j; i++)
                    no_triangle(i, j, k);
        for (unsigned node = 0; (wish.most || wish.least) && node < order; node++)
            count(where([=](Pair p) { return p.i == node || p.j == node; }), wish.least.value_or(0),
                  wish.most.value_or(order));
        if (wish.links)
            count(where([](Pair) { return true; }), *wish.links, *wish.links);
    }

    /* ---- The catalogue ---- */

    void report(const char *when)
    {
        std::cerr << "catalogue: " << when << "found " << found << ", asked " << asked << ", learnt " << learnt
                  << std::endl;
        reported = std::chrono::steady_clock::now();
    }

    void report_now_and_then()
    {
        if (asked % 256 == 0 && std::chrono::steady_clock::now() - reported > std::chrono::seconds(5))
            report("so far ");
    }

    /* Writes the find down, and wants another drawing. */
    void keep()
    {
        std::cout << drawing.graph6(order) << std::endl;
        found++;
        unsure += was_cut;
        z3::expr_vector other(context);
        for (unsigned index = 0; index < pairs.size(); index++)
            other.push_back(drawing.linked(pairs[index]) ? !links[index] : links[index]);
        solver.add(z3::mk_or(other));
    }

    void run()
    {
        encode();
        z3::check_result result;
        while ((result = solver.check()) == z3::sat)
            keep();
        report("");
        if (result != z3::unsat)
            stop(1, "Z3 gave up, so there may be more");
        if (unsure != 0)
            stop(1, std::to_string(unsure) + " of these may be copies of others: the checker was cut");
        if (!std::cout)
            stop(1, "they could not all be written");
    }
};

int main(int count, char **words)
{
    std::vector<std::string> given(words + 1, words + count);
    if (std::find(given.begin(), given.end(), "--help") != given.end()) {
        std::cout << HELP;
        return 0;
    }
    Wish wish = read_wish(given);
    check_sense(wish);
    Search(wish).run();
}

// Solves the ultimate pit of a model and a precedence file by a maximum flow of another library, and writes the same text as pitshell.
//
//     peers PEER MODEL PREC > PIT
//
// PEER is kolmogorov, the authors' own Boykov-Kolmogorov, igraph, its push-relabel, boykov_kolmogorov or push_relabel of Boost,
// or lemon_preflow of LEMON, each where its headers are there. Without words it lists those that it has.
//
// The flow network is Picard's (1976): an arc from the source to each block of positive value, from each other block to the
// sink, with the value's size as its capacity, and an arc without limit along each pair. The pit is what the source reaches
// over arcs with capacity left, so it is the smallest of the best. The processor seconds of reading and of solving (network and
// flow) go to standard error. Files are trusted: this is a yardstick, and checks nothing.
#if __has_include(<boost/graph/boykov_kolmogorov_max_flow.hpp>)
#include <boost/graph/adjacency_list.hpp>
#include <boost/graph/boykov_kolmogorov_max_flow.hpp>
#include <boost/graph/push_relabel_max_flow.hpp>
#define HAS_BOOST
#endif
#if __has_include(<lemon/preflow.h>)
#include <lemon/preflow.h>
#include <lemon/static_graph.h>
#define HAS_LEMON
#endif
#if __has_include(<maxflow.h>)
#define MAXFLOW_INCLUDE_TEMPLATE_IMPLEMENTATION
#include <maxflow.h>
#define HAS_KOLMOGOROV
#endif
#if __has_include(<igraph/igraph.h>)
#include <igraph/igraph.h>
#define HAS_IGRAPH
#endif

#include <algorithm>
#include <cstdint>
#include <cstdio>
#include <cstdlib>
#include <cstring>
#include <ctime>
#include <fstream>
#include <iostream>
#include <iterator>
#include <string>
#include <utility>
#include <vector>

using Amount = std::int64_t;

struct Mine {
    std::vector<Amount> values;  // millionths
    std::vector<std::pair<int, int>> pairs;
};

static std::string whole(const char *name) {
    std::ifstream file(name, std::ios::binary);
    return std::string(std::istreambuf_iterator<char>(file), {});
}

// A decimal with up to six digits behind the point, in millionths.
static Amount decimal(const char *&at) {
    bool negative = *at == '-';
    if (*at == '-' || *at == '+') at++;
    Amount value = 0;
    for (; *at >= '0' && *at <= '9'; at++) value = 10 * value + (*at - '0');
    int digits = 0;
    if (*at == '.')
        for (at++; *at >= '0' && *at <= '9'; at++, digits++) value = 10 * value + (*at - '0');
    for (; digits < 6; digits++) value *= 10;
    return negative ? -value : value;
}

static long number(const char *&at) {
    char *end;
    long value = std::strtol(at, &end, 10);
    at = end;
    return value;
}

static Mine read(const char *model, const char *prec) {
    Mine mine;
    std::string text = whole(model);
    const char *at = std::strstr(text.c_str(), "NBLOCKS:") + 8;
    mine.values.resize(number(at));
    at = std::strstr(at, "OBJECTIVE_FUNCTION:") + 19;
    for (Amount &value : mine.values) {
        number(at);
        while (*at == ' ' || *at == '\t') at++;
        value = decimal(at);
    }
    text = whole(prec);
    at = text.c_str();
    const char *end = at + text.size();
    while (at < end && *at <= ' ') at++;
    while (at < end) {
        long block = number(at), count = number(at);
        for (; count > 0; count--) mine.pairs.push_back({int(block), int(number(at))});
        while (at < end && *at <= ' ') at++;
    }
    return mine;
}

struct Arc {
    int from, to;
    Amount capacity;
};

// Blocks, then the source and the sink.
static std::vector<Arc> network(const Mine &mine) {
    int n = int(mine.values.size());
    Amount limitless = 1;
    for (Amount value : mine.values) limitless += std::max<Amount>(value, 0);
    std::vector<Arc> arcs;
    arcs.reserve(n + mine.pairs.size());
    for (int block = 0; block < n; block++) {
        Amount value = mine.values[block];
        if (value > 0) arcs.push_back({n, block, value});
        if (value < 0) arcs.push_back({block, n + 1, -value});
    }
    for (auto [block, needed] : mine.pairs) arcs.push_back({block, needed, limitless});
    return arcs;
}

// What the source reaches over arcs with capacity left; left[2k] is left of arc k, left[2k + 1] of its reverse.
static std::vector<char> reached(int nodes, int source, const std::vector<Arc> &arcs, const std::vector<Amount> &left) {
    std::vector<std::vector<std::pair<int, size_t>>> leads(nodes);
    for (size_t k = 0; k < arcs.size(); k++) {
        leads[arcs[k].from].push_back({arcs[k].to, 2 * k});
        leads[arcs[k].to].push_back({arcs[k].from, 2 * k + 1});
    }
    std::vector<char> seen(nodes, 0);
    std::vector<int> queue{source};
    seen[source] = 1;
    for (size_t head = 0; head < queue.size(); head++)
        for (auto [to, k] : leads[queue[head]])
            if (!seen[to] && left[k] > 0) {
                seen[to] = 1;
                queue.push_back(to);
            }
    return seen;
}

#ifdef HAS_BOOST
using Traits = boost::adjacency_list_traits<boost::vecS, boost::vecS, boost::directedS>;
using BoostGraph = boost::adjacency_list<
    boost::vecS, boost::vecS, boost::directedS,
    boost::property<boost::vertex_index_t, long,
    boost::property<boost::vertex_color_t, boost::default_color_type,
    boost::property<boost::vertex_distance_t, long,
    boost::property<boost::vertex_predecessor_t, Traits::edge_descriptor>>>>,
    boost::property<boost::edge_capacity_t, Amount,
    boost::property<boost::edge_residual_capacity_t, Amount,
    boost::property<boost::edge_reverse_t, Traits::edge_descriptor>>>>;

static std::vector<Amount> by_boost(bool push_relabel, int nodes, const std::vector<Arc> &arcs) {
    BoostGraph graph(nodes);
    auto capacity = get(boost::edge_capacity, graph);
    auto residual = get(boost::edge_residual_capacity, graph);
    auto reverse = get(boost::edge_reverse, graph);
    std::vector<Traits::edge_descriptor> forth, back;
    for (const Arc &arc : arcs) {
        auto there = add_edge(arc.from, arc.to, graph).first;
        auto again = add_edge(arc.to, arc.from, graph).first;
        capacity[there] = arc.capacity;
        capacity[again] = 0;
        reverse[there] = again;
        reverse[again] = there;
        forth.push_back(there);
        back.push_back(again);
    }
    if (push_relabel)
        boost::push_relabel_max_flow(graph, nodes - 2, nodes - 1);
    else
        boost::boykov_kolmogorov_max_flow(graph, nodes - 2, nodes - 1);
    std::vector<Amount> left;
    for (size_t k = 0; k < arcs.size(); k++) {
        left.push_back(residual[forth[k]]);
        left.push_back(residual[back[k]]);
    }
    return left;
}
#endif

#ifdef HAS_LEMON
static std::vector<Amount> by_lemon(int nodes, const std::vector<Arc> &arcs) {
    std::vector<size_t> order(arcs.size());
    for (size_t k = 0; k < order.size(); k++) order[k] = k;
    std::stable_sort(order.begin(), order.end(), [&](size_t a, size_t b) { return arcs[a].from < arcs[b].from; });
    std::vector<std::pair<int, int>> ends;
    for (size_t k : order) ends.push_back({arcs[k].from, arcs[k].to});
    lemon::StaticDigraph graph;
    graph.build(nodes, ends.begin(), ends.end());
    lemon::StaticDigraph::ArcMap<Amount> capacity(graph);
    for (size_t place = 0; place < order.size(); place++) capacity[graph.arc(int(place))] = arcs[order[place]].capacity;
    lemon::Preflow<lemon::StaticDigraph, lemon::StaticDigraph::ArcMap<Amount>> flow(graph, capacity, graph.node(nodes - 2), graph.node(nodes - 1));
    flow.run();
    std::vector<Amount> left(2 * arcs.size());
    for (size_t place = 0; place < order.size(); place++) {
        size_t k = order[place];
        Amount moved = flow.flow(graph.arc(int(place)));
        left[2 * k] = arcs[k].capacity - moved;
        left[2 * k + 1] = moved;
    }
    return left;
}
#endif

// Two peers count in doubles, which hold all sums of a flow exactly where the values' sizes come to less than 2^52.
static bool doubles_hold(const Mine &mine) {
    Amount sizes = 0;
    for (Amount value : mine.values) sizes += std::abs(value);
    return sizes < Amount(1) << 52;
}

// The authors' own code takes the arcs of source and sink with the nodes.
#ifdef HAS_KOLMOGOROV
static std::vector<char> by_kolmogorov(const Mine &mine) {
    using Graph = maxflow::Graph<double, double, double>;
    int n = int(mine.values.size());
    double limitless = 1;
    for (Amount value : mine.values) limitless += double(std::max<Amount>(value, 0));
    Graph graph(n, int(mine.pairs.size()));
    if (n > 0) graph.add_node(n);
    for (int block = 0; block < n; block++) {
        double value = double(mine.values[block]);
        graph.add_tweights(block, std::max(value, 0.0), std::max(-value, 0.0));
    }
    for (auto [block, needed] : mine.pairs) graph.add_edge(block, needed, limitless, 0);
    graph.maxflow();
    std::vector<char> inside(n);
    for (int block = 0; block < n; block++) inside[block] = graph.what_segment(block, Graph::SINK) == Graph::SOURCE;
    return inside;
}
#endif

#ifdef HAS_IGRAPH
static std::vector<Amount> by_igraph(int nodes, const std::vector<Arc> &arcs) {
    igraph_vector_int_t ends;
    igraph_vector_t capacity, flow;
    igraph_vector_int_init(&ends, igraph_integer_t(2 * arcs.size()));
    igraph_vector_init(&capacity, igraph_integer_t(arcs.size()));
    igraph_vector_init(&flow, 0);
    for (size_t k = 0; k < arcs.size(); k++) {
        VECTOR(ends)[2 * k] = arcs[k].from;
        VECTOR(ends)[2 * k + 1] = arcs[k].to;
        VECTOR(capacity)[k] = double(arcs[k].capacity);
    }
    igraph_t graph;
    igraph_create(&graph, &ends, nodes, IGRAPH_DIRECTED);
    igraph_real_t value;
    igraph_maxflow(&graph, &value, &flow, nullptr, nullptr, nullptr, nodes - 2, nodes - 1, &capacity, nullptr);
    std::vector<Amount> left;
    for (size_t k = 0; k < arcs.size(); k++) {
        Amount moved = Amount(VECTOR(flow)[k]);
        left.push_back(arcs[k].capacity - moved);
        left.push_back(moved);
    }
    return left;
}
#endif

static void write(const Mine &mine, const std::vector<char> &inside) {
    size_t count = 0;
    Amount worth = 0;
    for (size_t block = 0; block < mine.values.size(); block++)
        if (inside[block]) count++, worth += mine.values[block];
    std::printf("PIT\nBLOCKS: %zu\nIN: %zu\nWORTH: %lld.%06lld\n", mine.values.size(), count, (long long)(worth / 1000000), (long long)(worth % 1000000));
    for (size_t block = 0; block < mine.values.size(); block++)
        if (inside[block]) std::printf("%zu\n", block);
}

static const std::vector<std::string> peers{
#ifdef HAS_KOLMOGOROV
    "kolmogorov",
#endif
#ifdef HAS_IGRAPH
    "igraph",
#endif
#ifdef HAS_BOOST
    "boykov_kolmogorov",
    "push_relabel",
#endif
#ifdef HAS_LEMON
    "lemon_preflow",
#endif
};

// The blocks of the pit, and when the flow was found.
static std::vector<char> solve(const std::string &name, const Mine &mine, std::clock_t &solved_at) {
    int nodes = int(mine.values.size()) + 2;
    std::vector<char> inside;
    std::vector<Amount> left;
#ifdef HAS_KOLMOGOROV
    if (name == "kolmogorov") {
        inside = by_kolmogorov(mine);
        solved_at = std::clock();
        return inside;
    }
#endif
    std::vector<Arc> arcs = network(mine);
#ifdef HAS_IGRAPH
    if (name == "igraph") left = by_igraph(nodes, arcs);
#endif
#ifdef HAS_LEMON
    if (name == "lemon_preflow") left = by_lemon(nodes, arcs);
#endif
#ifdef HAS_BOOST
    if (name == "push_relabel" || name == "boykov_kolmogorov") left = by_boost(name == "push_relabel", nodes, arcs);
#endif
    solved_at = std::clock();
    return reached(nodes, nodes - 2, arcs, left);
}

int main(int count, char **words) {
    if (count == 1)
        for (const std::string &peer : peers) std::puts(peer.c_str());
    if (count != 4) return count == 1 ? 0 : 2;
    std::string name = words[1];
    if (std::find(peers.begin(), peers.end(), name) == peers.end()) return 2;
    auto begin = std::clock();
    Mine mine = read(words[2], words[3]);
    auto read_at = std::clock();
    if ((name == "kolmogorov" || name == "igraph") && !doubles_hold(mine)) {
        std::fprintf(stderr, "the values are too large for the doubles in which %s counts\n", name.c_str());
        return 2;
    }
    auto solved_at = read_at;
    write(mine, solve(name, mine, solved_at));
    std::fprintf(stderr, "%.3f %.3f\n", double(read_at - begin) / CLOCKS_PER_SEC, double(solved_at - read_at) / CLOCKS_PER_SEC);
}

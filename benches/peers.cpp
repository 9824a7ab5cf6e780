// Road lengths between all pairs of places by LEMON, by Boost and by std::priority_queue, for peers.rs. LEMON and Boost are left out
// where they are not installed.
#include <algorithm>
#include <cstddef>
#include <cstdint>
#include <functional>
#include <queue>
#include <utility>
#include <vector>

#if __has_include(<lemon/dijkstra.h>)
#include <lemon/dijkstra.h>
#include <lemon/smart_graph.h>
#define HAS_LEMON
#endif

#if __has_include(<boost/graph/dijkstra_shortest_paths.hpp>)
#include <boost/graph/compressed_sparse_row_graph.hpp>
#include <boost/graph/dijkstra_shortest_paths.hpp>
#define HAS_BOOST
#endif

namespace {

// The stages in the order of the sheet, by tail and head.
struct Stages {
    size_t places, count;
    const uint32_t *tails, *heads, *lengths;
};

// One that has read the stages. Every place can be reached from every other.
struct Peer {
    virtual ~Peer() = default;
    // Row u of the table becomes the lengths from place u.
    virtual void all_pairs(uint32_t *table) = 0;
};

#ifdef HAS_LEMON
class Lemon : public Peer {
    using Graph = lemon::SmartDigraph;
    Graph graph;
    Graph::ArcMap<uint32_t> lengths{graph};

  public:
    explicit Lemon(const Stages &stages) {
        for (size_t u = 0; u < stages.places; u++) graph.addNode();
        for (size_t i = 0; i < stages.count; i++) {
            auto arc = graph.addArc(Graph::nodeFromId(stages.tails[i]), Graph::nodeFromId(stages.heads[i]));
            lengths[arc] = stages.lengths[i];
        }
    }

    void all_pairs(uint32_t *table) override {
        lemon::Dijkstra<Graph, Graph::ArcMap<uint32_t>> dijkstra(graph, lengths);
        for (int u = 0; u < graph.nodeNum(); u++) {
            dijkstra.run(Graph::nodeFromId(u));
            for (int v = 0; v < graph.nodeNum(); v++) *table++ = dijkstra.dist(Graph::nodeFromId(v));
        }
    }
};
#endif

#ifdef HAS_BOOST
class Boost : public Peer {
    using Graph = boost::compressed_sparse_row_graph<boost::directedS, boost::no_property, uint32_t>;
    Graph graph;

    static Graph graph_of(const Stages &stages) {
        std::vector<std::pair<size_t, size_t>> edges;
        for (size_t i = 0; i < stages.count; i++) edges.emplace_back(stages.tails[i], stages.heads[i]);
        return Graph(boost::edges_are_sorted, edges.begin(), edges.end(), stages.lengths, stages.places);
    }

  public:
    explicit Boost(const Stages &stages) : graph(graph_of(stages)) {}

    void all_pairs(uint32_t *table) override {
        const size_t places = num_vertices(graph);
        for (size_t u = 0; u < places; u++) {
            auto row = boost::make_iterator_property_map(table + places * u, get(boost::vertex_index, graph));
            auto lengths = get(boost::edge_bundle, graph);
            boost::dijkstra_shortest_paths(graph, u, boost::weight_map(lengths).distance_map(row));
        }
    }
};
#endif

class PriorityQueue : public Peer {
    // The stages that leave u stand from first[u] to first[u + 1].
    std::vector<size_t> first;
    std::vector<uint32_t> heads, lengths;

    void lengths_from(uint32_t u, uint32_t *row) const {
        using Waiting = std::pair<uint32_t, uint32_t>;
        std::priority_queue<Waiting, std::vector<Waiting>, std::greater<Waiting>> queue;
        row[u] = 0;
        queue.emplace(0, u);
        while (!queue.empty()) {
            auto [length, place] = queue.top();
            queue.pop();
            if (length != row[place]) continue;
            for (size_t i = first[place]; i < first[place + 1]; i++) {
                const uint32_t onward = length + lengths[i];
                if (onward >= row[heads[i]]) continue;
                row[heads[i]] = onward;
                queue.emplace(onward, heads[i]);
            }
        }
    }

  public:
    explicit PriorityQueue(const Stages &stages)
        : first(stages.places + 1), heads(stages.heads, stages.heads + stages.count),
          lengths(stages.lengths, stages.lengths + stages.count) {
        for (size_t i = 0; i < stages.count; i++) first[stages.tails[i] + 1]++;
        for (size_t u = 0; u < stages.places; u++) first[u + 1] += first[u];
    }

    void all_pairs(uint32_t *table) override {
        const size_t places = first.size() - 1;
        std::fill_n(table, places * places, UINT32_MAX);
        for (size_t u = 0; u < places; u++) lengths_from(u, table + places * u);
    }
};

} // namespace

// The names by which peers.rs asks: 0 LEMON, 1 Boost, 2 std::priority_queue. Nothing is given for one that is not installed.
extern "C" void *peer_ready(uint32_t name, size_t places, size_t count, const uint32_t *tails, const uint32_t *heads,
                            const uint32_t *lengths) {
    [[maybe_unused]] const Stages stages{places, count, tails, heads, lengths};
    switch (name) {
#ifdef HAS_LEMON
    case 0: return static_cast<Peer *>(new Lemon(stages));
#endif
#ifdef HAS_BOOST
    case 1: return static_cast<Peer *>(new Boost(stages));
#endif
    case 2: return static_cast<Peer *>(new PriorityQueue(stages));
    default: return nullptr;
    }
}

extern "C" void peer_all_pairs(void *peer, uint32_t *table) {
    static_cast<Peer *>(peer)->all_pairs(table);
}

extern "C" void peer_done(void *peer) {
    delete static_cast<Peer *>(peer);
}

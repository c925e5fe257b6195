// The value of a DIMACS maximum flow problem by a library: others METHOD FILE. It is compiled for one library: -DLEMON
// (Debian: liblemon-dev), -DBOOST (libboost-graph-dev), -DIGRAPH (libigraph-dev, -ligraph) or -DKOLMOGOROV
// (libmaxflow-dev, -lmaxflow). The reader is as plain as it can be, so that the time is the library's: the whole file
// at once, and no test of it. All sources are one node to the library, and so are all sinks. By LEMON and the method
// connect it is the edge connectivity of the undirected network.
#include <cstdio>
#include <filesystem>
#include <memory>
#include <numeric>
#include <string>
#include <vector>

struct Ends {
  int source = -1, sink = -1;
};

#ifdef LEMON
#include <lemon/nagamochi_ibaraki.h>
#include <lemon/preflow.h>
#include <lemon/smart_graph.h>
struct Flow : Ends {
  lemon::SmartDigraph graph;
  std::vector<long> capacities;
  void start(int nodes, int arcs) {
    graph.reserveNode(nodes), graph.reserveArc(arcs), capacities.reserve(static_cast<size_t>(arcs));
    while (nodes--) graph.addNode();
  }
  void add(int from, int to, long capacity) {
    graph.addArc(graph.nodeFromId(from), graph.nodeFromId(to)), capacities.push_back(capacity);
  }
  long value(const std::string &) {
    lemon::SmartDigraph::ArcMap<long> most(graph);
    for (size_t arc = 0; arc < capacities.size(); ++arc) most[graph.arcFromId(static_cast<int>(arc))] = capacities[arc];
    lemon::Preflow<lemon::SmartDigraph, lemon::SmartDigraph::ArcMap<long>> preflow(
      graph, most, graph.nodeFromId(source), graph.nodeFromId(sink));
    preflow.runMinCut();
    return preflow.flowValue();
  }
};
struct Links : Ends {
  lemon::SmartGraph graph;
  void start(int nodes, int) { while (nodes--) graph.addNode(); }
  void add(int from, int to, long) { graph.addEdge(graph.nodeFromId(from), graph.nodeFromId(to)); }
  long value(const std::string &) {
    lemon::SmartGraph::EdgeMap<int> ones(graph, 1);
    lemon::NagamochiIbaraki<lemon::SmartGraph, lemon::SmartGraph::EdgeMap<int>> search(graph, ones);
    search.run();
    return search.minCutValue();
  }
};
#endif

#ifdef BOOST
#include <boost/graph/adjacency_list.hpp>
#include <boost/graph/boykov_kolmogorov_max_flow.hpp>
#include <boost/graph/push_relabel_max_flow.hpp>
using namespace boost;
struct Flow : Ends {
  using Edge = adjacency_list_traits<vecS, vecS, directedS>::edge_descriptor;
  using Graph = adjacency_list<vecS, vecS, directedS, property<vertex_color_t, default_color_type,
    property<vertex_distance_t, long, property<vertex_predecessor_t, Edge>>>, property<edge_capacity_t, long,
    property<edge_residual_capacity_t, long, property<edge_reverse_t, Edge>>>>;
  Graph graph;
  void start(int nodes, int) { graph = Graph(static_cast<size_t>(nodes)); }
  void add(int from, int to, long capacity) {
    const Edge there = add_edge(from, to, graph).first, back = add_edge(to, from, graph).first;
    put(edge_capacity, graph, there, capacity), put(edge_capacity, graph, back, 0L);
    put(edge_reverse, graph, there, back), put(edge_reverse, graph, back, there);
  }
  long value(const std::string &method) {
    return method == "push-relabel" ? push_relabel_max_flow(graph, source, sink)
                                    : boykov_kolmogorov_max_flow(graph, source, sink);
  }
};
#endif

#ifdef IGRAPH
#include <igraph/igraph.h>
struct Flow : Ends {
  int nodes = 0;
  std::vector<igraph_integer_t> ends;
  std::vector<igraph_real_t> capacities;
  void start(int count, int arcs) {
    nodes = count, ends.reserve(2 * static_cast<size_t>(arcs)), capacities.reserve(static_cast<size_t>(arcs));
  }
  void add(int from, int to, long capacity) {
    ends.push_back(from), ends.push_back(to), capacities.push_back(static_cast<double>(capacity));
  }
  long value(const std::string &) {
    igraph_t graph;
    igraph_real_t value = 0;
    igraph_vector_int_t pairs;
    igraph_vector_t most;
    igraph_vector_int_view(&pairs, ends.data(), static_cast<igraph_integer_t>(ends.size()));
    igraph_vector_view(&most, capacities.data(), static_cast<igraph_integer_t>(capacities.size()));
    igraph_create(&graph, &pairs, nodes, true);
    igraph_maxflow_value(&graph, &value, source, sink, &most, nullptr);
    return static_cast<long>(value);
  }
};
#endif

#ifdef KOLMOGOROV
#include <maxflow.h>
// What leaves the source or enters the sink is told of a node, and two opposite arcs that follow each other are one
// edge. Sums are exact below 2^53.
struct Flow : Ends {
  std::unique_ptr<maxflow::Graph<double, double, double>> graph;
  int tail = -1, head = -1;
  double there = 0, direct = 0;
  void start(int nodes, int arcs) {
    graph = std::make_unique<maxflow::Graph<double, double, double>>(nodes, arcs);
    graph->add_node(nodes);
  }
  void add_edge(double back) {
    if (tail >= 0) graph->add_edge(tail, head, there, back);
    tail = -1;
  }
  void add(int from, int to, long most) {
    const double capacity = static_cast<double>(most);
    if (to == source || from == sink) return;
    if (from == source && to == sink) direct += capacity;
    else if (from == source) graph->add_tweights(to, capacity, 0);
    else if (to == sink) graph->add_tweights(from, 0, capacity);
    else if (tail == to && head == from) add_edge(capacity);
    else add_edge(0), tail = from, head = to, there = capacity;
  }
  long value(const std::string &) {
    add_edge(0);
    return static_cast<long>(graph->maxflow() + direct);
  }
};
#endif

static long number(const char *&at) {
  while (*at < '0' || *at > '9') ++at;
  long value = 0;
  while (*at >= '0') value = value * 10 + (*at++ - '0');
  return value;
}

template <class Network> static int run(const std::string &method, const char *name, bool has_terminals) {
  std::vector<char> bytes(std::filesystem::file_size(name) + 1);
  std::FILE *file = std::fopen(name, "rb");
  if (!file || std::fread(bytes.data(), 1, bytes.size(), file) + 1 != bytes.size()) return 2;
  Network network;
  std::vector<int> known_as;
  for (const char *at = bytes.data(); *at; ++at) {
    if (*at == 'p') {
      const int nodes = static_cast<int>(number(at));
      known_as.resize(static_cast<size_t>(nodes) + 1);
      std::iota(known_as.begin(), known_as.end(), -1);
      network.start(nodes, static_cast<int>(number(at)));
    } else if (*at == 'n' && has_terminals) {
      int &node = known_as[static_cast<size_t>(number(at))], &first = at[1] == 's' ? network.source : network.sink;
      first = node = first < 0 ? node : first;
    } else if (*at == 'a') {
      const int from = known_as[static_cast<size_t>(number(at))], to = known_as[static_cast<size_t>(number(at))];
      const long capacity = number(at);
      if (from != to) network.add(from, to, capacity);
    }
    while (*at != '\n') ++at;
  }
  std::printf("%c %ld\n", has_terminals ? 's' : 'k', network.value(method));
  return 0;
}

int main(int count, char **words) {
  if (count != 3) return 2;
#ifdef LEMON
  if (std::string(words[1]) == "connect") return run<Links>(words[1], words[2], false);
#endif
  return run<Flow>(words[1], words[2], true);
}

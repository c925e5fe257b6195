// What a minimum cut costs in process, beside the library of Boykov and Kolmogorov: in_process TIMES FILE ...
// A file is in the DIMACS format, with sums of capacities below 2^31; two opposite arcs that follow each other are one
// edge. Timed is the way from edges and weights to a mask of the nodes: to build a network, to solve it, to write the
// mask and to free all memory. A row of Markdown has the least CPU time of each, in turns. The values have to be the same.
#include <cstdio>
#include <ctime>
#include <fstream>
#include <maxflow.h>
#include <provedflow.hpp>
#include <string>
#include <vector>

struct Edge { unsigned from, to; int there, back; };

struct Problem {
  unsigned nodes = 0, arcs = 0;
  std::vector<std::uint32_t> sources, sinks;
  std::vector<Edge> edges;
};

static Problem read(const char *name) {
  Problem given;
  std::ifstream file(name);
  Edge edge{};
  for (std::string word; file >> word;) {
    if (word == "p") file >> word >> given.nodes >> given.arcs;
    else if (word == "n") file >> edge.from >> word, (word == "s" ? given.sources : given.sinks).push_back(edge.from - 1);
    else if (word != "a") std::getline(file, word);
    else {
      file >> edge.from >> edge.to >> edge.there, --edge.from, --edge.to;
      Edge *last = given.edges.empty() ? &edge : &given.edges.back();
      if (last->from == edge.to && last->to == edge.from && last->back == 0) last->back = edge.there;
      else given.edges.push_back(edge);
    }
  }
  return given;
}

static long by_kolmogorov(const Problem &given, std::vector<std::uint8_t> &mask) {
  maxflow::Graph<int, int, int> graph(static_cast<int>(given.nodes), static_cast<int>(given.edges.size()));
  graph.add_node(static_cast<int>(given.nodes));
  for (const auto node : given.sources) graph.add_tweights(static_cast<int>(node), 1 << 29, 0);
  for (const auto node : given.sinks) graph.add_tweights(static_cast<int>(node), 0, 1 << 29);
  for (const auto &[from, to, there, back] : given.edges) {
    if (from == given.sources[0] && back == 0) graph.add_tweights(static_cast<int>(to), there, 0);
    else if (to == given.sinks[0] && back == 0) graph.add_tweights(static_cast<int>(from), 0, there);
    else graph.add_edge(static_cast<int>(from), static_cast<int>(to), there, back);
  }
  const long value = graph.maxflow();
  for (unsigned node = 0; node < given.nodes; ++node) mask[node] = graph.what_segment(static_cast<int>(node)) == 0;
  return value;
}

static long by_provedflow(const Problem &given, std::vector<std::uint8_t> &mask) {
  std::vector<std::uint32_t> src, dst;
  std::vector<std::uint64_t> cap;
  src.reserve(given.arcs), dst.reserve(given.arcs), cap.reserve(given.arcs);
  for (const auto &[from, to, there, back] : given.edges) {
    src.push_back(from), dst.push_back(to), cap.push_back(static_cast<std::uint64_t>(there));
    if (back) src.push_back(to), dst.push_back(from), cap.push_back(static_cast<std::uint64_t>(back));
  }
  const auto cut = provedflow::minimum_cut(given.nodes, src, dst, cap, given.sources, given.sinks);
  mask = cut.side;
  return static_cast<long>(cut.value.number());
}

int main(int count, char **words) {
  std::puts("| Problem | Arcs | B-K, ms | provedflow, ms | Ratio |\n|---|---:|---:|---:|---:|");
  for (int i = 2; i < count; ++i) {
    const Problem given = read(words[i]);
    std::vector<std::uint8_t> mask(given.nodes);
    double least[2] = {1e9, 1e9};
    for (int turn = 0; turn < std::stoi(words[1]); ++turn) {
      const std::clock_t start = std::clock();
      const long value = by_kolmogorov(given, mask);
      const std::clock_t between = std::clock();
      if (by_provedflow(given, mask) != value) return 1;
      const std::clock_t ticks[] = {between - start, std::clock() - between};
      for (int one : {0, 1}) least[one] = std::min(least[one], 1e3 * static_cast<double>(ticks[one]) / CLOCKS_PER_SEC);
    }
    std::printf("| %s | %u | %.3g | %.3g | %.2f |\n", words[i], given.arcs, least[0], least[1], least[1] / least[0]);
  }
}

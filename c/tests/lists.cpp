/* Tries provedflow.hpp: small networks against all sets of nodes, grids against all ways to part them, each request for
 * memory refused in turn, and what is thrown. The last line is 'lists: N passed, M failed'. */
#include <array>
#include <cstdio>
#include <cstdlib>
#include <random>
#include <vector>

#include <provedflow.hpp>

namespace {

using std::uint32_t;
using std::uint64_t;

int passed = 0, failed = 0;
long until_refused = 0; // the request for memory that is refused, counted from here; none where it isn't above 0

void check(bool good, const char *what) {
    good ? passed++ : failed++;
    if (!good) {
        std::printf("not as it should be: %s\n", what);
    }
}

template <class Kind, class Call> bool throws(Call call) {
    try {
        call();
    } catch (const Kind &) {
        return true;
    }
    return false;
}

struct Network {
    uint32_t nodes;
    std::vector<uint32_t> src, dst;
    std::vector<uint64_t> cap;

    void add(uint32_t from, uint32_t to, uint64_t weight) {
        src.push_back(from), dst.push_back(to), cap.push_back(weight);
    }
};

/* What the arcs that leave a set carry at most; bit v of the set is node v. */
uint64_t leaving(const Network &net, uint64_t set) {
    uint64_t sum = 0;
    for (std::size_t i = 0; i < net.src.size(); i++) {
        sum += (set >> net.src[i] & 1) && !(set >> net.dst[i] & 1) ? net.cap[i] : 0;
    }
    return sum;
}

uint64_t bits_of(const std::vector<std::uint8_t> &side) {
    uint64_t set = 0;
    for (std::size_t v = 0; v < side.size(); v++) {
        set |= uint64_t{side[v]} << v;
    }
    return set;
}

void try_network(std::mt19937 &chance) {
    const auto below = [&chance](uint32_t most) { return std::uniform_int_distribution<uint32_t>(0, most - 1)(chance); };
    Network net{2 + below(5), {}, {}, {}};
    for (uint32_t arcs = below(14); arcs > 0; arcs--) {
        const uint32_t from = below(net.nodes), to = below(net.nodes);
        net.add(from, to, below(6));
    }
    const std::array<uint32_t, 1> source{0}, sink{1};
    uint64_t least = UINT64_MAX, near = 0, far = ~uint64_t{0}, links = UINT64_MAX, pair = UINT64_MAX;
    Network unit = net;
    unit.cap.assign(net.cap.size(), 1);
    for (uint64_t set = 1; set + 1 < uint64_t{1} << net.nodes; set++) {
        links = std::min(links, leaving(unit, set));
        if ((set & 3) == 1) {
            const uint64_t sum = leaving(net, set);
            pair = std::min(pair, leaving(unit, set));
            near = sum < least ? set : sum == least ? near & set : near;
            far = sum < least ? set : sum == least ? far | set : far;
            least = std::min(least, sum);
        }
    }
    const auto flow = provedflow::maximum_flow(net.nodes, net.src, net.dst, net.cap, source, sink);
    const auto cut = provedflow::minimum_cut(net.nodes, net.src, net.dst, net.cap, source, sink);
    const auto back = provedflow::minimum_cut(net.nodes, net.src, net.dst, net.cap, source, sink,
                                              provedflow::Nearest::sinks);
    const auto said = provedflow::check(net.nodes, net.src, net.dst, net.cap, source, sink, flow.arcs);
    check(flow.value.number() == least && cut.value.number() == least, "the greatest value is the least capacity");
    check(bits_of(cut.side) == near && bits_of(back.side) == far, "the nearest sides");
    check(said.verdict == PROVEDFLOW_GREATEST && said.told == flow.value, "the verdict");
    check(provedflow::edge_connectivity(net.nodes, net.src, net.dst, false) == links, "the edge connectivity");
    check(provedflow::edge_connectivity(net.nodes, net.src, net.dst, false, source, sink) == pair, "that of the pair");
}

/* Whether these are the minimum cuts of a grid, whose network has the source and the sink as its last nodes. */
bool is_cut(const provedflow::Cut &near, const provedflow::Cut &far, const Network &net) {
    const uint64_t source = uint64_t{1} << (net.nodes - 2);
    uint64_t least = UINT64_MAX, within = 0, around = 0;
    for (uint64_t set = 0; set < source; set++) {
        const uint64_t sum = leaving(net, set | source);
        within = sum < least ? set : sum == least ? within & set : within;
        around = sum < least ? set : sum == least ? around | set : around;
        least = std::min(least, sum);
    }
    return near.side.size() + 2 == net.nodes && far.side.size() + 2 == net.nodes && near.value.number() == least
           && far.value.number() == least && bits_of(near.side) == within && bits_of(far.side) == around;
}

/* Cuts a grid from both ends; then more is joined and added, and it is cut again. */
void try_grid(std::mt19937 &chance, uint32_t width, uint32_t height, uint32_t depth) {
    const auto weight = [&chance] { return std::uniform_int_distribution<uint64_t>(0, 9)(chance); };
    provedflow::Grid grid(width, height, depth);
    Network net{grid.pixels() + 2, {}, {}, {}};
    for (uint64_t round = 0; round < 4; round++) {
        for (uint32_t pixel = 0; pixel < grid.pixels(); pixel++) {
            const uint64_t source = weight() >> 2 * round, sink = weight() >> round;
            grid.add_terminals(pixel, source, sink);
            net.add(grid.pixels(), pixel, source), net.add(pixel, grid.pixels() + 1, sink);
            if (pixel + 1 < grid.pixels() && round != 1) {
                const uint64_t there = weight() / 2, back = round == 0 ? weight() : 0;
                grid.join(pixel, pixel + 1, there, back);
                net.add(pixel, pixel + 1, there), net.add(pixel + 1, pixel, back);
            }
        }
        const provedflow::Cut cut = grid.cut();
        check(is_cut(cut, grid.cut(provedflow::Nearest::sinks), net), "the cut of a grid");
    }
    check(grid.at(width - 1, height - 1, depth - 1) + 1 == grid.pixels(), "pixels");
}

/* A flow of 5 from one end to the other, and then as much as edges of 64 bits let through, the other way. */
void try_wide_grid() {
    const uint64_t most = UINT64_MAX;
    provedflow::Grid grid(3, 1);
    grid.join(0, 1, most, most), grid.join(2, 1, most, most);
    grid.add_terminals(0, 5, 0), grid.add_terminals(2, 0, 5);
    check(grid.cut().value.number() == 5, "the cut of a grid with wide edges");
    grid.add_terminals(0, 0, most), grid.add_terminals(2, most, 0);
    check(grid.cut().value == provedflow::Value{1, 4}, "2^64 - 1 + 5, whichever side all of it is on");
}

/* Makes a call until no memory is refused, which is once more at most. */
template <class Call> void insist(Call call) {
    if (throws<std::bad_alloc>(call)) {
        call();
    }
}

/* Joins pixels by more edges than a grid has room for at first, and copies the grid. */
void try_memory() {
    Network net{4, {2, 1}, {0, 3}, {9, 8}};
    for (uint32_t i = 0; i < 24; i++) {
        net.add(0, 1, i % 3), net.add(1, 0, i % 2);
    }
    bool has_refused = true;
    for (long refused = 1; has_refused; refused++) {
        provedflow::Grid grid(2, 1), copy(1, 1);
        grid.add_terminals(0, net.cap[0], 0), grid.add_terminals(1, 0, net.cap[1]);
        until_refused = refused;
        for (std::size_t i = 2; i < net.cap.size(); i += 2) {
            insist([&] { grid.join(0, 1, net.cap[i], net.cap[i + 1]); });
        }
        if (throws<std::bad_alloc>([&] { copy = grid; })) {
            check(copy.pixels() == 1 && copy.cut().value.number() == 0, "a grid whose copying fails stays as it was");
            copy = grid;
        }
        provedflow::Cut near, far;
        insist([&] { near = copy.cut(); });
        insist([&] { far = copy.cut(provedflow::Nearest::sinks); });
        check(is_cut(near, far, net), "the cut of a grid, with a request for memory refused");
        has_refused = until_refused == 0;
        until_refused = 0;
    }
}

/* A list with more elements than any memory holds. */
struct Endless {
    uint32_t one = 0;
    const uint32_t *data() const { return &one; }
    std::size_t size() const { return SIZE_MAX / 8; }
};

void try_elements() {
    const uint32_t src[] = {0, 0, 1}, dst[] = {1, 1, 2};
    const std::vector<unsigned long> cap{4, 5, 7};
    const std::vector<unsigned long long> wide(cap.begin(), cap.end());
    const auto flow = [&](const auto &units, auto source, auto sink) {
        return provedflow::maximum_flow(3, src, dst, units, source, sink).value.number();
    };
    const auto refused = [&](auto source, auto sink) {
        return throws<provedflow::Refused>([&] { flow(wide, source, sink); });
    };
    check(flow(cap, 0, 2) == 7 && flow(wide, std::uint8_t{0}, 1ULL) == 9, "one terminal, both words of 64 bits");
    check(provedflow::check(3, src, dst, wide, 0, 1, std::vector<unsigned long long>{4, 5, 0}).verdict == 0, "a flow");
    check(refused(-1, 2) && refused(0, 3) && refused(0, -1L) && refused(0, (1L << 32) + 2), "numbers that are no node");
    check(throws<provedflow::Refused>([&] { provedflow::maximum_flow(3, Endless{}, dst, cap, 0, 1); })
              && throws<provedflow::Refused>([&] { provedflow::minimum_cut(3, Endless{}, dst, cap, 0, 1); }),
          "too many arcs, before their memory is asked for");
}

void try_refusals() {
    const std::vector<uint32_t> src{0, 1}, dst{1, 7}, one{0}, other{1}, none;
    const std::vector<uint64_t> cap{1, 2}, large(2, UINT64_MAX);
    const auto refused = [&](uint32_t status, uint32_t nodes, const std::vector<uint32_t> &ends,
                             const std::vector<uint32_t> &sinks) {
        try {
            provedflow::minimum_cut(nodes, src, ends, cap, one, sinks);
        } catch (const provedflow::Refused &why) {
            return why.status() == status;
        }
        return false;
    };
    check(refused(PROVEDFLOW_NODES, 1, src, other) && refused(PROVEDFLOW_NODES, UINT32_MAX, src, other), "nodes");
    check(refused(PROVEDFLOW_LENGTHS, 2, one, other), "lengths");
    check(refused(PROVEDFLOW_ARC, 2, dst, other), "an end");
    check(refused(PROVEDFLOW_TERMINALS, 2, src, none), "terminals");
    const std::vector<uint32_t> zero(2, 0), last(2, 1);
    const auto value = provedflow::maximum_flow(2, zero, last, large, one, other).value;
    check(value.high == 1 && value.low == UINT64_MAX - 1, "a value of more than 64 bits");
    check(throws<std::overflow_error>([&] { static_cast<void>(value.number()); }), "such a value as a number");
    provedflow::Grid grid(2, 2);
    grid.add_terminals(3, UINT64_MAX, 0);
    check(throws<std::overflow_error>([&] { grid.add_terminals(3, 1, 0); }), "weights past 64 bits");
    check(throws<std::out_of_range>([&] { grid.join(0, 4, 1, 1); }), "a pixel outside");
    check(throws<std::out_of_range>([&] { static_cast<void>(grid.at(2, 0)); }), "a place outside");
    check(throws<provedflow::Refused>([] { provedflow::Grid empty(0, 3); }), "a grid without pixels");
    check(throws<provedflow::Refused>([] { provedflow::Grid large(16384, 16384); }), "a grid with too many pixels");
}

} // namespace

[[gnu::noinline]] void *operator new(std::size_t size) {
    void *piece = until_refused > 0 && --until_refused == 0 ? nullptr : std::malloc(size);
    return piece ? piece : throw std::bad_alloc();
}
[[gnu::noinline]] void operator delete(void *piece) noexcept { std::free(piece); }
[[gnu::noinline]] void operator delete(void *piece, std::size_t) noexcept { std::free(piece); }

int main() {
    std::mt19937 chance(1970);
    for (int round = 0; round < 400; round++) {
        try_network(chance);
    }
    for (int round = 0; round < 40; round++) {
        try_grid(chance, 4, 3, 1);
        try_grid(chance, 2, 2, 3);
    }
    try_wide_grid();
    try_memory();
    try_elements();
    try_refusals();
    std::printf("lists: %d passed, %d failed\n", passed, failed);
    return failed != 0;
}

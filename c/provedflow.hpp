/* provedflow.hpp: maximum flows, minimum cuts and edge connectivity. For C++ from 2017 on, over provedflow.h.
 *
 * The exports of the library are proved. What this header puts around them is tested only. Answers own their memory. A
 * list that cannot be taken throws Refused, and refused memory std::bad_alloc; nothing was written then. What
 * provedflow.h says of networks, limits and what the caller must ensure holds here too.
 */
#ifndef PROVEDFLOW_HPP
#define PROVEDFLOW_HPP

#include <algorithm>
#include <cstddef>
#include <cstdint>
#include <iterator>
#include <limits>
#include <memory>
#include <new>
#include <numeric>
#include <stdexcept>
#include <string>
#include <type_traits>
#include <utility>
#include <vector>

#if defined(__GNUC__)
#pragma GCC diagnostic push
#pragma GCC diagnostic ignored "-Wold-style-cast"
#endif
#include "provedflow.h"
#if defined(__GNUC__)
#pragma GCC diagnostic pop
#endif

namespace provedflow {

/* Thrown where lists cannot be taken. */
class Refused : public std::invalid_argument {
public:
    explicit Refused(std::uint32_t status) : std::invalid_argument(provedflow_strerror(status)), status_(status) {}
    /* One of PROVEDFLOW_NODES to PROVEDFLOW_TERMINALS. */
    std::uint32_t status() const noexcept { return status_; }

private:
    std::uint32_t status_;
};

/* A number of 128 bits. */
struct Value {
    std::uint64_t high = 0;
    std::uint64_t low = 0;

    /* The number in 64 bits. Throws std::overflow_error where it has more. */
    std::uint64_t number() const {
        if (high != 0) {
            throw std::overflow_error("the value has more than 64 bits");
        }
        return low;
    }
    /* Adds a number. */
    Value &operator+=(std::uint64_t more) noexcept {
        low += more;
        high += low < more ? 1 : 0;
        return *this;
    }
    friend bool operator==(const Value &a, const Value &b) noexcept { return a.high == b.high && a.low == b.low; }
    friend bool operator!=(const Value &a, const Value &b) noexcept { return !(a == b); }
};

/* The terminals that a minimum cut lies nearest. */
enum class Nearest { sources, sinks };

/* A maximum flow: its value, and what each arc carries. */
struct Flow {
    Value value;
    std::vector<std::uint64_t> arcs;
};

/* A minimum cut: its capacity, and for each node 1 on the source side and 0 on the other. */
struct Cut {
    Value value;
    std::vector<std::uint8_t> side;
};

/* What check finds: one of PROVEDFLOW_GREATEST to PROVEDFLOW_UNBALANCED, and the two words that provedflow_check
 * explains. */
struct Verdict {
    std::uint32_t verdict = 0;
    Value told;
};

namespace detail {

/* Throws what a status means, unless it is PROVEDFLOW_OK. */
inline void expect_done(std::uint32_t status) {
    if (status == PROVEDFLOW_MEMORY) {
        throw std::bad_alloc();
    }
    if (status != PROVEDFLOW_OK) {
        throw Refused(status);
    }
}

/* Throws where there are too many nodes or arcs, before anything asks for their memory. */
inline void expect_limits(std::uint32_t nodes, std::size_t arcs) {
    if (nodes > PROVEDFLOW_MOST_NODES) {
        throw Refused(PROVEDFLOW_NODES);
    }
    if (arcs > PROVEDFLOW_MOST_ARCS) {
        throw Refused(PROVEDFLOW_LENGTHS);
    }
}

template <class Given, class = void> struct IsList : std::false_type {};
template <class Given>
struct IsList<Given, std::void_t<decltype(std::data(std::declval<Given>()) + std::size(std::declval<Given>()))>>
    : std::true_type {};

/* What is written into a list; never NULL. */
template <class T> T *room_of(std::vector<T> &list) { return static_cast<T *>(provedflow_some(list.data())); }

} // namespace detail

static_assert(sizeof(std::size_t) >= 8, "provedflow needs a size_t of 64 bits");

/* What calls read: anything with std::data and std::size whose elements have no sign and the size of T, as std::vector,
 * std::array, std::span and plain arrays, or one node in place of a list of nodes. It lends what it is made of. */
template <class T> class List {
public:
    template <class Given> List(const Given &given) {
        if constexpr (std::is_integral_v<Given> && sizeof(T) == sizeof(std::uint32_t)) {
            one_ = static_cast<T>(given);
            if (static_cast<Given>(one_) != given) {
                one_ = std::numeric_limits<T>::max(); // which is no node
            }
        } else if constexpr (detail::IsList<const Given &>::value) {
            using Element = std::remove_cv_t<std::remove_pointer_t<decltype(std::data(given))>>;
            static_assert(std::is_integral_v<Element> && std::is_unsigned_v<Element> && sizeof(Element) == sizeof(T),
                          "elements of another type: nodes have std::uint32_t, capacities and flows std::uint64_t");
            data_ = static_cast<const T *>(provedflow_some(std::data(given)));
            size_ = std::size(given);
        } else {
            static_assert(!sizeof(Given), "this is no list: std::data and std::size have to take it, as a std::vector");
        }
    }
    List(const List &) = delete;
    List &operator=(const List &) = delete;

    const T *data() const noexcept { return data_; }
    std::size_t size() const noexcept { return size_; }

private:
    T one_ = 0;
    const T *data_ = &one_;
    std::size_t size_ = 1;
};
using Nodes = List<std::uint32_t>;
using Units = List<std::uint64_t>;

/* Finds a maximum flow from the sources to the sinks. */
inline Flow maximum_flow(std::uint32_t nodes, const Nodes &src, const Nodes &dst, const Units &cap,
                         const Nodes &sources, const Nodes &sinks) {
    detail::expect_limits(nodes, src.size());
    Flow found{Value{}, std::vector<std::uint64_t>(src.size())};
    detail::expect_done(provedflow_flow_lists(
        nodes, src.data(), src.size(), dst.data(), dst.size(), cap.data(), cap.size(), sources.data(), sources.size(),
        sinks.data(), sinks.size(), detail::room_of(found.arcs), found.arcs.size(), &found.value.high,
        &found.value.low));
    return found;
}

/* Finds the minimum cut nearest the sources or the sinks. */
inline Cut minimum_cut(std::uint32_t nodes, const Nodes &src, const Nodes &dst, const Units &cap, const Nodes &sources,
                       const Nodes &sinks, Nearest nearest = Nearest::sources) {
    detail::expect_limits(nodes, src.size());
    const std::unique_ptr<std::uint64_t[]> flow(new std::uint64_t[src.size()]);
    Cut found{Value{}, std::vector<std::uint8_t>(nodes)};
    detail::expect_done(provedflow_cut_lists(
        nodes, src.data(), src.size(), dst.data(), dst.size(), cap.data(), cap.size(), sources.data(), sources.size(),
        sinks.data(), sinks.size(), nearest == Nearest::sinks ? 1 : 0, flow.get(), src.size(),
        detail::room_of(found.side), found.side.size(), &found.value.high, &found.value.low));
    return found;
}

/* Finds the edge connectivity: how many arcs must fail before some node is cut off from another. */
inline std::uint64_t edge_connectivity(std::uint32_t nodes, const Nodes &src, const Nodes &dst, bool undirected) {
    std::uint64_t links = 0;
    const std::uint32_t none = 0;
    detail::expect_done(provedflow_links_lists(nodes, src.data(), src.size(), dst.data(), dst.size(), &none, 0, &none,
                                               0, undirected ? 1 : 0, 0, &links));
    return links;
}

/* Finds how many arcs must fail before every sink is cut off from every source. */
inline std::uint64_t edge_connectivity(std::uint32_t nodes, const Nodes &src, const Nodes &dst, bool undirected,
                                       const Nodes &sources, const Nodes &sinks) {
    std::uint64_t links = 0;
    detail::expect_done(provedflow_links_lists(nodes, src.data(), src.size(), dst.data(), dst.size(), sources.data(),
                                               sources.size(), sinks.data(), sinks.size(), undirected ? 1 : 0, 1,
                                               &links));
    return links;
}

/* Checks whether a flow, wherever it comes from, has the greatest value. */
inline Verdict check(std::uint32_t nodes, const Nodes &src, const Nodes &dst, const Units &cap, const Nodes &sources,
                     const Nodes &sinks, const Units &flow) {
    Verdict found;
    detail::expect_done(provedflow_check_lists(
        nodes, src.data(), src.size(), dst.data(), dst.size(), cap.data(), cap.size(), sources.data(), sources.size(),
        sinks.data(), sinks.size(), flow.data(), flow.size(), &found.verdict, &found.told.high, &found.told.low));
    return found;
}

/* A grid of pixels in two or three dimensions, with edges between pixels and to the two terminals, as it is built for
 * segmentation. Pixel (x, y, z) is node x + width * (y + height * z). */
class Grid {
public:
    Grid(std::uint32_t width, std::uint32_t height, std::uint32_t depth = 1)
        : width_(width), height_(height), depth_(depth), pixels_(pixels_of(width, height, depth)) {
        const std::size_t room = std::size_t{pixels_} * (depth > 1 ? 7 : 5);
        src_.reserve(room), dst_.reserve(room), cap_.reserve(room);
        src_.assign(pixels_, pixels_), dst_.resize(pixels_), cap_.resize(pixels_);
        std::iota(dst_.begin(), dst_.end(), 0U);
    }

    Grid(const Grid &) = default;
    Grid(Grid &&) = default;
    Grid &operator=(const Grid &other) { return *this = Grid(other); }
    Grid &operator=(Grid &&) = default;

    std::uint32_t pixels() const noexcept { return pixels_; }

    /* The node of a pixel. Throws std::out_of_range. */
    std::uint32_t at(std::uint32_t x, std::uint32_t y, std::uint32_t z = 0) const {
        if (x >= width_ || y >= height_ || z >= depth_) {
            throw std::out_of_range("no such pixel");
        }
        return x + width_ * (y + height_ * z);
    }

    /* Joins two pixels by an edge of a weight there and one of a weight back. Throws std::out_of_range. */
    void join(std::uint32_t here, std::uint32_t there, std::uint64_t weight, std::uint64_t back) {
        if (here >= pixels() || there >= pixels()) {
            throw std::out_of_range("no such pixel");
        }
        make_room(src_), make_room(dst_), make_room(cap_); // of all three before anything is written
        add_arc(here, there, weight);
        add_arc(there, here, back);
    }

    /* Adds to what a pixel costs on the sink's side (to_source) and on the source's (to_sink). Throws std::out_of_range,
     * and std::overflow_error past 64 bits. */
    void add_terminals(std::uint32_t pixel, std::uint64_t to_source, std::uint64_t to_sink) {
        if (pixel >= pixels()) {
            throw std::out_of_range("no such pixel");
        }
        const bool is_to_sink = src_[pixel] == pixel;
        const std::uint64_t source = is_to_sink ? 0 : cap_[pixel], sink = is_to_sink ? cap_[pixel] : 0;
        const auto most = std::numeric_limits<std::uint64_t>::max();
        if (most - source < to_source || most - sink < to_sink) {
            throw std::overflow_error("a pixel's weights to a terminal add up to more than 64 bits");
        }
        const std::uint64_t both = std::min(source + to_source, sink + to_sink);
        merged_ += both;
        cap_[pixel] = std::max(source + to_source, sink + to_sink) - both;
        src_[pixel] = sink + to_sink > both ? pixel : pixels_;
        dst_[pixel] = sink + to_sink > both ? pixels_ + 1 : pixel;
    }

    /* Finds a minimum cut: its cost, and for each pixel 1 on the source's side and 0 on the sink's. */
    Cut cut(Nearest nearest = Nearest::sources) const {
        Cut found = minimum_cut(pixels_ + 2, src_, dst_, cap_, pixels_, pixels_ + 1, nearest);
        found.side.resize(pixels_);
        found.value += merged_.low;
        found.value.high += merged_.high;
        return found;
    }

private:
    static std::uint32_t pixels_of(std::uint32_t width, std::uint32_t height, std::uint32_t depth) {
        const std::uint64_t slice = std::uint64_t{width} * height;
        const std::uint64_t most = PROVEDFLOW_MOST_NODES - 2;
        if (slice == 0 || depth == 0 || slice > most / depth) {
            throw Refused(PROVEDFLOW_NODES);
        }
        return static_cast<std::uint32_t>(slice * depth);
    }

    /* Makes room for two more. */
    template <class T> static void make_room(std::vector<T> &list) {
        if (list.capacity() - list.size() < 2) {
            list.reserve(2 * list.size() + 2);
        }
    }

    void add_arc(std::uint32_t here, std::uint32_t there, std::uint64_t weight) {
        if (weight != 0) {
            src_.push_back(here), dst_.push_back(there), cap_.push_back(weight);
        }
    }

    std::uint32_t width_, height_, depth_, pixels_;
    Value merged_; // what every cut pays, whichever side a pixel is on
    /* The arcs. The first lead from the source to the pixels, or from them to the sink, one for each. */
    std::vector<std::uint32_t> src_, dst_;
    std::vector<std::uint64_t> cap_;
};

} // namespace provedflow

#endif

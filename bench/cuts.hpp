// The cuts and the flows of a network's demands, and their report: what cuts.cpp and compile.cpp share. Each demand's
// flow is found from nothing, by LEMON's Preflow or EdmondsKarp, or by Dinic's method over links of capacity 1; or Dinic's
// method begins with the flow that the sink has where no link fails.
#pragma once

#include "network.hpp"

#include <lemon/core.h>
#include <lemon/edmonds_karp.h>
#include <lemon/preflow.h>
#include <lemon/smart_graph.h>

using Graph = lemon::SmartDigraph;
using Capacities = Graph::ArcMap<int>;
using Preflow = lemon::Preflow<Graph, Capacities>;
using EdmondsKarp = lemon::EdmondsKarp<Graph, Capacities>;

// A link on a path of a demand, with what comes before it there: a link, or where it is the first, the number of the
// path.
struct Hop {
    int demand, path, link, before;
};

// Flows by LEMON: each link is an arc of capacity 1, or of 0 where it fails, and has the number of the network. The
// least side is what a search from the source reaches over links that could carry more, and backwards over those that
// carry something.
template <typename Flow>
class LemonFlows {
public:
    explicit LemonFlows(const Network &of) : network(of) {
        for (std::size_t node = 0; node < network.nodes.size(); node++) graph.addNode();
        for (const Link &link : network.links) graph.addArc(graph.nodeFromId(link.tail), graph.nodeFromId(link.head));
    }

    int find(int sink, const Pattern &pattern) {
        for (std::size_t link = 0; link < network.links.size(); link++) {
            capacities[graph.arcFromId(link)] = pattern.fails[link] ? 0 : 1;
        }
        Flow flow(graph, capacities, graph.nodeFromId(network.source), graph.nodeFromId(sink));
        flow.run();
        for (std::size_t link = 0; link < network.links.size(); link++) {
            carried[link] = flow.flow(graph.arcFromId(link)) > 0;
        }
        find_side();
        return flow.flowValue();
    }

    bool carries(int link) const { return carried[link]; }
    bool is_on_side(int node) const { return is_inside[node]; }

private:
    const Network &network;
    Graph graph;
    Capacities capacities{graph};
    std::vector<char> carried = std::vector<char>(network.links.size());
    // The nodes of the least side, in the order in which they are reached, and whether each is one.
    std::vector<int> side;
    std::vector<char> is_inside;

    void find_side() {
        side.clear();
        is_inside.assign(network.nodes.size(), false);
        reach(network.source);
        for (std::size_t place = 0; place < side.size(); place++) {
            Graph::Node node = graph.nodeFromId(side[place]);
            for (Graph::OutArcIt arc(graph, node); arc != lemon::INVALID; ++arc) {
                if (capacities[arc] > 0 && !carried[graph.id(arc)]) reach(graph.id(graph.target(arc)));
            }
            for (Graph::InArcIt arc(graph, node); arc != lemon::INVALID; ++arc) {
                if (carried[graph.id(arc)]) reach(graph.id(graph.source(arc)));
            }
        }
    }

    void reach(int node) {
        if (!is_inside[node]) side.push_back(node);
        is_inside[node] = true;
    }
};

// Flows by Dinic's method: a link is an arc that is open or not, and so is its way back. A search in breadth gives each
// node its distance from the source, until it gets to the sink; then paths are found depth first, from each node to one
// that is further by one, with a cursor for each node. The search that doesn't get there has reached the least side.
class DinicFlows {
public:
    explicit DinicFlows(const Network &of) : network(of), arcs_at(of.nodes.size()) {
        for (const Link &link : network.links) {
            add(link.tail, link.head);
            add(link.head, link.tail);
        }
    }

    int find(int sink, const Pattern &pattern) {
        for (std::size_t link = 0; link < network.links.size(); link++) {
            arcs[2 * link].is_open = !pattern.fails[link];
            arcs[2 * link + 1].is_open = false;
        }
        return complete(sink);
    }

    bool carries(int link) const { return arcs[2 * link + 1].is_open; }
    bool is_on_side(int node) const { return levels[node] >= 0; }

protected:
    struct Arc {
        int to;
        bool is_open;
    };

    const Network &network;
    // The arc of link `l` is number `2 * l`, and its way back the next.
    std::vector<Arc> arcs;
    std::vector<std::vector<int>> arcs_at;

    // Adds paths to the flow that the arcs have until there are no more, and gives how many.
    int complete(int sink) {
        int count = 0;
        while (find_levels(sink)) {
            cursors.assign(network.nodes.size(), 0);
            while (push(network.source, sink)) count++;
        }
        return count;
    }

private:
    std::vector<int> levels, queue;
    std::vector<std::size_t> cursors;

    void add(int from, int to) {
        arcs_at[from].push_back(arcs.size());
        arcs.push_back({to, false});
    }

    bool find_levels(int sink) {
        levels.assign(network.nodes.size(), -1);
        levels[network.source] = 0;
        queue.assign(1, network.source);
        for (std::size_t place = 0; place < queue.size(); place++) {
            int node = queue[place];
            for (int number : arcs_at[node]) {
                const Arc &arc = arcs[number];
                if (!arc.is_open || levels[arc.to] >= 0) continue;
                levels[arc.to] = levels[node] + 1;
                if (arc.to == sink) return true;
                queue.push_back(arc.to);
            }
        }
        return false;
    }

    bool push(int node, int sink) {
        if (node == sink) return true;
        for (std::size_t &cursor = cursors[node]; cursor < arcs_at[node].size(); cursor++) {
            int number = arcs_at[node][cursor];
            Arc &arc = arcs[number];
            if (arc.is_open && levels[arc.to] == levels[node] + 1 && push(arc.to, sink)) {
                arc.is_open = false;
                arcs[number ^ 1].is_open = true;
                return true;
            }
        }
        return false;
    }
};

// The same, but the flow of a pattern begins with that of `none` for the same sink, less the paths that the pattern breaks.
// The demands of a sink come one after the other.
class FlowsFromNone : public DinicFlows {
public:
    using DinicFlows::DinicFlows;

    int find(int sink, const Pattern &pattern) {
        if (sink != sink_of_none) {
            sink_of_none = sink;
            value_of_none = DinicFlows::find(sink, network.patterns[0]);
            arcs_of_none = arcs;
        }
        arcs = arcs_of_none;
        int broken = 0;
        for (std::size_t link = pattern.fails._Find_first(); link < MOST_LINKS; link = pattern.fails._Find_next(link)) {
            if (carries(link)) {
                break_path(link, sink);
                broken++;
            }
            arcs[2 * link].is_open = false;
        }
        return value_of_none - broken + complete(sink);
    }

private:
    // For one sink the arcs and the value of the flow of `none`.
    int sink_of_none = -1, value_of_none = 0;
    std::vector<Arc> arcs_of_none;

    // Takes away a path over a link that carries something.
    void break_path(int link, int sink) {
        take_away(link);
        for (int node = network.links[link].head; node != sink;) node = follow(node, 0);
        for (int node = network.links[link].tail; node != network.source;) node = follow(node, 1);
    }

    // Takes away a link that carries something out of a node, or into it where the way is 1, and gives its other end.
    int follow(int node, int way) {
        auto leads = [&](int number) { return number % 2 == way && carries(number / 2); };
        int arc = *std::find_if(arcs_at[node].begin(), arcs_at[node].end(), leads);
        take_away(arc / 2);
        return arcs[arc].to;
    }

    void take_away(int link) {
        arcs[2 * link].is_open = true;
        arcs[2 * link + 1].is_open = false;
    }
};

// The certificates of all demands.
template <typename Flows>
class Cutter {
public:
    Cutter(const Network &of, int paths)
        : network(of), kept_paths(paths), out(links_out(of)), flows(of), carries(of.links.size()) {}

    // The least value of all demands, and the links of so many paths of each at most, path by path, once there is a report.
    int rate = 0;
    std::vector<Hop> hops;

    std::string report() {
        rate = (int)network.links.size();
        for (int sink : network.sinks) {
            for (const Pattern &pattern : network.patterns) rate = std::min(rate, say_demand(sink, pattern));
        }
        said.insert(0, "rate " + std::to_string(rate) + "\n");
        return std::move(said);
    }

private:
    const Network &network;
    int kept_paths;
    std::vector<std::vector<int>> out;
    Flows flows;
    // Whether each link carries something for which there is no path yet.
    std::vector<char> carries;
    // How many demands were said before.
    int demand = 0;
    std::string said;

    // Says a demand, and gives its value.
    int say_demand(int sink, const Pattern &pattern) {
        int value = flows.find(sink, pattern);
        said.append("demand ").append(network.nodes[sink]).append(" ").append(pattern.name);
        said.append(" cut ").append(std::to_string(value)).append("\n");
        say_side();
        say_crossing(pattern);
        say_paths(sink);
        demand++;
        return value;
    }

    void say_side() {
        said.append("side");
        for (std::size_t node = 0; node < network.nodes.size(); node++) {
            if (flows.is_on_side(node)) said.append(" ").append(network.nodes[node]);
        }
        said.append("\n");
    }

    void say_crossing(const Pattern &pattern) {
        said.append("cross");
        for (std::size_t number = 0; number < network.links.size(); number++) {
            const Link &link = network.links[number];
            bool leaves = flows.is_on_side(link.tail) && !flows.is_on_side(link.head);
            if (leaves && !pattern.fails[number]) said.append(" ").append(link.name);
        }
        said.append("\n");
    }

    // A path begins with each link from the source that carries something.
    void say_paths(int sink) {
        for (std::size_t link = 0; link < carries.size(); link++) carries[link] = flows.carries(link);
        int path = 0;
        for (int link : out[network.source]) {
            if (carries[link]) say_path(path++, link, sink);
        }
    }

    // What a link carries to another node than the sink is carried on by a link from there.
    void say_path(int path, int link, int sink) {
        said.append("path");
        for (int before = path;;) {
            said.append(" ").append(network.links[link].name);
            if (path < kept_paths) hops.push_back({demand, path, link, before});
            carries[link] = false;
            int head = network.links[link].head;
            if (head == sink) break;
            before = link;
            link = *std::find_if(out[head].begin(), out[head].end(), [&](int next) { return carries[next]; });
        }
        said.append("\n");
    }
};

struct Report {
    int rate;
    std::vector<Hop> hops;
    std::string text;
};

template <typename Flows>
Report report_by(const Network &network, int kept_paths) {
    Cutter<Flows> cutter(network, kept_paths);
    std::string text = cutter.report();
    return {cutter.rate, std::move(cutter.hops), std::move(text)};
}

// The report of a network, by flows that are found as a word says, with the links of so many paths of each demand at most.
inline Report report_of(const std::string &method, const Network &network, int kept_paths) {
    if (method == "preflow") return report_by<LemonFlows<Preflow>>(network, kept_paths);
    if (method == "edmonds-karp") return report_by<LemonFlows<EdmondsKarp>>(network, kept_paths);
    if (method == "dinic") return report_by<DinicFlows>(network, kept_paths);
    if (method == "from-none") return report_by<FlowsFromNone>(network, kept_paths);
    fail("a method is preflow, edmonds-karp, dinic or from-none");
    return {};
}

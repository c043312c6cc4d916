// Networks of texts, as docs/FORMATS.md gives them, and the order of their links: what order.cpp, cuts.cpp and
// compile.cpp share.
#pragma once

#include <algorithm>
#include <array>
#include <bitset>
#include <cstdio>
#include <cstdlib>
#include <deque>
#include <functional>
#include <queue>
#include <string>
#include <string_view>
#include <unordered_map>
#include <utility>
#include <vector>

constexpr std::size_t PIECE = 65536;
constexpr std::size_t MOST_BYTES = 4194304, MOST_NODES = 4096, MOST_LINKS = 8192, MOST_PATTERNS = 4095;
constexpr std::size_t MOST_MEMBERS = 2097152, MOST_LETTERS = 32;
constexpr int MOST_RATE = 32;

// Why a text stands for no network that has an order, in the words of the format.
struct Refusal {
    std::string why;
};

struct Link {
    std::string_view name;
    int tail, head;
};

// Which links fail together.
struct Pattern {
    std::string_view name;
    std::bitset<MOST_LINKS> fails;
};

// All names are parts of the text, or are among those that bundles make. The first pattern is the one without links. The
// field and the rate are 0 where the text has none.
struct Network {
    std::vector<std::string_view> nodes;
    std::vector<Link> links;
    std::vector<Pattern> patterns{{"none", {}}};
    std::vector<int> sinks;
    int source = -1;
    int field = 0;
    int rate = 0;
    std::deque<std::string> made;
};

inline void require(bool holds, const char *why) {
    if (!holds) throw Refusal{why};
}

inline bool is_blank(char byte) {
    return byte == ' ' || byte == '\t';
}

inline bool is_text(char byte) {
    return byte == '\t' || (' ' <= byte && byte <= '~');
}

inline bool is_name(std::string_view word) {
    return word.size() <= MOST_LETTERS && std::all_of(word.begin(), word.end(), [](char byte) {
        return ('a' <= byte && byte <= 'z') || ('A' <= byte && byte <= 'Z') || ('0' <= byte && byte <= '9') ||
               byte == '_' || byte == '-' || byte == '.';
    });
}

// The number from 1 to the most that a word is in digits, with any zeros ahead, or else 0.
inline int number_to(int most, std::string_view word) {
    int value = 0;
    for (char digit : word) {
        if (digit < '0' || '9' < digit) return 0;
        value = std::min(10 * value + (digit - '0'), most + 1);
    }
    return value <= most ? value : 0;
}

// Takes a text line by line. Names have their numbers in hash tables, one for each kind.
class Reader {
public:
    Network network;

    void take_line(std::string_view line) {
        if (!line.empty() && line.back() == '\r') line.remove_suffix(1);
        line = line.substr(0, line.find('#'));
        require(std::all_of(line.begin(), line.end(), is_text), "BadByte");
        split(line);
        if (!words.empty()) take_words();
    }

    void finish() {
        require(network.source >= 0, "NoSource");
        require(!network.sinks.empty(), "NoSink");
        if (is_sink[network.source]) throw Refusal{"SinkIsSource " + std::string(network.nodes[network.source])};
        if (fails_each) add_single_failures();
    }

private:
    // The links that a name of a link or of a bundle stands for: the first one, and how many.
    struct Run {
        int first, count;
    };

    std::vector<std::string_view> words;
    std::unordered_map<std::string_view, int> node_numbers, pattern_numbers{{"none", 0}};
    std::unordered_map<std::string_view, Run> runs;
    std::array<bool, MOST_NODES> is_sink{};
    bool fails_each = false;
    // How many links all listed patterns have together.
    std::size_t members = 0;

    void split(std::string_view line) {
        words.clear();
        for (auto at = line.begin(); (at = std::find_if_not(at, line.end(), is_blank)) != line.end();) {
            auto end = std::find_if(at, line.end(), is_blank);
            words.push_back(line.substr(at - line.begin(), end - at));
            at = end;
        }
    }

    void take_words() {
        std::string_view kind = words[0];
        std::size_t count = words.size();
        if (kind == "field") return take_field();
        if (kind == "rate") return take_rate();
        if (kind == "fail-each") return take_fail_each();
        bool is_bundle = kind == "link" && count == 5 && bundle_size() > 0;
        require(kind == "link"      ? count == 4 || is_bundle
                : kind == "pattern" ? count > 2
                                    : is_end(kind) && count == 2,
                "BadLine");
        require(std::all_of(words.begin() + 1, words.end() - is_bundle, is_name), "BadName");
        if (kind == "link") take_link(is_bundle);
        if (kind == "pattern") take_pattern();
        if (kind == "source") take_source();
        if (kind == "sink") take_sink();
    }

    // How many links the bundle of a line has, by its last word, or 0.
    int bundle_size() const {
        return words[4][0] == 'x' ? number_to(MOST_LINKS, words[4].substr(1)) : 0;
    }

    static bool is_end(std::string_view kind) {
        return kind == "source" || kind == "sink";
    }

    // The number of a node, which may be a new one.
    int node(std::string_view name) {
        auto [place, is_new] = node_numbers.emplace(name, network.nodes.size());
        require(place->second < (int)MOST_NODES, "TooMany Nodes");
        if (is_new) network.nodes.push_back(name);
        return place->second;
    }

    void take_field() {
        require(words.size() == 2 && (words[1] == "8" || words[1] == "16"), "BadLine");
        require(network.field == 0, "SecondField");
        network.field = words[1] == "8" ? 8 : 16;
    }

    void take_rate() {
        int rate = words.size() == 2 ? number_to(MOST_RATE, words[1]) : 0;
        require(rate > 0, "BadLine");
        require(network.rate == 0, "SecondRate");
        network.rate = rate;
    }

    void take_fail_each() {
        require(words.size() == 1, "BadLine");
        require(!fails_each, "SecondFailEach");
        fails_each = true;
    }

    void take_source() {
        require(network.source < 0, "SecondSource");
        network.source = node(words[1]);
    }

    void take_sink() {
        int sink = node(words[1]);
        require(!is_sink[sink], "DuplicateSink");
        is_sink[sink] = true;
        network.sinks.push_back(sink);
    }

    void take_link(bool is_bundle) {
        std::vector<std::string_view> names{words[1]};
        if (is_bundle) names = make_names(words[1], bundle_size());
        int first = (int)network.links.size();
        if (is_bundle) take_name(words[1], {first, (int)names.size()});
        for (std::size_t place = 0; place < names.size(); place++) take_name(names[place], {first + (int)place, 1});
        require(words[2] != words[3], "SelfLoop");
        int tail = node(words[2]);
        int head = node(words[3]);
        require(first + names.size() <= MOST_LINKS, "TooMany Links");
        for (std::string_view name : names) network.links.push_back({name, tail, head});
    }

    // The names of a bundle's links, of which the last is the longest.
    std::vector<std::string_view> make_names(std::string_view name, int count) {
        std::string start = std::string(name) + ".";
        require(start.size() + std::to_string(count).size() <= MOST_LETTERS, "BadName");
        std::vector<std::string_view> names;
        for (int number = 1; number <= count; number++) {
            network.made.push_back(start + std::to_string(number));
            names.push_back(network.made.back());
        }
        return names;
    }

    void take_name(std::string_view name, Run run) {
        require(runs.emplace(name, run).second, "DuplicateLink");
    }

    void take_pattern() {
        bool is_new = pattern_numbers.emplace(words[1], network.patterns.size()).second;
        require(is_new, "DuplicatePattern");
        Pattern pattern{words[1], {}};
        bool is_repeated = false;
        for (std::size_t place = 2; place < words.size(); place++) {
            auto found = runs.find(words[place]);
            require(found != runs.end(), "UnknownLink");
            // Of what stands twice no more is kept.
            Run run = is_repeated ? Run{0, 0} : found->second;
            for (int link = run.first; link < run.first + run.count; link++) {
                is_repeated |= pattern.fails[link];
                pattern.fails[link] = true;
            }
        }
        require(!is_repeated, "RepeatedLink");
        require(network.patterns.size() <= MOST_PATTERNS, "TooMany Patterns");
        members += pattern.fails.count();
        require(members <= MOST_MEMBERS, "TooMany Members");
        network.patterns.push_back(pattern);
    }

    // For each link a pattern in which it fails alone, with its name.
    void add_single_failures() {
        for (const Link &link : network.links) {
            if (pattern_numbers.count(link.name)) throw Refusal{"PatternNamed " + std::string(link.name)};
        }
        std::size_t count = network.patterns.size() - 1 + network.links.size();
        if (count > MOST_PATTERNS) throw Refusal{"TooManyPatterns " + std::to_string(count)};
        for (std::size_t number = 0; number < network.links.size(); number++) {
            network.patterns.push_back({network.links[number].name, {}});
            network.patterns.back().fails[number] = true;
        }
    }
};

inline Network read_network(std::string_view text) {
    Reader reader;
    for (std::size_t start = 0, line = 1; start < text.size(); line++) {
        std::size_t end = std::min(text.find('\n', start), text.size());
        try {
            reader.take_line(text.substr(start, end - start));
        } catch (const Refusal &refusal) {
            throw Refusal{"line " + std::to_string(line) + ": " + refusal.why};
        }
        start = end + 1;
    }
    reader.finish();
    return std::move(reader.network);
}

inline std::vector<std::vector<int>> links_out(const Network &network) {
    std::vector<std::vector<int>> out(network.nodes.size());
    for (int link = 0; link < (int)network.links.size(); link++) out[network.links[link].tail].push_back(link);
    return out;
}

// All links, each after all links into its tail: of those that are ready always the least one.
inline std::vector<int> links_in_order(const Network &network) {
    std::vector<int> order, awaited(network.nodes.size());
    std::priority_queue<int, std::vector<int>, std::greater<int>> ready;
    auto out = links_out(network);
    for (const Link &link : network.links) awaited[link.head]++;
    for (std::size_t node = 0; node < out.size(); node++) {
        if (awaited[node] == 0) for (int link : out[node]) ready.push(link);
    }
    while (!ready.empty()) {
        order.push_back(ready.top());
        ready.pop();
        int head = network.links[order.back()].head;
        if (--awaited[head] == 0) for (int link : out[head]) ready.push(link);
    }
    require(order.size() == network.links.size(), "cycle");
    return order;
}

inline void fail(const char *why) {
    std::fprintf(stderr, "%s\n", why);
    std::exit(1);
}

inline std::string read_file(const char *path) {
    std::string text;
    std::FILE *file = std::fopen(path, "rb");
    if (!file) fail("the file can't be opened");
    std::size_t count = PIECE;
    for (std::size_t length = 0; count == PIECE && length <= MOST_BYTES; length += count) {
        text.resize(length + PIECE);
        count = std::fread(&text[length], 1, PIECE, file);
        text.resize(length + count);
    }
    if (std::ferror(file) || std::fclose(file) != 0) fail("the file can't be read");
    if (text.size() > MOST_BYTES) fail("the file is too long");
    return text;
}

// Says what a function makes of the network of a file, or why there is none, and gives the status to end with.
template <typename Make>
int say_of_file(const char *path, Make make) {
    std::string text = read_file(path), said;
    int status = 0;
    try {
        said = make(read_network(text));
    } catch (const Refusal &refusal) {
        said = "net refused: " + refusal.why + "\n";
        status = 3;
    }
    std::fwrite(said.data(), 1, said.size(), stdout);
    if (std::fflush(stdout) != 0) fail("standard output can't be written");
    return status;
}

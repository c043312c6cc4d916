// Reads a network text, and writes the code file and the report of docs/FORMATS.md, as `lif compile` does. The first
// word says how flows are found: preflow, edmonds-karp, dinic or from-none.
//
// The paths of all demands are flows, as cuts.hpp finds them. Each demand has for each of its paths the link that was visited last on
// it, and an inverse vector, whose product with that link's vector is one, and zero with those of the other paths. The
// links are visited in order. For each there is a table with a row for each path over it, and a column for each link
// before it on these paths: the products of those links' vectors with the paths' inverse vectors. The coefficients are
// such that their product with no row is zero, and so the link can take the place of the one before it on every path.
// In the end the inverse vectors of a demand are its decoder.
#include "cuts.hpp"

#include <cstdint>

// Powers of 2 in the field of 256 elements, and logarithms. The logarithm of zero is so great that the power at its sum
// with any other is zero.
struct OctetTables {
    static constexpr int POLYNOMIAL = 0x11D, ORDER = 255, LOG_OF_ZERO = 2 * ORDER;

    std::uint8_t powers[2 * LOG_OF_ZERO + 1]{};
    std::uint16_t logs[256]{};

    constexpr OctetTables() {
        int element = 1;
        for (int log = 0; log < ORDER; log++) {
            powers[log] = powers[log + ORDER] = (std::uint8_t)element;
            logs[element] = (std::uint16_t)log;
            element <<= 1;
            if (element > 255) element ^= POLYNOMIAL;
        }
        logs[0] = LOG_OF_ZERO;
    }
};

constexpr OctetTables OCTETS;

// The field of 256 elements.
struct Octet {
    using Element = std::uint8_t;
    static constexpr int MARK = 8;

    static Element product(Element left, Element right) {
        return OCTETS.powers[OCTETS.logs[left] + OCTETS.logs[right]];
    }

    static Element inverse(Element element) {
        return OCTETS.powers[OctetTables::ORDER - OCTETS.logs[element]];
    }
};

// The field of 65,536 elements, as pairs low + high*y with y*y = y + 0x20.
struct Pair {
    using Element = std::uint16_t;
    static constexpr int MARK = 16;
    static constexpr std::uint8_t SQUARE = 0x20;

    static Element product(Element left, Element right) {
        std::uint8_t left_low = low(left), left_high = high(left), right_low = low(right), right_high = high(right);
        std::uint8_t lows = Octet::product(left_low, right_low);
        std::uint8_t highs = Octet::product(left_high, right_high);
        std::uint8_t all = Octet::product(left_low ^ left_high, right_low ^ right_high);
        return pair(lows ^ Octet::product(SQUARE, highs), all ^ lows);
    }

    // The product of a pair and its conjugate, low + high*(y + 1), has no high part.
    static Element inverse(Element element) {
        std::uint8_t sum = low(element) ^ high(element);
        std::uint8_t square = Octet::product(high(element), high(element));
        std::uint8_t norm = Octet::product(low(element), sum) ^ Octet::product(SQUARE, square);
        std::uint8_t scale = Octet::inverse(norm);
        return pair(Octet::product(sum, scale), Octet::product(high(element), scale));
    }

private:
    static std::uint8_t low(Element element) {
        return element & 255;
    }

    static std::uint8_t high(Element element) {
        return element >> 8;
    }

    static Element pair(std::uint8_t low, std::uint8_t high) {
        return high << 8 | low;
    }
};

// The network with its links in order: the new link i is the old link order[i].
static Network renumbered(const Network &network, const std::vector<int> &order) {
    Network made = network;
    for (std::size_t link = 0; link < order.size(); link++) {
        made.links[link] = network.links[order[link]];
        for (std::size_t pattern = 0; pattern < network.patterns.size(); pattern++) {
            made.patterns[pattern].fails[link] = network.patterns[pattern].fails[order[link]];
        }
    }
    return made;
}

// For each new link the hops over it, in the order of their demands, with the new numbers of links. Of each demand
// there are as many paths as the rate.
static std::vector<std::vector<Hop>> hops_by_link(const Network &network, const std::vector<int> &order, int rate,
                                                  const std::vector<Hop> &hops) {
    std::vector<int> new_numbers(order.size());
    for (std::size_t link = 0; link < order.size(); link++) new_numbers[order[link]] = (int)link;
    std::vector<std::vector<Hop>> over(order.size());
    for (Hop hop : hops) {
        if (hop.path >= rate) continue;
        bool is_first = network.links[hop.link].tail == network.source;
        hop.link = new_numbers[hop.link];
        if (!is_first) hop.before = new_numbers[hop.before];
        over[hop.link].push_back(hop);
    }
    return over;
}

// Makes the code file of a network whose links are in order.
template <typename Field>
class Compiler {
public:
    Compiler(const Network &of, int of_rate, std::vector<std::vector<Hop>> over)
        : network(of), rate(of_rate), hops(std::move(over)), operands(of.links.size()) {
        vectors.assign(network.patterns.size(), std::vector<Element>(network.links.size() * rate));
        Basis units{std::vector<int>(rate), std::vector<Element>(rate * rate)};
        for (int row = 0; row < rate; row++) units.inverses[row * rate + row] = 1;
        bases.assign(network.sinks.size() * network.patterns.size(), units);
    }

    std::string code() {
        for (int link = 0; link < (int)network.links.size(); link++) visit(link);
        put_network();
        for (const auto &list : operands) put_operands(list);
        for (const Basis &basis : bases) put_decoder(basis);
        return std::move(file);
    }

private:
    using Element = typename Field::Element;

    // A row of the source or a link, with its coefficient.
    struct Operand {
        int from;
        Element times;
    };

    // For each path of a demand the link that was visited last on it, and its inverse vector.
    struct Basis {
        std::vector<int> frontier;
        std::vector<Element> inverses;
    };

    const Network &network;
    int rate;
    std::vector<std::vector<Hop>> hops;
    std::vector<std::vector<Operand>> operands;
    // For each pattern the vectors of all links, one behind the other. That of a link that fails stays zero.
    std::vector<std::vector<Element>> vectors;
    std::vector<Basis> bases;
    // For the link that is visited: what its hops come from, in rising order; for each hop the place of that; the
    // table, row by row; the coefficients, their products with the rows so far, and which multipliers are forbidden.
    std::vector<int> sources, places;
    std::vector<Element> table, coefficients, products;
    std::vector<char> is_forbidden;
    std::string file;

    bool leaves_source(int link) const {
        return network.links[link].tail == network.source;
    }

    Element *vector(int pattern, int link) {
        return &vectors[pattern][link * rate];
    }

    // The vector of a link under the pattern of a demand.
    const Element *vector_for(int demand, int link) {
        return vector(demand % (int)network.patterns.size(), link);
    }

    static Element dot(const Element *left, const Element *right, std::size_t length) {
        Element sum = 0;
        for (std::size_t place = 0; place < length; place++) sum ^= Field::product(left[place], right[place]);
        return sum;
    }

    static void add_scaled(Element *row, Element times, const Element *other, int length) {
        for (int place = 0; place < length; place++) row[place] ^= Field::product(times, other[place]);
    }

    void visit(int link) {
        find_sources(hops[link]);
        fill_table(hops[link], leaves_source(link));
        choose_coefficients();
        for (std::size_t place = 0; place < sources.size(); place++) {
            if (coefficients[place] != 0) operands[link].push_back({sources[place], coefficients[place]});
        }
        for (int pattern = 0; pattern < (int)network.patterns.size(); pattern++) {
            if (!network.patterns[pattern].fails[link]) carry(pattern, link);
        }
        for (const Hop &hop : hops[link]) renew(bases[hop.demand], hop.path, link, vector_for(hop.demand, link));
    }

    void find_sources(const std::vector<Hop> &over) {
        sources.clear();
        for (const Hop &hop : over) sources.push_back(hop.before);
        std::sort(sources.begin(), sources.end());
        sources.erase(std::unique(sources.begin(), sources.end()), sources.end());
        places.clear();
        for (const Hop &hop : over) {
            auto place = std::lower_bound(sources.begin(), sources.end(), hop.before);
            places.push_back((int)(place - sources.begin()));
        }
    }

    // The vector of a row of the source is a unit vector.
    void fill_table(const std::vector<Hop> &over, bool leaves) {
        table.clear();
        for (const Hop &hop : over) {
            const Element *inverse = &bases[hop.demand].inverses[hop.path * rate];
            for (int from : sources) {
                table.push_back(leaves ? inverse[from] : dot(vector_for(hop.demand, from), inverse, rate));
            }
        }
    }

    Element entry(int row, int place) const {
        return table[row * sources.size() + place];
    }

    // Finds coefficients whose product with no row of the table is zero.
    void choose_coefficients() {
        coefficients.assign(sources.size(), 0);
        products.clear();
        for (int row = 0; row < (int)places.size(); row++) {
            Element product = dot(coefficients.data(), &table[row * sources.size()], sources.size());
            if (product == 0) {
                change_coefficients(row, places[row]);
                product = entry(row, places[row]);
            }
            products.push_back(product);
        }
    }

    // Multiplies the coefficients, whose product with the row is zero, and adds one at a place where the row isn't
    // zero: by the first multiplier with which the product with no earlier row becomes zero.
    void change_coefficients(int row, int place) {
        is_forbidden.assign(row + 1, false);
        for (int earlier = 0; earlier < row; earlier++) {
            int forbidden = Field::product(entry(earlier, place), Field::inverse(products[earlier]));
            if (forbidden <= row) is_forbidden[forbidden] = true;
        }
        auto by = (Element)(std::find(is_forbidden.begin(), is_forbidden.end(), false) - is_forbidden.begin());
        for (Element &coefficient : coefficients) coefficient = Field::product(by, coefficient);
        coefficients[place] ^= 1;
        for (int earlier = 0; earlier < row; earlier++) {
            products[earlier] = Field::product(by, products[earlier]) ^ entry(earlier, place);
        }
    }

    // Makes the vector of a link what it carries by its operands.
    void carry(int pattern, int link) {
        Element *sum = vector(pattern, link);
        for (const Operand &operand : operands[link]) {
            if (leaves_source(link)) {
                sum[operand.from] = operand.times;
            } else {
                add_scaled(sum, operand.times, vector(pattern, operand.from), rate);
            }
        }
    }

    // Puts a link on the frontier of a path: the product of its vector with the path's inverse vector becomes one, and
    // zero with those of the other paths.
    void renew(Basis &basis, int path, int link, const Element *vector) {
        Element *own = &basis.inverses[path * rate];
        Element scale = Field::inverse(dot(vector, own, rate));
        for (int place = 0; place < rate; place++) own[place] = Field::product(scale, own[place]);
        for (int other = 0; other < rate; other++) {
            Element *inverse = &basis.inverses[other * rate];
            if (other == path) continue;
            Element product = dot(vector, inverse, rate);
            if (product != 0) add_scaled(inverse, product, own, rate);
        }
        basis.frontier[path] = link;
    }

    void put_byte(std::size_t number) {
        file.push_back((char)number);
    }

    void put_number(std::size_t number) {
        put_byte(number >> 8);
        put_byte(number);
    }

    void put_element(Element element) {
        if (Field::MARK == 16) put_byte(element >> 8);
        put_byte(element);
    }

    void put_name(std::string_view name) {
        put_byte(name.size());
        file.append(name);
    }

    void put_network() {
        file = "LIFC\1";
        put_byte(Field::MARK);
        put_byte(rate);
        put_number(network.nodes.size());
        for (std::string_view name : network.nodes) put_name(name);
        put_number(network.links.size());
        for (const Link &link : network.links) {
            put_name(link.name);
            put_number(link.tail);
            put_number(link.head);
        }
        put_number(network.source);
        put_number(network.sinks.size());
        for (int sink : network.sinks) put_number(sink);
        put_number(network.patterns.size() - 1);
        for (std::size_t number = 1; number < network.patterns.size(); number++) put_pattern(network.patterns[number]);
    }

    void put_pattern(const Pattern &pattern) {
        put_name(pattern.name);
        put_number(pattern.fails.count());
        for (std::size_t link = 0; link < network.links.size(); link++) {
            if (pattern.fails[link]) put_number(link);
        }
    }

    void put_operands(const std::vector<Operand> &list) {
        put_number(list.size());
        for (const Operand &operand : list) {
            put_number(operand.from);
            put_element(operand.times);
        }
    }

    // The links stand in rising order, and a column of the matrix is the inverse vector of its link's path.
    void put_decoder(const Basis &basis) {
        std::vector<std::pair<int, int>> sorted;
        for (int path = 0; path < rate; path++) sorted.emplace_back(basis.frontier[path], path);
        std::sort(sorted.begin(), sorted.end());
        for (auto [link, path] : sorted) put_number(link);
        for (int row = 0; row < rate; row++) {
            for (auto [link, path] : sorted) put_element(basis.inverses[path * rate + row]);
        }
    }
};

static void write_file(const char *path, const std::string &bytes) {
    std::FILE *file = std::fopen(path, "wb");
    if (!file) fail("a file can't be made");
    std::size_t count = std::fwrite(bytes.data(), 1, bytes.size(), file);
    if (std::fclose(file) != 0 || count != bytes.size()) fail("a file can't be written");
}

// Writes the code file and the report, and gives the line that is said of them.
static std::string compile(const char *method, const Network &network, const char *code_path, const char *report_path) {
    std::vector<int> order = links_in_order(network);
    std::size_t demands = network.sinks.size() * network.patterns.size();
    int field = network.field != 0 ? network.field : demands <= 256 ? 8 : 16;
    if (demands > (field == 8 ? 256 : 65536)) fail("there are too many demands for the field");
    Report report = report_of(method, network, network.rate != 0 ? network.rate : MOST_RATE);
    int rate = network.rate != 0 ? network.rate : report.rate;
    if (rate < 1 || rate > MOST_RATE) fail("the rate isn't 1 to 32");
    if (rate > report.rate) fail("the rate that is wanted is above that of the network");
    Network ordered = renumbered(network, order);
    auto hops = hops_by_link(network, order, rate, report.hops);
    write_file(code_path, field == 8 ? Compiler<Octet>(ordered, rate, std::move(hops)).code()
                                     : Compiler<Pair>(ordered, rate, std::move(hops)).code());
    write_file(report_path, report.text);
    return "compiled rate " + std::to_string(rate) + " field " + std::to_string(field) + " demands " +
           std::to_string(demands) + "\n";
}

int main(int count, char **words) {
    if (count != 5) fail("usage: compile METHOD NET CODE REPORT");
    return say_of_file(words[2], [&](const Network &network) { return compile(words[1], network, words[3], words[4]); });
}

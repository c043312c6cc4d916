// Reads a network text, and says the report of docs/FORMATS.md, as `lif cuts` does. The first word says how flows are
// found: preflow, edmonds-karp, dinic or from-none.
#include "cuts.hpp"

int main(int count, char **words) {
    if (count != 3) fail("usage: cuts METHOD NET");
    return say_of_file(words[2], [&](const Network &network) {
        links_in_order(network);
        return report_of(words[1], network, 0).text;
    });
}

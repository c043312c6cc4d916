// Reads a network text, and says the names of its links in order, one in a line: what `lif order` says.
#include "network.hpp"

static std::string names_in_order(const Network &network) {
    std::string said;
    for (int link : links_in_order(network)) said.append(network.links[link].name).append("\n");
    return said;
}

int main(int count, char **words) {
    if (count != 2) fail("usage: order NET");
    return say_of_file(words[1], names_in_order);
}

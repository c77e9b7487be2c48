// The header in C++: its functions are found under their C names, and its structs have their C layout.
#include <cstdio>

#include "jiehkavon.h"

static_assert(sizeof(jiehkavon_answer) == 16, "four words");
static_assert(sizeof(jiehkavon_built) == 12, "three words");
static_assert(sizeof(jiehkavon_stretch) == 8, "two words");
static_assert(sizeof(jiehkavon_batch) == 32, "a padded word and three sizes");
static_assert(sizeof(jiehkavon_package) == 48, "three words, of which one is padded, and four sizes");
static_assert(sizeof(jiehkavon_written) == 24, "a padded word and two sizes");

int main() {
    const uint32_t rules[] = {2, 1, 0, 10, 0}, tokens[] = {1, 10};
    uint32_t nodes[2], edges[JIEHKAVON_ROW_WIDTH], list[JIEHKAVON_LIST_A_TOKEN], work[JIEHKAVON_LIST_A_TOKEN];
    const jiehkavon_built built = jiehkavon_build(1, 2, rules, 5, nullptr, 0, nodes, 2, edges, JIEHKAVON_ROW_WIDTH, nullptr, 0);
    const jiehkavon_answer parsed = jiehkavon_parse(1, 2, rules, 5, nodes, 2, edges, JIEHKAVON_ROW_WIDTH, tokens, 2,
                                                    jiehkavon_enough_passes(2), nullptr, 0, list,
                                                    jiehkavon_enough_list(2), work, jiehkavon_enough_list(2));
    const jiehkavon_answer verified = jiehkavon_verify(1, 2, rules, 5, tokens, 2, list, parsed.length, work, 1);
    const jiehkavon_stretch body = jiehkavon_body(1, 2, rules, 5, 1);
    const uint32_t statements[] = {2, 1, 10};
    uint32_t answers[JIEHKAVON_ANSWER_WIDTH], index[4];
    const jiehkavon_batch batch = jiehkavon_parse_many(1, 2, rules, 5, nodes, 2, edges, JIEHKAVON_ROW_WIDTH, statements, 3,
                                                       jiehkavon_enough_passes(2), nullptr, 0, list, jiehkavon_enough_list(2), work,
                                                       jiehkavon_enough_list(2), answers, JIEHKAVON_ANSWER_WIDTH, index,
                                                       jiehkavon_enough_index(1, built.nodes));
    const bool good = built.number == JIEHKAVON_OK && built.nodes == 2 && built.edges == 1 && parsed.number == JIEHKAVON_OK
        && parsed.length == 1 && list[0] == 1 && verified.number == JIEHKAVON_OK && body.start == 2 && body.length == 3
        && batch.number == JIEHKAVON_OK && batch.place == 0 && batch.statements == 1 && batch.words == 1 && answers[2] == 1;
    std::puts(good ? "1 passed, 0 failed" : "0 passed, 1 failed");
    return good ? 0 : 1;
}

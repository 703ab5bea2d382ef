/* A small rig: founds a network, lets seven nodes join it at the same time, is switched off and on with those joins under way, delivers until all are in
 * system, withdraws the join of one more that began by the wrong gateway and begins it again, says what each join cost, looks nodes up, asks for the verdict
 * and the hop survey, does both once more around a node that has failed, has the trace of a router of its own checked, saves the network as an image and reads
 * it into other memory, after a look whether that holds a network already; there a node forgets another, and the tables are filled. README.md has the line
 * that builds it; examples/rig.out is what it prints. */
#include <stdio.h>
#include <stdlib.h>
#include <string.h>

#include "overlay.h"

/* The lent memory of a network. */
struct network {
    uint64_t state[OVERLAY_STATE_WORDS];
    uint8_t tables[OVERLAY_TABLE_BYTES];
};

/* The memory arguments that every call begins with. */
#define LENT(n) (n)->state, OVERLAY_STATE_WORDS, (n)->tables, OVERLAY_TABLE_BYTES

static struct network first, second;
static uint8_t image[OVERLAY_MOST_WRITTEN_BYTES], again[OVERLAY_MOST_WRITTEN_BYTES];

static const char *const refusals[] = {
    [0] = "taken",
    [OVERLAY_SHORT_MEMORY] = "state or tables are too short",
    [OVERLAY_UNSOUND] = "the state is not sound",
    [OVERLAY_NOT_AN_IMAGE] = "not an image",
    [OVERLAY_IMAGE_VERSION] = "another version of images",
    [OVERLAY_BAD_SETTING] = "a setting is out of range",
    [OVERLAY_IMAGE_COUNTS] = "the image's counts and length do not fit",
    [OVERLAY_BAD_ID] = "a bad id",
    [OVERLAY_ID_TAKEN] = "the id is taken",
    [OVERLAY_NO_SUCH_NODE] = "no such node",
    [OVERLAY_RECORD_ORDER] = "a record is out of range or order",
    [OVERLAY_FULL] = "the network is full",
    [OVERLAY_GATEWAY_NOT_IN_SYSTEM] = "the gateway is not in system",
    [OVERLAY_NOT_OUTSTANDING] = "nothing is outstanding",
    [OVERLAY_HELD] = "the request is held",
    [OVERLAY_JOIN_IN_FLIGHT] = "a join is in flight",
    [OVERLAY_SHORT_OUTPUT] = "the output is too short",
    [OVERLAY_RECORD_NEIGHBOR] = "a record's neighbour may not stand there",
    [OVERLAY_OWN_ENTRY] = "an own entry is absent or another's",
    [OVERLAY_NOT_HIGHEST] = "the node is not the highest-numbered",
    [OVERLAY_HAS_ATTACHED] = "the node has attached",
    [OVERLAY_HAS_FAILED] = "the start or the destination has failed",
    [OVERLAY_TRACE_COUNTS] = "the trace's counts and length do not fit",
    [OVERLAY_STEP_NOT_ALLOWED] = "a step that the tables do not allow",
    [OVERLAY_UNSOUND_IMAGE] = "the image's joins, counts or state are not sound",
};

/* The refusal of an answer in words; a later version may have more. */
static const char *refusal(uint64_t answer)
{
    unsigned number = overlay_refusal(answer);
    return number < sizeof refusals / sizeof refusals[0] ? refusals[number] : "refused";
}

static const char *const kinds[] = {
    [OVERLAY_COPIED] = "copied",
    [OVERLAY_SENT_ON] = "was sent on",
    [OVERLAY_ATTACHED] = "attached",
    [OVERLAY_NOTIFIED] = "notified",
};

/* The answer of a call that must not be refused here. */
static uint64_t taken(const char *call, uint64_t answer)
{
    if (overlay_refusal(answer) != 0) {
        fprintf(stderr, "%s: %s\n", call, refusal(answer));
        exit(1);
    }
    return answer;
}

static void print_refusal(const char *what, uint64_t answer)
{
    printf("%s: %s\n", what, refusal(answer));
}

static void print_delivery(unsigned sender, unsigned receiver, uint64_t answer)
{
    printf("node %u %s at node %u", sender, kinds[overlay_kind(answer)], receiver);
    if (overlay_kind(answer) == OVERLAY_ATTACHED)
        printf(", level %u", overlay_attach_level(answer));
    printf("%s\n", overlay_settled(answer) ? ", and is in system" : "");
}

/* Delivers what is outstanding, sender by sender, until a pass finds nothing. Answers how many deliveries there were. */
static unsigned settle(struct network *network, unsigned nodes)
{
    unsigned all = 0, delivered;
    do {
        delivered = 0;
        for (unsigned sender = 1; sender <= nodes; sender++)
            for (unsigned receiver = 1; receiver <= nodes; receiver++) {
                uint64_t answer = overlay_deliver(LENT(network), sender, receiver);
                if (overlay_refusal(answer) == 0) {
                    print_delivery(sender, receiver, answer);
                    delivered++;
                }
            }
        all += delivered;
    } while (delivered > 0);
    return all;
}

/* A lookup around the failed nodes. */
static void print_lookup(const struct network *network, unsigned from, unsigned to, uint64_t failed)
{
    uint64_t answer = taken("lookup", overlay_lookup(LENT(network), from, to, failed));
    printf("lookup from %u to %u: %s at node %u, hops %u\n", from, to,
           overlay_arrived(answer) ? "arrived" : "lost", overlay_last_node(answer), overlay_hops(answer));
}

static void print_verdict(const struct network *network)
{
    uint64_t answer = taken("verdict", overlay_verdict(LENT(network)));
    if (overlay_consistent(answer))
        printf("verdict: consistent\n");
    else
        printf("verdict: node %u falls short at level %u, digit %u\n", overlay_short_node(answer), overlay_short_level(answer),
               overlay_short_digit(answer));
}

/* How many ordered pairs of different nodes that have not failed arrive in so many hops, up to the digits of an id. */
static void print_survey(const struct network *network, unsigned digits, uint64_t failed)
{
    uint64_t counts[OVERLAY_SURVEY_COUNTS];
    taken("survey", overlay_survey(LENT(network), failed, counts));
    for (unsigned hops = 1; hops <= digits; hops++)
        printf("pairs with %u %s: %u\n", hops, hops == 1 ? "hop" : "hops", (unsigned)counts[hops - 1]);
    printf("lost pairs: %u\n", (unsigned)counts[OVERLAY_SURVEY_COUNTS - 1]);
}

/* What a node's failure does to the lookups of another. */
static void fail(const struct network *network, unsigned failed, unsigned from, unsigned nodes)
{
    uint64_t set = overlay_only(failed);
    printf("node %u fails\n", failed);
    for (unsigned to = 1; to <= nodes; to++)
        if (to != failed)
            print_lookup(network, from, to, set);
    print_refusal("a lookup to it", overlay_lookup(LENT(network), from, failed, set));
    print_survey(network, 4, set);
}

/* What the join of each node cost. */
static void print_costs(const struct network *network, unsigned nodes)
{
    for (unsigned node = 1; node <= nodes; node++)
        printf("node %u: requests %u, notices %u\n", node, (unsigned)overlay_requests(network->state, node),
               (unsigned)overlay_notices(network->state, node));
}

/* Begins the join of a node with this id by the gateway. Answers its number. */
static unsigned begin_join(struct network *network, uint32_t id, unsigned gateway)
{
    unsigned node = overlay_new_node(taken("begin", overlay_begin(LENT(network), id, gateway)));
    printf("node %u begins to join with id %04x by node %u\n", node, (unsigned)id, gateway);
    return node;
}

/* Founds with one node and begins the joins of the others, all by node 1. */
static void begin_joins(struct network *network, const uint32_t *ids, unsigned nodes)
{
    taken("found", overlay_found(LENT(network), 4, 4, 2, ids[0]));
    printf("node 1 founds with id %04x\n", (unsigned)ids[0]);
    for (unsigned i = 1; i < nodes; i++)
        begin_join(network, ids[i], 1);
    print_refusal("its id once more", overlay_begin(LENT(network), ids[nodes - 1], 1));
    print_refusal("a verdict now", overlay_verdict(LENT(network)));
}

/* Begins a join by the wrong gateway, withdraws it after its first delivery, and joins the node by the right one, under the same number. */
static void join_again(struct network *network, uint32_t id, unsigned wrong, unsigned right)
{
    unsigned node = begin_join(network, id, wrong);
    print_delivery(node, wrong, taken("deliver", overlay_deliver(LENT(network), node, wrong)));
    taken("withdraw", overlay_withdraw(LENT(network), node));
    printf("node %u is withdrawn\n", node);
    begin_join(network, id, right);
    printf("%u deliveries\n", settle(network, node));
    print_refusal("its withdrawal now", overlay_withdraw(LENT(network), node));
    print_refusal("that of node 1", overlay_withdraw(LENT(network), 1));
}

/* ---- a router of one's own, on the tables as docs/MEMORY.md lays them out, and its trace, as docs/TRACES.md has it */

/* Digit i of a node's id. */
static unsigned digit(const struct network *network, unsigned node, unsigned i)
{
    return (unsigned)(network->state[8 * node] >> 4 * i & 15);
}

/* Where this router goes next from one node to another: to the last node of the entry of which a lookup takes the first. 0 if the entry is empty. */
static unsigned next_node(const struct network *network, unsigned from, unsigned to)
{
    unsigned level = 0, next = 0;
    while (digit(network, from, level) == digit(network, to, level))
        level++;
    const uint8_t *entry = network->tables + 512 * (from - 1) + 64 * level + 4 * digit(network, to, level);
    for (unsigned slot = 0; slot < network->state[2] && entry[slot] != 0; slot++)
        next = entry[slot];
    return next;
}

/* Adds this router's path from one node to another to a trace of so many bytes; one that is lost ends where it was lost. Answers the new length. */
static size_t add_path(const struct network *network, unsigned from, unsigned to, uint8_t *trace, size_t length)
{
    uint8_t *count = &trace[length++];
    *count = 0;
    for (unsigned node = from; node != 0; node = node == to ? 0 : next_node(network, node, to)) {
        trace[length++] = (uint8_t)node;
        ++*count;
    }
    ++trace[0];
    return length;
}

static void print_trace(const struct network *network, const char *what, const uint8_t *trace, size_t length)
{
    uint64_t answer = overlay_trace(LENT(network), trace, length);
    printf("%s: %s", what, overlay_refusal(answer) == 0 ? "accepted" : refusal(answer));
    if (overlay_trace_path(answer) != 0)
        printf(", at path %u, %s %u", overlay_trace_path(answer), overlay_refusal(answer) == OVERLAY_STEP_NOT_ALLOWED ? "step" : "place",
               overlay_trace_place(answer));
    printf("\n");
}

/* The paths between all nodes, and then one more that goes on past its destination. */
static void trace_router(const struct network *network, unsigned nodes)
{
    static uint8_t trace[OVERLAY_MOST_TRACE_BYTES];
    size_t length = 1;
    for (unsigned from = 1; from <= nodes; from++)
        for (unsigned to = 1; to <= nodes; to++)
            length = add_path(network, from, to, trace, length);
    printf("a trace of %u paths, %u bytes\n", trace[0], (unsigned)length);
    print_trace(network, "checked", trace, length);
    print_trace(network, "without its last byte", trace, length - 1);
    memcpy(trace + length, "\3\1\2\2", 4);
    trace[0]++;
    print_trace(network, "with a path past its destination", trace, length + 4);
}

/* Saves the network with its joins under way, clears its memory, as if the rig were switched off, and restores it. */
static void switch_off_and_on(struct network *network)
{
    static struct network before;
    before = *network;
    print_refusal("saved as version 1", overlay_write(LENT(network), 1, image, sizeof image));
    uint32_t length = overlay_image_length(taken("write", overlay_write(LENT(network), 2, image, sizeof image)));
    printf("saved as version 2: an image of %u bytes\n", (unsigned)length);
    memset(network, 0, sizeof *network);
    taken("read", overlay_read(LENT(network), image, length));
    printf("switched off and on: %s\n", memcmp(network, &before, sizeof before) == 0 ? "the same state" : "another state");
}

/* A node forgets the last node of its first entry that has two, as a damaged table does; then the tables are filled. */
static void forget_and_fill(struct network *network, unsigned node)
{
    static uint8_t list[OVERLAY_MOST_ADDED_BYTES];
    uint8_t *table = network->tables + 512 * (node - 1);
    unsigned place = 1;
    while (table[place] == 0)
        place += 4;
    printf("node %u forgets node %u\n", node, table[place]);
    table[place] = 0;
    print_verdict(network);
    print_refusal("filled with no memory for the list", overlay_fill(LENT(network), NULL, 0));
    uint32_t additions = overlay_additions(taken("fill", overlay_fill(LENT(network), list, sizeof list)));
    for (uint32_t i = 0; i < additions; i++)
        printf("filled: node %u, level %u, digit %u gains node %u\n", list[4 * i], list[4 * i + 1], list[4 * i + 2], list[4 * i + 3]);
    print_verdict(network);
}

/* Exchanges a record of an image with the next. */
static void exchange(uint8_t *record)
{
    uint8_t kept[4];
    memcpy(kept, record, 4);
    memcpy(record, record + 4, 4);
    memcpy(record + 4, kept, 4);
}

/* Reads the image with its first two records exchanged, and puts them back. */
static void read_disordered(struct network *to, unsigned nodes, uint32_t length)
{
    uint8_t *record = image + 8 + 4 * nodes;
    exchange(record);
    uint64_t answer = overlay_read(LENT(to), image, length);
    printf("read with two records exchanged: %s, at record %u\n", refusal(answer), (unsigned)overlay_record(answer));
    exchange(record);
}

/* Saves the one network, of so many nodes, and reads it into the memory of the other. */
static void save_and_read(const struct network *from, struct network *to, unsigned nodes)
{
    uint32_t length = overlay_image_length(taken("write", overlay_write(LENT(from), 1, image, sizeof image)));
    printf("saved: an image of %u bytes\n", (unsigned)length);
    print_refusal("in one byte less", overlay_write(LENT(from), 1, image, length - 1));
    print_refusal("the other memory", overlay_sound(LENT(to)));
    print_refusal("read without its last byte", overlay_read(LENT(to), image, length - 1));
    read_disordered(to, nodes, length);
    taken("read", overlay_read(LENT(to), image, length));
    taken("write", overlay_write(LENT(to), 1, again, sizeof again));
    printf("read, and saved again: %s\n", memcmp(image, again, length) == 0 ? "the same bytes" : "other bytes");
    printf("node %u after reading: requests %u\n", nodes, (unsigned)overlay_requests(to->state, nodes));
}

int main(void)
{
    static const uint32_t ids[] = {0x0123, 0x0321, 0x1321, 0x3210, 0x0021, 0x2311, 0x3333, 0x2321, 0x2323};
    const unsigned nodes = sizeof ids / sizeof ids[0];

    begin_joins(&first, ids, nodes - 1);
    switch_off_and_on(&first);
    printf("%u deliveries\n", settle(&first, nodes - 1));
    join_again(&first, ids[nodes - 1], 4, 1);
    print_costs(&first, nodes);
    print_verdict(&first);
    for (unsigned to = 1; to <= nodes; to++)
        print_lookup(&first, nodes, to, 0);
    print_survey(&first, 4, 0);
    fail(&first, 2, nodes, nodes);
    trace_router(&first, nodes);
    save_and_read(&first, &second, nodes);
    print_verdict(&second);
    forget_and_fill(&second, 3);
    return 0;
}

/* The overlay engine on memory that the caller lends. docs/MEMORY.md has the layout.
 *
 * state:  64-bit words, at least OVERLAY_STATE_WORDS.
 * tables: bytes, at least OVERLAY_TABLE_BYTES.
 * Lengths count elements. What is past the fixed lengths is neither read nor changed.
 *
 * What a caller must keep; of a call where one of these fails nothing is promised:
 * - A pointer is valid for its length: so many elements may be read, and written unless they are const here. Where the length is 0 the
 *   pointer is not used, and may be NULL. counts comes without a length: it is valid for OVERLAY_SURVEY_COUNTS words, and never NULL. So does the state
 *   of overlay_requests and overlay_notices: it is valid for OVERLAY_STATE_WORDS words, and never NULL.
 * - state and counts are aligned to 8.
 * - No two lent memories overlap: not state and tables, and neither of them an image, the memory for one, a list of additions, a trace, or counts.
 * - Nobody else writes lent memory during a call, nor reads what the call may write.
 * - The stack has room: overlay_read takes some 38 KB of it.
 *
 * An answer is one number: bits 0 to 7 are the refusal, 0 for none. On a refusal no byte has changed, and every field that this header reads
 * off the answer is zero, but for the place of a record that reading's refusals 10, 17 and 18 carry, and the path and place that 9 and 23 of a trace
 * carry. Where several refusals hold, the answer is the first that holds, in the order of docs/REFUSALS.md. A later version may add refusals, give a new
 * number where an old one stood, or let one carry fields: take the refusal by overlay_refusal, and what is not 0 as refused.
 * Nothing is kept between calls but in lent memory, so calls on different memories may run at the same time. Memory that one version filled
 * is for that version; between versions a network goes as an image.
 *
 * C99 or later, or C++. The archive is for Linux on x86-64; it calls memcpy and memset, and nothing else from outside. */
#ifndef OVERLAY_H
#define OVERLAY_H

#include <stddef.h>
#include <stdint.h>

#ifdef __cplusplus
extern "C" {
#endif

/* ---- version: of this header and of the archive that comes with it; CHANGES.md has a section for each */

#define OVERLAY_VERSION_MAJOR 1
#define OVERLAY_VERSION_MINOR 13

/* ---- lengths */

#define OVERLAY_STATE_WORDS 520
#define OVERLAY_TABLE_BYTES 32768
#define OVERLAY_MOST_NODES 64
/* Reading takes no image that is longer. */
#define OVERLAY_MOST_IMAGE_BYTES 65535
/* The counts of a survey: for 1 to 8 hops, and lost. */
#define OVERLAY_SURVEY_COUNTS 9
/* No written image is longer, of either version: memory of this length is enough for every network. One of version 1 has at most 23816 bytes. */
#define OVERLAY_MOST_WRITTEN_BYTES 25226
/* No list of additions is longer, of any network: memory of this length is enough for every filling. */
#define OVERLAY_MOST_ADDED_BYTES 21504
/* The paths of a trace, and the nodes of a path. */
#define OVERLAY_MOST_PATHS 255
#define OVERLAY_MOST_PLACES 9
/* No trace that is accepted is longer. */
#define OVERLAY_MOST_TRACE_BYTES 2551

/* ---- refusals */

#define OVERLAY_SHORT_MEMORY 1           /* state or tables are shorter than their fixed length */
#define OVERLAY_UNSOUND 2                /* the state isn't sound */
#define OVERLAY_NOT_AN_IMAGE 3           /* fewer than 5 bytes, or the first byte isn't 4 */
#define OVERLAY_IMAGE_VERSION 4          /* the image's version, or the one to be written, is neither 1 nor 2 */
#define OVERLAY_BAD_SETTING 5            /* base 2 to 16, digits 1 to 8, depth 1 to 4 */
#define OVERLAY_IMAGE_COUNTS 6           /* no node count, or not 1 to 64; a length other than the counts say, or above 65,535 */
#define OVERLAY_BAD_ID 7                 /* a digit not below the base, or a bit above the digits */
#define OVERLAY_ID_TAKEN 8               /* the id is a node's already, or stands twice in the image */
#define OVERLAY_NO_SUCH_NODE 9           /* no node has a number that the call (not in failed), a record or a trace gives */
#define OVERLAY_RECORD_ORDER 10          /* a record's level or digit is out of range, or it is below the one before it */
#define OVERLAY_FULL 11                  /* there are 64 nodes */
#define OVERLAY_GATEWAY_NOT_IN_SYSTEM 12 /* the gateway isn't in system */
#define OVERLAY_NOT_OUTSTANDING 13       /* no request from the sender to the receiver is outstanding */
#define OVERLAY_HELD 14                  /* a waiting sender's receiver isn't in system: the request stays outstanding */
#define OVERLAY_JOIN_IN_FLIGHT 15        /* a node isn't in system (of a verdict, of filling, and of writing version 1) */
#define OVERLAY_SHORT_OUTPUT 16          /* the memory for the image, or for the list of additions, is too short */
#define OVERLAY_RECORD_NEIGHBOR 17       /* a record's neighbour isn't qualified for its entry, is in it already, or finds it full */
#define OVERLAY_OWN_ENTRY 18             /* an own entry has no record, or doesn't start with its owner */
#define OVERLAY_NOT_HIGHEST 19           /* the node isn't the highest-numbered one */
#define OVERLAY_HAS_ATTACHED 20          /* the node is in system or notifying */
#define OVERLAY_HAS_FAILED 21            /* the start or the destination of a lookup has failed */
#define OVERLAY_TRACE_COUNTS 22          /* an empty trace; a path's count that isn't 1 to 9; a length other than the counts say */
#define OVERLAY_STEP_NOT_ALLOWED 23      /* a path goes on past its destination, or to no node of the entry that the lookup rule names */
#define OVERLAY_UNSOUND_IMAGE 24         /* version 2: a join or the counts are listed wrong, or the state that the image gives isn't sound */

/* ---- calls */

/* Makes node 1 of a new network, whatever the memory held. Refusals 1, 5, 7. */
uint64_t overlay_found(uint64_t *state, size_t state_len, uint8_t *tables, size_t tables_len,
                       uint64_t base, uint64_t digits, uint64_t depth, uint32_t id);

/* Makes the network of an image of either version, whatever the memory held. Of version 1 every node is in system and its counts are zero; version 2 restores
 * the whole state, joins under way and counts too, and every later answer is as if the run had not been stopped. The whole image is judged first.
 * Refusals 1, 3 to 10, 17, 18, 24, in this order. 10, 17 and 18 come with the place of the record, by overlay_record. */
uint64_t overlay_read(uint64_t *state, size_t state_len, uint8_t *tables, size_t tables_len,
                      const uint8_t *image, size_t image_len);

/* Adds a node that is to join by the gateway: it gets the next number and its first request goes to the gateway. Answers the new node,
 * by overlay_new_node. Where the network passes the verdict and one node joins by itself, it settles after at most as many deliveries as an id has digits and
 * there were nodes before it, together, and the verdict passes again. Nodes that join at the same time settle too, if their requests are delivered, but the
 * verdict may be no then: overlay_verdict says, and overlay_fill makes it a yes once all have settled. Refusals 1, 2, 7, 8, 9, 11, 12. */
uint64_t overlay_begin(uint64_t *state, size_t state_len, uint8_t *tables, size_t tables_len,
                       uint32_t id, uint64_t gateway);

/* Withdraws the join of the highest-numbered node while it copies or waits: it is no node any more, its record and its table are zero, and
 * no other record or table changes. The next node to begin gets its number. Answers the refusal alone. Refusals 1, 2, 9, 19, 20. */
uint64_t overlay_withdraw(uint64_t *state, size_t state_len, uint8_t *tables, size_t tables_len, uint64_t node);

/* Delivers the sender's outstanding request to the receiver, with the receiver's answer. Answers its kind, by overlay_kind,
 * overlay_attach_level and overlay_settled. Refusals 1, 2, 9, 13, 14. */
uint64_t overlay_deliver(uint64_t *state, size_t state_len, uint8_t *tables, size_t tables_len,
                         uint64_t sender, uint64_t receiver);

/* Follows a lookup from one node to another around the failed ones, and changes nothing. failed is a set of nodes: bit u - 1 for node u (overlay_only),
 * 0 for none; a bit of a number that no node has means nothing. At each node the next hop is the frontmost of the entry that has not failed; where none is
 * left the lookup is lost. Answers how it ended, by overlay_arrived, overlay_hops and overlay_last_node. Refusals 1, 2, 9, 21. */
uint64_t overlay_lookup(const uint64_t *state, size_t state_len, const uint8_t *tables, size_t tables_len,
                        uint64_t from, uint64_t to, uint64_t failed);

/* Follows the lookup of every ordered pair of different nodes that have not failed, and changes nothing but counts: counts[h - 1] is how many pairs
 * arrive in h hops, h from 1 to 8, and counts[8] how many are lost. failed is as of overlay_lookup. All nine add up to a (a - 1) for the a nodes that have
 * not failed; those for more hops than an id has digits are 0. Answers the refusal alone; on a refusal counts are as they were. Refusals 1, 2. */
uint64_t overlay_survey(const uint64_t *state, size_t state_len, const uint8_t *tables, size_t tables_len,
                        uint64_t failed, uint64_t counts[OVERLAY_SURVEY_COUNTS]);

/* Judges the tables, and changes nothing. Answers whether the network is K-consistent, by overlay_consistent; if not, the first entry that
 * falls short, by overlay_short_node, overlay_short_level and overlay_short_digit. Refusals 1, 2, 15. */
uint64_t overlay_verdict(const uint64_t *state, size_t state_len, const uint8_t *tables, size_t tables_len);

/* Fills the tables: to each entry that falls short the lowest-numbered node that qualifies and is absent is appended until it holds what it must. Lists each
 * addition in out, from its start: a record of four bytes, node, level, digit and neighbour, as an image has them and in its order, with no count before
 * them; what is past them stays. The state does not change. The network passes the verdict then, and a lookup that arrived takes the very same hops as before.
 * A network that passes already gets no addition. Answers how many nodes were added, by overlay_additions. Refusals 1, 2, 15, 16. */
uint64_t overlay_fill(const uint64_t *state, size_t state_len, uint8_t *tables, size_t tables_len,
                      uint8_t *out, size_t out_len);

/* Writes the image of the network, of this version, to out, and changes nothing else: not what is past the image. Version 1 is for
 * networks whose nodes are all in system, and leaves the counts out; version 2 holds any sound state whole. Answers its length, by overlay_image_length.
 * Refusals 1, 2, 4, 15, 16; 15 of version 1 alone. */
uint64_t overlay_write(const uint64_t *state, size_t state_len, const uint8_t *tables, size_t tables_len,
                       uint64_t version, uint8_t *out, size_t out_len);

/* Checks a trace of another router on this network's tables, and changes nothing. A trace is a count byte of paths, and then for each path a count byte, 1
 * to 9, and so many node numbers of one byte, the last being the path's destination. Where its counts are right and every number is a node's, it is accepted,
 * with answer 0, exactly when each path's every step goes to some node, first or not, of the entry in which a lookup at the node that it leaves finds its next
 * hop to the destination, and no path goes on past its destination; so a trace of no paths is accepted. Every path that a lookup takes is accepted, around any
 * failed nodes: a lost one ends where it was lost. docs/TRACES.md works a trace through. 9 and 23 come with the path and the place that they are about, by
 * overlay_trace_path and overlay_trace_place.
 * Refusals 1, 2, 22, 9, 23, in this order over the whole trace. */
uint64_t overlay_trace(const uint64_t *state, size_t state_len, const uint8_t *tables, size_t tables_len,
                       const uint8_t *trace, size_t trace_len);

/* Judges whether the memory holds a sound state, as every call but found and read does first, and changes nothing. Answers the refusal
 * alone, 0 for a sound state. A call like those above: the promises about every call and every run are about it too
 * (docs/PROMISES.md). Refusals 1, 2. */
uint64_t overlay_sound(const uint64_t *state, size_t state_len, const uint8_t *tables, size_t tables_len);

/* ---- the fields of an answer; on a refusal they are zero, but for the places that reading and traces give */

/* Of every answer, bits 0 to 7: the refusal, 0 for none. */
static inline unsigned overlay_refusal(uint64_t answer) { return (unsigned)(answer & 0xff); }

/* Of read, bits 8 to 39: with refusals 10, 17 and 18 the place of the first record that fails, 1 for the first of the image, and 0 where 18
 * stands for an own entry that has no record at all; with every other refusal, and with none, 0. */
static inline uint32_t overlay_record(uint64_t answer) { return (uint32_t)(answer >> 8 & 0xffffffff); }

/* Of begin, bits 8 to 15: the new node, 2 to 64. */
static inline unsigned overlay_new_node(uint64_t answer) { return (unsigned)(answer >> 8 & 0xff); }

/* The kinds of delivery. */
#define OVERLAY_COPIED 1   /* the sender was copying; it goes on asking */
#define OVERLAY_SENT_ON 2  /* the sender was waiting and the entry was full; it goes on asking */
#define OVERLAY_ATTACHED 3 /* the sender was waiting and is now in the receiver's table */
#define OVERLAY_NOTIFIED 4 /* the sender was notifying */

/* Of deliver, bits 8 to 15: its kind, one of the four above. */
static inline unsigned overlay_kind(uint64_t answer) { return (unsigned)(answer >> 8 & 0xff); }

/* Of deliver, bits 16 to 23: the attach level, 0 to 7, if the sender attached, else 0. */
static inline unsigned overlay_attach_level(uint64_t answer) { return (unsigned)(answer >> 16 & 0xff); }

/* Of deliver, bits 24 to 31: 1 if the sender is now in system, else 0. */
static inline unsigned overlay_settled(uint64_t answer) { return (unsigned)(answer >> 24 & 0xff); }

/* Of lookup, bits 8 to 15: 1 arrived, 0 lost. */
static inline unsigned overlay_arrived(uint64_t answer) { return (unsigned)(answer >> 8 & 0xff); }

/* Of lookup, bits 16 to 23: the hops, 0 to 8. */
static inline unsigned overlay_hops(uint64_t answer) { return (unsigned)(answer >> 16 & 0xff); }

/* Of lookup, bits 24 to 31: the last node, 1 to 64. */
static inline unsigned overlay_last_node(uint64_t answer) { return (unsigned)(answer >> 24 & 0xff); }

/* Of verdict, bits 8 to 15: 1 consistent, 0 not. */
static inline unsigned overlay_consistent(uint64_t answer) { return (unsigned)(answer >> 8 & 0xff); }

/* Of verdict, bits 16 to 23: the first short entry's node, 1 to 64; 0 if consistent. */
static inline unsigned overlay_short_node(uint64_t answer) { return (unsigned)(answer >> 16 & 0xff); }

/* Of verdict, bits 24 to 31: the first short entry's level, 0 to 7. */
static inline unsigned overlay_short_level(uint64_t answer) { return (unsigned)(answer >> 24 & 0xff); }

/* Of verdict, bits 32 to 39: the first short entry's digit, 0 to 15. */
static inline unsigned overlay_short_digit(uint64_t answer) { return (unsigned)(answer >> 32 & 0xff); }

/* Of fill, bits 8 to 39: how many nodes were added, each with a record of four bytes in out. */
static inline uint32_t overlay_additions(uint64_t answer) { return (uint32_t)(answer >> 8 & 0xffffffff); }

/* Of write, bits 8 to 39: the length of the image in bytes. */
static inline uint32_t overlay_image_length(uint64_t answer) { return (uint32_t)(answer >> 8 & 0xffffffff); }

/* Of trace, bits 8 to 15: with refusals 9 and 23 the path, 1 for the first of the trace; with every other refusal, and with none, 0. */
static inline unsigned overlay_trace_path(uint64_t answer) { return (unsigned)(answer >> 8 & 0xff); }

/* Of trace, bits 16 to 23: with refusal 9 the place in that path, 1 to 9, of the first number that no node has; with 23 its first step that is not allowed, 1
 * to 8: step s leaves place s for the next; with every other refusal, and with none, 0. */
static inline unsigned overlay_trace_place(uint64_t answer) { return (unsigned)(answer >> 16 & 0xff); }

/* ---- sets of nodes, as failed of lookup and survey */

/* The set of one node: bit node - 1. Sets are joined by |. A number that no node can have gives the empty set, 0. */
static inline uint64_t overlay_only(uint64_t node)
{
    return node >= 1 && node <= OVERLAY_MOST_NODES ? (uint64_t)1 << (node - 1) : 0;
}

/* ---- the counts of a node, read off a sound state: what its join cost. They stay when the node is in system; found, and read of version 1,
 * set them to zero, read of version 2 restores them, and a join that is withdrawn and begun again counts anew. A number that no node has gives 0, however large it is. These two do not
 * judge the state, as the calls do: of one that is not sound they give the words that stand there. */

/* The copy and wait requests that the node has sent: at most one more than an id has digits. */
static inline uint64_t overlay_requests(const uint64_t *state, uint64_t node)
{
    return node >= 1 && node <= OVERLAY_MOST_NODES ? state[8 * node + 6] : 0;
}

/* The node's notices that were answered: at most 62. */
static inline uint64_t overlay_notices(const uint64_t *state, uint64_t node)
{
    return node >= 1 && node <= OVERLAY_MOST_NODES ? state[8 * node + 7] : 0;
}

#ifdef __cplusplus
}
#endif

#endif

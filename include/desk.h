/* The desk's C interface: the tree check, the single firing and the category
 * labels of document 01; nets as PNML text, the writer of trees, the converter of
 * category files, two nets side by side and room in the formula table of document
 * 02. Archive: libdesk.a.
 *
 * Tables and texts are lent as a pointer and a length in bytes. They are only
 * read, and nothing of them is kept after the call. Room for what a call writes
 * is lent in the same way: what is written stands at its start, the bytes after
 * that stay as they are, and a refused call writes nothing to it. Every call
 * writes every one of its out-parameters, also where it refuses. An out-pointer
 * must not be null. What it points to, and a room, must overlap neither a table
 * or text nor another out-parameter or room.
 *
 * The desk_... functions want pointers that are not null even where the length
 * is 0. The inline desk_..._bytes functions below take NULL with length 0 for
 * an empty table, text or room; apart from that they ask and answer the same. */
#ifndef DESK_H
#define DESK_H

#include <stddef.h>
#include <stdint.h>

#ifdef __cplusplus
extern "C" {
#endif

/* Bytes of one record, and the limits of the tables. */
enum {
    DESK_ASK_BYTES = 12,
    DESK_TRANSITION_BYTES = 24,
    DESK_FORMULA_BYTES = 8,
    DESK_NODE_BYTES = 40,
    DESK_CATEGORY_BYTES = 32,
    DESK_PLACES_MAX = 64,
    DESK_TRANSITIONS_MAX = 64,
    DESK_FORMULAS_MAX = 256,
    DESK_NODES_MAX = 65536,
    DESK_CATEGORIES_MAX = 2000,
    DESK_PNML_MAX = 359925, /* the longest text that desk_pnml_write writes */
    DESK_TREE_MAX = 2621440 /* the longest tree that desk_write_tree writes */
};

/* The numbers of documents 01 and 02. */
enum {
    DESK_GRANTED = 0,            /* accepted, fired, no record at fault */
    DESK_BAD_ASK = 1,            /* ask not 12 bytes, places or side out of range */
    DESK_BAD_NET_SIZE = 2,       /* not 1 to 64 transition records */
    DESK_BAD_TRANSITION = 3,     /* a set beyond the places, a mark above 1, a spare byte not zero */
    DESK_BAD_FORMULAS_SIZE = 4,  /* not 1 to 256 formula records */
    DESK_BAD_FORMULA = 5,        /* operator, spare field or operand */
    DESK_BAD_TREE_SIZE = 6,      /* not 1 to 65,536 node records */
    DESK_BAD_MARKING = 7,        /* marking beyond the places, asked formula not in the table */
    DESK_NO_TRANSITION = 8,      /* transition number not in the net */
    DESK_BAD_CATEGORIES_SIZE = 9, /* not 0 to 2,000 category records */
    DESK_BAD_CATEGORY = 10,      /* a faulty category record; one of kind 1 is, but in desk_convert_categories */
    DESK_SHORT_ROOM = 12,        /* a room is too short for what is to be written */
    DESK_BAD_PNML = 13,          /* the text is not of the shape that is read */
    DESK_HAS_UNTIL = 14,         /* the asked formula contains operator 4 or 5 */
    DESK_TOO_LARGE = 15,         /* the places or the transitions of two nets add up to more than 64 */
    DESK_FAULT_LINKS = 20,       /* parent, first child or number of children */
    DESK_FAULT_RANGE = 21,       /* a field out of range, or not zero where required */
    DESK_FAULT_ROOT = 22,        /* the root is not the ask in phase 0 */
    DESK_FAULT_RULE = 23,        /* rule unknown, or not for this side, operator and phase */
    DESK_FAULT_CONDITION = 24,   /* the rule's condition is unmet */
    DESK_FAULT_COUNT = 25,       /* wrong number of children */
    DESK_FAULT_CHILD = 26,       /* a child's sequent is wrong */
    DESK_NOT_ENABLED = 41        /* the transition is not enabled */
};

/* Values of fields of an ask and of a label, and of a side. */
enum {
    DESK_HOLDS = 0,
    DESK_FAILS = 1,
    DESK_TRANSLATION = 0,
    DESK_HOUSE = 1
};

/* Does the tree show the ask's claim? The answer is DESK_GRANTED with the
 * number of nodes in *place, and then the claim is true; 1 to 7 (the input is
 * refused) with the record, 0 except for 3 and 5; or 20 to 26 (the tree is
 * broken) with the node. */
uint32_t desk_check(const uint8_t *ask, size_t ask_len,
                    const uint8_t *net, size_t net_len,
                    const uint8_t *formulas, size_t formulas_len,
                    const uint8_t *tree, size_t tree_len,
                    uint64_t *place);

/* What does firing one transition at the marking give? The answer is
 * DESK_GRANTED with *record 0 and the marking in *after; or 1 (places), 2, 3,
 * 7, 8 or 41 with the record, 0 except for 3, and *after 0. With 41 *missing is
 * the set of the places in pre that lack a token, *occupied that of the places
 * in post that are occupied once pre is taken away; they share no place, and
 * one at least is not 0. With any other answer both are 0. */
uint32_t desk_fire(uint32_t places, uint64_t marking,
                   const uint8_t *net, size_t net_len,
                   uint32_t transition, uint64_t *record, uint64_t *after,
                   uint64_t *missing, uint64_t *occupied);

/* Are the two category files in order? The answer is DESK_GRANTED with *record
 * 0, or 9 with *record 0, or 10 with the lowest faulty record. A fault of the
 * translation comes before one of the house file. A record of kind 1, which
 * borrows its text, is faulty: such a file is converted first, once, with
 * desk_convert_categories. */
uint32_t desk_categories(const uint8_t *translation, size_t translation_len,
                         const uint8_t *house, size_t house_len,
                         uint64_t *record);

/* Where is the label of the action? The label is the *length bytes from
 * *offset of the file *file (DESK_TRANSLATION or DESK_HOUSE). All three are 0
 * where there is none: no record, or either file is faulty. */
void desk_label(const uint8_t *translation, size_t translation_len,
                const uint8_t *house, size_t house_len, uint16_t action,
                uint32_t *file, uint32_t *offset, uint32_t *length);

/* A category file with borrowed labels, whose records may have kind 1, as one in
 * which each record has its own text. The converted file is as long as the file
 * and stands at the start of the room; desk_categories finds no fault in it. A
 * record of kind 1 has become one of kind 0 with lender 0 and the text that it
 * borrowed; the others are the same. The answer is DESK_GRANTED with *record 0
 * and the number of records that had kind 1 in *rewritten. It is 9 with *record
 * 0; or 10 with the lowest record that is faulty where kind 1 is allowed; or 12,
 * exactly where the room is shorter than the file, with *record 0. Where the
 * call refuses, *rewritten is 0. A file without kind 1 is written unchanged. */
uint32_t desk_convert_categories(const uint8_t *file, size_t file_len,
                                 uint8_t *room, size_t room_len,
                                 uint64_t *record, uint64_t *rewritten);

/* The net with its marking as PNML text, at the start of the room. The answer
 * is DESK_GRANTED with *record 0 and the bytes of the text in *length; or 1
 * (places), 2, 3 or 7 with the record, 0 except for 3, and *length 0; or 12,
 * exactly where the text is longer than the room, with both 0. Room of
 * DESK_PNML_MAX bytes is enough for every net. No zero follows the text. */
uint32_t desk_pnml_write(uint32_t places, uint64_t marking,
                         const uint8_t *net, size_t net_len,
                         uint8_t *room, size_t room_len,
                         uint64_t *record, uint64_t *length);

/* The net of a PNML text, its transition records at the start of the room. The
 * answer is DESK_GRANTED with the number of places, the marking and the bytes
 * of the records in *length, and *offset 0. It is 13 where the text is not of
 * the shape that desk_pnml_write writes (white space may follow any '>' but
 * that of <text>), with *offset that of the first byte after which no text of
 * the shape can follow, text_len where the text stops short. It is 1 where the
 * places are not 1 to 64, 2 where the transitions are not, and 12 exactly where
 * the records are longer than the room; then *offset is 0. Where the call
 * refuses, *places, *marking and *length are 0. Room of 64 records is enough. */
uint32_t desk_pnml_read(const uint8_t *text, size_t text_len,
                        uint8_t *room, size_t room_len,
                        uint64_t *offset, uint32_t *places, uint64_t *marking, uint64_t *length);

/* Which side of the ask's formula is true at its marking? The tree that shows it
 * is written to the start of the room, with at most 65,536 nodes; desk_check
 * accepts it for the ask with that side. The answer is DESK_GRANTED with
 * *record 0, DESK_HOLDS or DESK_FAILS in *side and the number of nodes in
 * *nodes. It is 1 to 5 or 7 with the record, 0 except for 3 and 5; then 14 where
 * the asked formula contains operator 4 or 5; then 12, exactly where the tree
 * has more nodes than the room has whole records, or more than 65,536. With 14
 * and 12 *record is 0. Where the call refuses, *side and *nodes are 0. The ask's
 * own side is checked (1), and does not matter otherwise. Room of DESK_TREE_MAX
 * bytes is enough for every tree that can be written. The call needs up to 230 KB
 * of stack, and may take long where operator 3 is nested over many markings. */
uint32_t desk_write_tree(const uint8_t *ask, size_t ask_len,
                         const uint8_t *net, size_t net_len,
                         const uint8_t *formulas, size_t formulas_len,
                         uint8_t *room, size_t room_len,
                         uint64_t *record, uint32_t *side, uint64_t *nodes);

/* Two nets with their markings side by side, as one net. The records of the
 * first stand at the start of the room as they are, those of the second follow
 * with both sets moved up by first_places; its actions and marks are kept. So
 * place k of the second is place first_places + k of the joint net, and its
 * transitions follow those of the first. The answer is DESK_GRANTED with
 * *record 0, the joint places and marking, and the bytes of the joint records in
 * *length; desk_fire and the other calls find no fault in that net. It is 1
 * (places), 2, 3 or 7 for the first net, then the same for the second, with the
 * record in its own table, 0 except for 3; then 15 where places or transitions
 * add up to more than 64; then 12, exactly where the room is shorter than both
 * tables together. With 15 and 12 *record is 0. The answer does not say which
 * net is refused. Where the call refuses, *places, *marking and *length are 0.
 * Room of 64 records is enough. */
uint32_t desk_join(uint32_t first_places, uint64_t first_marking,
                   const uint8_t *first, size_t first_len,
                   uint32_t second_places, uint64_t second_marking,
                   const uint8_t *second, size_t second_len,
                   uint8_t *room, size_t room_len,
                   uint64_t *record, uint32_t *places, uint64_t *marking, uint64_t *length);

/* The tables of an accepted tree without the formula records that the asked one
 * does not reach through its operands. The records that it reaches, itself
 * included, stand in the old order and without gaps at the start of new_formulas;
 * the ask and the nodes stand at the start of new_ask and new_tree. Operands, and
 * the formulas of the ask and of each node, have the new numbers; nothing else is
 * changed. desk_check accepts the new tables with as many nodes, and their claim
 * is the same. The answer is DESK_GRANTED with *place 0 and the number of formula
 * records left in *count. It is desk_check's own where that does not accept: 1 to
 * 7 with the record, 20 to 26 with the node, in *place. Then it is 12, with *place
 * 0, exactly where new_ask is shorter than an ask, new_formulas than the records
 * left, or new_tree than the tree. Where the call refuses, *count is 0. Rooms as
 * long as the tables are enough. Given the new tables, the call writes the same. */
uint32_t desk_save_room(const uint8_t *ask, size_t ask_len,
                        const uint8_t *net, size_t net_len,
                        const uint8_t *formulas, size_t formulas_len,
                        const uint8_t *tree, size_t tree_len,
                        uint8_t *new_ask, size_t new_ask_len,
                        uint8_t *new_formulas, size_t new_formulas_len,
                        uint8_t *new_tree, size_t new_tree_len,
                        uint64_t *place, uint64_t *count);

/* A pointer that is not null, for a table or text that may be NULL with length 0. */
static inline const uint8_t *desk_table(const uint8_t *table)
{
    static const uint8_t empty = 0;
    return table != NULL ? table : &empty;
}

/* The same for a room. Nothing is written to a room of length 0. */
static inline uint8_t *desk_room(uint8_t *room)
{
    static uint8_t empty = 0;
    return room != NULL ? room : &empty;
}

/* desk_check, where a table of length 0 may be NULL. */
static inline uint32_t desk_check_bytes(const uint8_t *ask, size_t ask_len,
                                        const uint8_t *net, size_t net_len,
                                        const uint8_t *formulas, size_t formulas_len,
                                        const uint8_t *tree, size_t tree_len,
                                        uint64_t *place)
{
    return desk_check(desk_table(ask), ask_len, desk_table(net), net_len,
                      desk_table(formulas), formulas_len, desk_table(tree), tree_len, place);
}

/* desk_fire, where a net of length 0 may be NULL. */
static inline uint32_t desk_fire_bytes(uint32_t places, uint64_t marking,
                                       const uint8_t *net, size_t net_len,
                                       uint32_t transition, uint64_t *record, uint64_t *after,
                                       uint64_t *missing, uint64_t *occupied)
{
    return desk_fire(places, marking, desk_table(net), net_len, transition, record, after,
                     missing, occupied);
}

/* desk_categories, where a file of length 0 may be NULL. */
static inline uint32_t desk_categories_bytes(const uint8_t *translation, size_t translation_len,
                                             const uint8_t *house, size_t house_len,
                                             uint64_t *record)
{
    return desk_categories(desk_table(translation), translation_len,
                           desk_table(house), house_len, record);
}

/* desk_label, where a file of length 0 may be NULL. */
static inline void desk_label_bytes(const uint8_t *translation, size_t translation_len,
                                    const uint8_t *house, size_t house_len, uint16_t action,
                                    uint32_t *file, uint32_t *offset, uint32_t *length)
{
    desk_label(desk_table(translation), translation_len,
               desk_table(house), house_len, action, file, offset, length);
}

/* desk_convert_categories, where a file or room of length 0 may be NULL. */
static inline uint32_t desk_convert_categories_bytes(const uint8_t *file, size_t file_len,
                                                     uint8_t *room, size_t room_len,
                                                     uint64_t *record, uint64_t *rewritten)
{
    return desk_convert_categories(desk_table(file), file_len, desk_room(room), room_len,
                                   record, rewritten);
}

/* desk_pnml_write, where a net or room of length 0 may be NULL. */
static inline uint32_t desk_pnml_write_bytes(uint32_t places, uint64_t marking,
                                             const uint8_t *net, size_t net_len,
                                             uint8_t *room, size_t room_len,
                                             uint64_t *record, uint64_t *length)
{
    return desk_pnml_write(places, marking, desk_table(net), net_len,
                           desk_room(room), room_len, record, length);
}

/* desk_pnml_read, where a text or room of length 0 may be NULL. */
static inline uint32_t desk_pnml_read_bytes(const uint8_t *text, size_t text_len,
                                            uint8_t *room, size_t room_len,
                                            uint64_t *offset, uint32_t *places,
                                            uint64_t *marking, uint64_t *length)
{
    return desk_pnml_read(desk_table(text), text_len, desk_room(room), room_len,
                          offset, places, marking, length);
}

/* desk_write_tree, where a table or room of length 0 may be NULL. */
static inline uint32_t desk_write_tree_bytes(const uint8_t *ask, size_t ask_len,
                                             const uint8_t *net, size_t net_len,
                                             const uint8_t *formulas, size_t formulas_len,
                                             uint8_t *room, size_t room_len,
                                             uint64_t *record, uint32_t *side, uint64_t *nodes)
{
    return desk_write_tree(desk_table(ask), ask_len, desk_table(net), net_len,
                           desk_table(formulas), formulas_len, desk_room(room), room_len,
                           record, side, nodes);
}

/* desk_join, where a net or room of length 0 may be NULL. */
static inline uint32_t desk_join_bytes(uint32_t first_places, uint64_t first_marking,
                                       const uint8_t *first, size_t first_len,
                                       uint32_t second_places, uint64_t second_marking,
                                       const uint8_t *second, size_t second_len,
                                       uint8_t *room, size_t room_len,
                                       uint64_t *record, uint32_t *places,
                                       uint64_t *marking, uint64_t *length)
{
    return desk_join(first_places, first_marking, desk_table(first), first_len,
                     second_places, second_marking, desk_table(second), second_len,
                     desk_room(room), room_len, record, places, marking, length);
}

/* desk_save_room, where a table or room of length 0 may be NULL. */
static inline uint32_t desk_save_room_bytes(const uint8_t *ask, size_t ask_len,
                                            const uint8_t *net, size_t net_len,
                                            const uint8_t *formulas, size_t formulas_len,
                                            const uint8_t *tree, size_t tree_len,
                                            uint8_t *new_ask, size_t new_ask_len,
                                            uint8_t *new_formulas, size_t new_formulas_len,
                                            uint8_t *new_tree, size_t new_tree_len,
                                            uint64_t *place, uint64_t *count)
{
    return desk_save_room(desk_table(ask), ask_len, desk_table(net), net_len,
                          desk_table(formulas), formulas_len, desk_table(tree), tree_len,
                          desk_room(new_ask), new_ask_len,
                          desk_room(new_formulas), new_formulas_len,
                          desk_room(new_tree), new_tree_len, place, count);
}

#ifdef __cplusplus
}
#endif

#endif

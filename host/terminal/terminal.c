/* A program in the terminal's place: calls the archive through desk.h on good
 * and bad input and checks every answer and out-parameter. */
#include <inttypes.h>
#include <stdio.h>
#include <stdlib.h>
#include <string.h>

#include "desk.h"

static unsigned passed;
static unsigned failed;

/* A value that no call gives, so that an out-parameter left unwritten shows. */
static const uint64_t UNWRITTEN = UINT64_C(0xDEADBEEFDEADBEEF);

static void expect(const char *what, const char *field, uint64_t expected, uint64_t found)
{
    if (expected == found) {
        passed++;
        return;
    }
    failed++;
    printf("%s: %s is %" PRIu64 ", not %" PRIu64 "\n", what, field, found, expected);
}

/* Little-endian records */

static void put(uint8_t *at, unsigned size, uint64_t value)
{
    for (unsigned i = 0; i < size; i++) {
        at[i] = (uint8_t)(value >> (8 * i));
    }
}

static void put_transition(uint8_t *record, uint64_t pre, uint64_t post, uint64_t action)
{
    memset(record, 0, DESK_TRANSITION_BYTES);
    put(record, 8, pre);
    put(record + 8, 8, post);
    put(record + 16, 2, action);
}

/* Byte 18 of a transition record: 0 pressed, 1 optional. */
enum { MARK = 18 };

static void put_formula(uint8_t *record, uint8_t operation, uint64_t left, uint64_t right,
                        uint64_t action)
{
    memset(record, 0, DESK_FORMULA_BYTES);
    record[0] = operation;
    put(record + 2, 2, left);
    put(record + 4, 2, right);
    put(record + 6, 2, action);
}

static void put_ask(uint8_t *record, uint64_t marking, uint64_t formula, uint8_t places,
                    uint8_t side)
{
    put(record, 8, marking);
    put(record + 8, 2, formula);
    record[10] = places;
    record[11] = side;
}

typedef struct {
    uint64_t marking, anchor, kept;
    uint32_t parent, first;
    uint16_t formula;
    uint8_t children, rule, side, phase, round, transition;
} node;

static void put_node(uint8_t *record, const node *n)
{
    put(record, 8, n->marking);
    put(record + 8, 8, n->anchor);
    put(record + 16, 8, n->kept);
    put(record + 24, 4, n->parent);
    put(record + 28, 4, n->first);
    put(record + 32, 2, n->formula);
    record[34] = n->children;
    record[35] = n->rule;
    record[36] = n->side;
    record[37] = n->phase;
    record[38] = n->round;
    record[39] = n->transition;
}

static void put_category(uint8_t *record, uint64_t action, uint8_t kind, uint64_t lender,
                         const char *text)
{
    memset(record, 0, DESK_CATEGORY_BYTES);
    put(record, 2, action);
    record[2] = kind;
    put(record + 4, 2, lender);
    memcpy(record + 8, text, strlen(text));
}

/* Net R of document 01, in allocations of the exact size so that a checker of
 * memory sees a read past the end. */

typedef struct {
    uint8_t *bytes;
    size_t len;
} table;

/* All tables, to be given back after each group of checks. */
enum { TABLES = 1000 };
static uint8_t *lent[TABLES];
static size_t lent_count;

static table empty_table(size_t len)
{
    table t = {(uint8_t *)calloc(len > 0 ? len : 1, 1), len};
    if (t.bytes == NULL || lent_count == TABLES) {
        puts("no memory");
        exit(1);
    }
    lent[lent_count++] = t.bytes;
    return t;
}

static void give_back(void)
{
    while (lent_count > 0) {
        free(lent[--lent_count]);
    }
}

static table net_r(size_t transitions)
{
    table t = empty_table(transitions * DESK_TRANSITION_BYTES);
    static const uint64_t rows[3][3] = {{1, 1, 1}, {2, 4, 2}, {4, 0, 3}};
    for (size_t i = 0; i < transitions; i++) {
        put_transition(t.bytes + i * DESK_TRANSITION_BYTES, rows[i][0], rows[i][1], rows[i][2]);
    }
    return t;
}

static table formulas_r(void)
{
    table t = empty_table(3 * DESK_FORMULA_BYTES);
    put_formula(t.bytes, 0, 0, 0, 0);
    put_formula(t.bytes + DESK_FORMULA_BYTES, 3, 0, 0, 3);
    put_formula(t.bytes + 2 * DESK_FORMULA_BYTES, 5, 0, 1, 0);
    return t;
}

static table ask_r(uint64_t marking, uint64_t formula, uint8_t places, uint8_t side)
{
    table t = empty_table(DESK_ASK_BYTES);
    put_ask(t.bytes, marking, formula, places, side);
    return t;
}

static table tree_of(const node *nodes, size_t count)
{
    table t = empty_table(count * DESK_NODE_BYTES);
    for (size_t i = 0; i < count; i++) {
        put_node(t.bytes + i * DESK_NODE_BYTES, &nodes[i]);
    }
    return t;
}

/* Rules 31, 32 (t0), 24 and 33, the last node keeping `kept`. */
static table loop_tree(uint64_t marking, uint64_t next, uint64_t kept)
{
    const node nodes[4] = {
        {marking, 0, 0, 0, 1, 2, 1, 31, DESK_FAILS, 0, 0, 0},
        {marking, marking, next, 0, 2, 2, 2, 32, DESK_FAILS, 4, 0, 0},
        {marking, 0, 0, 1, 0, 1, 0, 24, DESK_FAILS, 0, 0, 0},
        {marking, marking, kept, 1, 0, 2, 0, 33, DESK_FAILS, 4, 0, 0},
    };
    return tree_of(nodes, 4);
}

/* The tree of 23 nodes for "formula 2 holds at 3" in net R: t0 loops at 3
 * while t1 stays enabled and independent of it. */
static table holds_tree(void)
{
    enum { H = DESK_HOLDS };
    const node nodes[23] = {
        /* 0: at 3, then after t0 (3 again) and after t1 (5) */
        {3, 0, 0, 0, 1, 2, 3, 6, H, 0, 0, 0},
        {3, 0, 0, 0, 0, 0, 0, 15, H, 0, 0, 0},
        {3, 0, 0, 0, 4, 2, 1, 7, H, 0, 0, 0},
        {5, 0, 0, 0, 5, 2, 1, 5, H, 0, 0, 0},
        /* 4: anchored at 3, keeping t0 and t1 */
        {3, 3, 3, 2, 6, 2, 1, 8, H, 1, 2, 0},
        /* 5: at 5 transition t2 is enabled */
        {5, 0, 0, 3, 7, 1, 1, 2, H, 0, 0, 2},
        {3, 3, 3, 4, 8, 2, 3, 9, H, 2, 1, 0},
        {1, 0, 0, 5, 0, 0, 0, 15, H, 0, 0, 0},
        {3, 0, 0, 6, 0, 0, 0, 15, H, 0, 0, 0},
        {3, 3, 2, 6, 11, 2, 1, 11, H, 2, 1, 0},
        {5, 3, 1, 6, 12, 2, 1, 10, H, 2, 1, 0},
        /* 11: on the way back, at the anchor */
        {3, 3, 2, 9, 13, 2, 1, 14, H, 3, 1, 0},
        {5, 0, 0, 10, 14, 1, 1, 2, H, 0, 0, 2},
        {3, 3, 2, 11, 15, 2, 1, 8, H, 1, 1, 0},
        {1, 0, 0, 12, 0, 0, 0, 15, H, 0, 0, 0},
        {3, 3, 2, 13, 16, 2, 3, 9, H, 2, 0, 0},
        {3, 0, 0, 15, 0, 0, 0, 15, H, 0, 0, 0},
        {3, 3, 2, 15, 19, 2, 1, 11, H, 2, 0, 0},
        {5, 3, 0, 15, 20, 2, 1, 10, H, 2, 0, 0},
        {3, 3, 2, 17, 21, 2, 1, 14, H, 3, 0, 0},
        {5, 0, 0, 18, 22, 1, 1, 2, H, 0, 0, 2},
        {3, 3, 2, 19, 0, 2, 0, 17, H, 1, 0, 0},
        {1, 0, 0, 20, 0, 0, 0, 15, H, 0, 0, 0},
    };
    return tree_of(nodes, 23);
}

/* Calls with checks of all that they write */

static void check(const char *what, table ask, table net, table formulas, table tree,
                  uint32_t number, uint64_t place)
{
    uint64_t found = UNWRITTEN;
    expect(what, "number", number,
           desk_check_bytes(ask.bytes, ask.len, net.bytes, net.len, formulas.bytes, formulas.len,
                            tree.bytes, tree.len, &found));
    expect(what, "place", place, found);
}

static void fire_with(const char *what, uint32_t places, uint64_t marking, table net,
                      uint32_t transition, uint32_t number, uint64_t record, uint64_t after,
                      uint64_t missing, uint64_t occupied)
{
    uint64_t found_record = UNWRITTEN;
    uint64_t found_after = UNWRITTEN;
    uint64_t found_missing = UNWRITTEN;
    uint64_t found_occupied = UNWRITTEN;
    expect(what, "number", number,
           desk_fire_bytes(places, marking, net.bytes, net.len, transition, &found_record,
                           &found_after, &found_missing, &found_occupied));
    expect(what, "record", record, found_record);
    expect(what, "after", after, found_after);
    expect(what, "missing", missing, found_missing);
    expect(what, "occupied", occupied, found_occupied);
}

/* Any answer but 41: both sets are 0. */
static void fire(const char *what, uint32_t places, uint64_t marking, table net,
                 uint32_t transition, uint32_t number, uint64_t record, uint64_t after)
{
    fire_with(what, places, marking, net, transition, number, record, after, 0, 0);
}

/* 41 with its sets. */
static void not_enabled(const char *what, uint32_t places, uint64_t marking, table net,
                        uint32_t transition, uint64_t missing, uint64_t occupied)
{
    fire_with(what, places, marking, net, transition, DESK_NOT_ENABLED, 0, 0, missing, occupied);
}

static void categories(const char *what, table translation, table house, uint32_t number,
                       uint64_t record)
{
    uint64_t found = UNWRITTEN;
    expect(what, "number", number,
           desk_categories_bytes(translation.bytes, translation.len, house.bytes, house.len,
                                 &found));
    expect(what, "record", record, found);
}

static void label(const char *what, table translation, table house, uint16_t action,
                  uint32_t file, uint32_t offset, uint32_t length)
{
    uint32_t found_file = (uint32_t)UNWRITTEN;
    uint32_t found_offset = (uint32_t)UNWRITTEN;
    uint32_t found_length = (uint32_t)UNWRITTEN;
    desk_label_bytes(translation.bytes, translation.len, house.bytes, house.len, action,
                     &found_file, &found_offset, &found_length);
    expect(what, "file", file, found_file);
    expect(what, "offset", offset, found_offset);
    expect(what, "length", length, found_length);
}

static const table NOTHING = {NULL, 0};

/* A copy of a table with another length; bytes beyond the old end are zero. */
static table resized(table old, size_t len)
{
    table t = empty_table(len);
    memcpy(t.bytes, old.bytes, len < old.len ? len : old.len);
    return t;
}

/* A copy with one byte changed. */
static table changed(table old, size_t at, uint8_t value)
{
    table t = resized(old, old.len);
    t.bytes[at] = value;
    return t;
}

static void samples(void)
{
    table net = net_r(3), one = net_r(1), formulas = formulas_r();
    table holds = ask_r(3, 2, 3, DESK_HOLDS), fails = ask_r(3, 2, 3, DESK_FAILS);
    table fails_at_1 = ask_r(1, 2, 1, DESK_FAILS);
    table good = holds_tree(), loop_2 = loop_tree(3, 3, 2), loop_0 = loop_tree(3, 3, 0);
    table one_loop = loop_tree(1, 1, 0);
    check("R holds", holds, net, formulas, good, DESK_GRANTED, 23);
    check("R fails, keeping 2", fails, net, formulas, loop_2, DESK_FAULT_CONDITION, 3);
    check("R fails, keeping 0", fails, net, formulas, loop_0, DESK_FAULT_CHILD, 1);
    check("one place", fails_at_1, one, formulas, one_loop, DESK_GRANTED, 4);
    check("the other side", fails, net, formulas, good, DESK_FAULT_ROOT, 0);

    table leaf_first = changed(good, 22 * DESK_NODE_BYTES + 28, 1);
    table bad_phase = changed(good, 37, 5);
    table bad_rule = changed(good, 21 * DESK_NODE_BYTES + 35, 19);
    table no_child = changed(changed(good, 34, 2), 3 * DESK_NODE_BYTES + 24, 1);
    check("a leaf with a first child", holds, net, formulas, leaf_first, DESK_FAULT_LINKS, 22);
    check("phase 5", holds, net, formulas, bad_phase, DESK_FAULT_RANGE, 0);
    check("rule 19", holds, net, formulas, bad_rule, DESK_FAULT_RULE, 21);
    check("two children of three", holds, net, formulas, no_child, DESK_FAULT_COUNT, 0);
}

/* Net R where a transition is optional. */
static table net_r_optional(size_t transition)
{
    table t = net_r(3);
    t.bytes[transition * DESK_TRANSITION_BYTES + MARK] = 1;
    return t;
}

static void optional_transitions(void)
{
    table formulas = formulas_r(), good = holds_tree();
    table holds = ask_r(3, 2, 3, DESK_HOLDS), fails = ask_r(3, 2, 3, DESK_FAILS);
    table t0 = net_r_optional(0), t1 = net_r_optional(1), t2 = net_r_optional(2);
    table none = changed(t1, MARK, 1), keeps_t0 = loop_tree(3, 1, 0);
    /* 7 and 31 keep t0 alone where t1 is optional; 6 and 31 need t0 or t1 pressed. */
    check("R holds, t2 optional", holds, t2, formulas, good, DESK_GRANTED, 23);
    check("R holds, t1 optional", holds, t1, formulas, good, DESK_FAULT_CHILD, 2);
    check("R holds, t0 optional", holds, t0, formulas, good, DESK_FAULT_CHILD, 2);
    check("R holds, both optional", holds, none, formulas, good, DESK_FAULT_CONDITION, 0);
    check("R fails, t1 optional", fails, t1, formulas, keeps_t0, DESK_GRANTED, 4);
    check("R fails, t0 optional", fails, t0, formulas, keeps_t0, DESK_FAULT_CHILD, 0);
    check("R fails, both optional", fails, none, formulas, keeps_t0, DESK_FAULT_CONDITION, 0);
    fire("t1 optional, t1", 3, 3, t1, 1, DESK_GRANTED, 0, 5);
    not_enabled("t1 optional, t2", 3, 3, t1, 2, 4, 0);
    not_enabled("t1 optional, t1", 3, 4, t1, 1, 2, 4);

    /* Rule 29 where t0 is optional and alone: then 24 and a leaf. */
    const node ends[2] = {
        {1, 0, 0, 0, 1, 2, 1, 29, DESK_FAILS, 0, 0, 0},
        {1, 0, 0, 0, 0, 1, 0, 24, DESK_FAILS, 0, 0, 0},
    };
    table at_1 = ask_r(1, 2, 1, DESK_FAILS), end = tree_of(ends, 2), one = net_r(1);
    check("t0 alone and optional", at_1, changed(one, MARK, 1), formulas, end, DESK_GRANTED, 2);
    check("t0 alone and pressed", at_1, one, formulas, end, DESK_FAULT_CONDITION, 0);

    /* The mark and the spare bytes of record 1. */
    for (size_t at = MARK; at < DESK_TRANSITION_BYTES; at++) {
        for (unsigned value = 1; value <= 255; value += at == MARK ? 1 : 127) {
            table other = changed(t2, DESK_TRANSITION_BYTES + at, (uint8_t)value);
            int good_mark = at == MARK && value == 1;
            fire("a mark or spare byte", 3, 3, other, 1,
                 good_mark ? DESK_GRANTED : DESK_BAD_TRANSITION, good_mark ? 0 : 1,
                 good_mark ? 5 : 0);
        }
    }
    check("a mark of 2", holds, changed(t1, MARK, 2), formulas, good, DESK_BAD_TRANSITION, 0);
    check("the last byte", holds, changed(t1, 71, 1), formulas, good, DESK_BAD_TRANSITION, 2);
}

static void check_refusals(void)
{
    table net = net_r(3), formulas = formulas_r(), tree = holds_tree();
    table ask = ask_r(3, 2, 3, DESK_HOLDS);
    check("nothing at all", NOTHING, NOTHING, NOTHING, NOTHING, DESK_BAD_ASK, 0);
    check("no net", ask, NOTHING, NOTHING, NOTHING, DESK_BAD_NET_SIZE, 0);
    check("no formulas", ask, net, NOTHING, NOTHING, DESK_BAD_FORMULAS_SIZE, 0);
    check("no tree", ask, net, formulas, NOTHING, DESK_BAD_TREE_SIZE, 0);
    for (size_t len = 0; len <= 2 * DESK_ASK_BYTES; len++) {
        table other = resized(ask, len);
        check("ask size", other, net, formulas, tree, len == DESK_ASK_BYTES ? 0 : DESK_BAD_ASK,
              len == DESK_ASK_BYTES ? 23 : 0);
    }
    for (size_t len = 0; len <= 5; len++) {
        static const size_t sizes[6] = {1, 23, 25, 71, 73, 65 * DESK_TRANSITION_BYTES};
        table other = resized(net, sizes[len]);
        check("net size", ask, other, formulas, tree, DESK_BAD_NET_SIZE, 0);
    }
    for (size_t len = 0; len <= 5; len++) {
        static const size_t sizes[6] = {1, 7, 9, 23, 25, 257 * DESK_FORMULA_BYTES};
        table other = resized(formulas, sizes[len]);
        check("formulas size", ask, net, other, tree, DESK_BAD_FORMULAS_SIZE, 0);
    }
    for (size_t len = 0; len <= 5; len++) {
        static const size_t sizes[6] = {1, 39, 41, 919, 921, 65537u * DESK_NODE_BYTES};
        table other = resized(tree, sizes[len]);
        check("tree size", ask, net, formulas, other, DESK_BAD_TREE_SIZE, 0);
    }
    check("places 0", ask_r(3, 2, 0, 0), net, formulas, tree, DESK_BAD_ASK, 0);
    check("places 65", ask_r(3, 2, 65, 0), net, formulas, tree, DESK_BAD_ASK, 0);
    check("side 2", ask_r(3, 2, 3, 2), net, formulas, tree, DESK_BAD_ASK, 0);
    check("two places", ask_r(3, 2, 2, 0), net, formulas, tree, DESK_BAD_TRANSITION, 1);
    check("spare byte", ask, changed(net, 71, 1), formulas, tree, DESK_BAD_TRANSITION, 2);
    check("not of itself", ask, net, changed(formulas, 0, 1), tree, DESK_BAD_FORMULA, 0);
    check("operand not lower", ask, net, changed(formulas, 20, 2), tree, DESK_BAD_FORMULA, 2);
    check("marking beyond", ask_r(11, 2, 3, 0), net, formulas, tree, DESK_BAD_MARKING, 0);
    check("formula beyond", ask_r(3, 3, 3, 0), net, formulas, tree, DESK_BAD_MARKING, 0);
    uint64_t top = UINT64_C(1) << 63;
    check("bit 63 of 63", ask_r(top, 2, 63, 0), net, formulas, tree, DESK_BAD_MARKING, 0);
    check("bit 63 of 64", ask_r(top, 2, 64, 0), net, formulas, tree, DESK_FAULT_ROOT, 0);
}

static void sizes_at_the_limit(void)
{
    table ask = ask_r(0, 0, 64, DESK_HOLDS);
    table net = empty_table(DESK_TRANSITIONS_MAX * DESK_TRANSITION_BYTES);
    table formulas = empty_table(DESK_FORMULAS_MAX * DESK_FORMULA_BYTES);
    table tree = empty_table((size_t)DESK_NODES_MAX * DESK_NODE_BYTES);
    tree.bytes[35] = 15;
    check("full tables", ask, net, formulas, tree, DESK_FAULT_LINKS, 1);
    tree.len = DESK_NODE_BYTES;
    check("one node", ask, net, formulas, tree, DESK_GRANTED, 1);
}

static void firings(void)
{
    table r = net_r(3), nothing = empty_table(DESK_TRANSITION_BYTES);
    table step = empty_table(DESK_TRANSITION_BYTES);
    uint64_t top = UINT64_C(1) << 63;
    put_transition(step.bytes, 1, 2, 0);
    fire("1 to 2 at 1", 2, 1, step, 0, DESK_GRANTED, 0, 2);
    not_enabled("1 to 2 at 3", 2, 3, step, 0, 0, 2);
    fire("1 to 1 at 1", 3, 1, r, 0, DESK_GRANTED, 0, 1);
    fire("no place touched", 64, top, nothing, 0, DESK_GRANTED, 0, top);
    fire("R fires 1", 3, 3, r, 1, DESK_GRANTED, 0, 5);
    not_enabled("R fires 2", 3, 3, r, 2, 4, 0);
    fire("R fires 3", 3, 3, r, 3, DESK_NO_TRANSITION, 0, 0);
    fire("R fires 259", 3, 3, r, 259, DESK_NO_TRANSITION, 0, 0);
    fire("R fires the largest", 3, 3, r, UINT32_MAX, DESK_NO_TRANSITION, 0, 0);
    fire("places 0", 0, 3, r, 0, DESK_BAD_ASK, 0, 0);
    fire("places 65", 65, 3, r, 0, DESK_BAD_ASK, 0, 0);
    fire("places 259", 259, 3, r, 0, DESK_BAD_ASK, 0, 0);
    fire("two places", 2, 3, r, 0, DESK_BAD_TRANSITION, 1, 0);
    fire("marking beyond", 3, 8, r, 3, DESK_BAD_MARKING, 0, 0);
    fire("bit 63 of 63", 63, top, r, 0, DESK_BAD_MARKING, 0, 0);
    fire("NULL with 0", 3, 3, NOTHING, 0, DESK_BAD_NET_SIZE, 0, 0);
    for (size_t len = 0; len <= 4 * DESK_TRANSITION_BYTES; len++) {
        table other = resized(r, len);
        size_t records = len % DESK_TRANSITION_BYTES == 0 ? len / DESK_TRANSITION_BYTES : 0;
        uint32_t number = records == 0 ? DESK_BAD_NET_SIZE
                          : records == 1 ? DESK_NO_TRANSITION : DESK_GRANTED;
        fire("net size", 3, 3, other, 1, number, 0, number == 0 ? 5 : 0);
    }
}

/* The sets of one transition with 64 places, alone and as the last of 64. */
static void reasons(void)
{
    static const struct {
        const char *what;
        uint64_t pre, post, marking, missing, occupied;
    } cases[] = {
        {"1 to 2 at 3", 1, 2, 3, 0, 2},
        {"1 to 2 at 0", 1, 2, 0, 1, 0},
        {"1 to 2 at 2", 1, 2, 2, 1, 2},
        {"1 to 3 at 3", 1, 3, 3, 0, 2},
        {"3 to 3 at 0", 3, 3, 0, 3, 0},
        {"3 to 3 at 1", 3, 3, 1, 2, 0},
        {"3 to 5 at 5", 3, 5, 5, 2, 4},
        {"3 to 5 at all but 2", 3, 5, UINT64_MAX - 2, 2, 4},
        {"nothing to 5 at 6", 0, 5, 6, 0, 4},
        {"5 to nothing at 6", 5, 0, 6, 1, 0},
        {"place 63 to 0", UINT64_C(1) << 63, 1, 1, UINT64_C(1) << 63, 1},
        {"place 0 to 63", 1, UINT64_C(1) << 63, UINT64_C(1) << 63, 1, UINT64_C(1) << 63},
        {"all missing", UINT64_MAX, UINT64_MAX, 0, UINT64_MAX, 0},
        {"all occupied", 0, UINT64_MAX, UINT64_MAX, 0, UINT64_MAX},
        {"every second", UINT64_MAX / 3, UINT64_MAX / 3 * 2, UINT64_MAX / 3 * 2,
         UINT64_MAX / 3, UINT64_MAX / 3 * 2},
        {"high to low", UINT64_MAX << 32, UINT32_MAX, UINT32_MAX, UINT64_MAX << 32, UINT32_MAX},
    };
    for (size_t i = 0; i < sizeof cases / sizeof cases[0]; i++) {
        table one = empty_table(DESK_TRANSITION_BYTES);
        table last = empty_table(DESK_TRANSITIONS_MAX * DESK_TRANSITION_BYTES);
        put_transition(one.bytes, cases[i].pre, cases[i].post, 0);
        put_transition(last.bytes + 63 * DESK_TRANSITION_BYTES, cases[i].pre, cases[i].post, 0);
        uint64_t marking = cases[i].marking, missing = cases[i].missing;
        uint64_t occupied = cases[i].occupied;
        not_enabled(cases[i].what, 64, marking, one, 0, missing, occupied);
        not_enabled(cases[i].what, 64, marking, last, 63, missing, occupied);
        fire(cases[i].what, 64, marking, last, 62, DESK_GRANTED, 0, marking);
        fire(cases[i].what, 64, marking, one, 1, DESK_NO_TRANSITION, 0, 0);
        fire(cases[i].what, 64, marking, changed(one, 23, 1), 0, DESK_BAD_TRANSITION, 0, 0);
        fire(cases[i].what, 64, marking, resized(one, 23), 0, DESK_BAD_NET_SIZE, 0, 0);
        fire(cases[i].what, 65, marking, one, 0, DESK_BAD_ASK, 0, 0);
        /* Where the reasons are gone it fires. */
        marking = (marking | missing) & ~occupied;
        fire(cases[i].what, 64, marking, one, 0, DESK_GRANTED, 0,
             (marking & ~cases[i].pre) | cases[i].post);
    }
    table step = empty_table(DESK_TRANSITION_BYTES);
    put_transition(step.bytes, 1, 2, 0);
    not_enabled("1 to 2 of two places", 2, 2, step, 0, 1, 2);
    fire("1 to 2 at 6 of two places", 2, 6, step, 0, DESK_BAD_MARKING, 0, 0);
}

/* The most bytes that a text can have. */
static const char LONGEST[] = "abcdefghijklmnopqrstuvwx";

/* The house's labels. Action 2 has the text of 7, its own (kind 0) or borrowed (1). */
static table house_labels(uint8_t kind)
{
    table t = empty_table(3 * DESK_CATEGORY_BYTES);
    put_category(t.bytes, 1, 0, 0, "call");
    put_category(t.bytes + 32, 2, kind, kind == 1 ? 7 : 0, kind == 1 ? "" : LONGEST);
    put_category(t.bytes + 64, 7, 0, 0, LONGEST);
    return t;
}

/* The translator's. Action 9 has the text of 1. */
static table translated_labels(uint8_t kind)
{
    table t = empty_table(2 * DESK_CATEGORY_BYTES);
    put_category(t.bytes, 1, 0, 0, "Ruf");
    put_category(t.bytes + 32, 9, kind, kind == 1 ? 1 : 0, kind == 1 ? "" : "Ruf");
    return t;
}

static void labels(void)
{
    table house = house_labels(0), translation = translated_labels(0);
    categories("two good files", translation, house, DESK_GRANTED, 0);
    categories("no files", NOTHING, NOTHING, DESK_GRANTED, 0);
    label("from the translation", translation, house, 1, DESK_TRANSLATION, 8, 3);
    label("last of the translation", translation, house, 9, DESK_TRANSLATION, 40, 3);
    label("from the house", NOTHING, house, 1, DESK_HOUSE, 8, 4);
    label("inside the house", translation, house, 2, DESK_HOUSE, 40, 24);
    label("a text of 24", translation, house, 7, DESK_HOUSE, 72, 24);
    label("no record", translation, house, 3, 0, 0, 0);
    label("no files", NOTHING, NOTHING, 1, 0, 0, 0);

    table unsorted = changed(house, 64, 2), control = changed(house, 8, 0x1F);
    table spare = changed(house, 35, 1), kind = changed(house, 34, 2);
    table gap = changed(house, 73, 0), lender = changed(house, 36, 7);
    categories("action not above the one before", NOTHING, unsorted, DESK_BAD_CATEGORY, 2);
    categories("a control byte", NOTHING, control, DESK_BAD_CATEGORY, 0);
    categories("a spare byte", NOTHING, spare, DESK_BAD_CATEGORY, 1);
    categories("kind 2", NOTHING, kind, DESK_BAD_CATEGORY, 1);
    categories("a zero inside a text", NOTHING, gap, DESK_BAD_CATEGORY, 2);
    categories("a lender", NOTHING, lender, DESK_BAD_CATEGORY, 1);
    categories("kind 1 with a text", NOTHING, changed(house, 34, 1), DESK_BAD_CATEGORY, 1);
    categories("translation before house", gap, control, DESK_BAD_CATEGORY, 2);
    label("the house is faulty", translation, gap, 1, 0, 0, 0);
    label("the translation is faulty", gap, house, 1, 0, 0, 0);
}

/* A record of kind 1 is refused though its lender is good. */
static void borrowed_labels(void)
{
    table house = house_labels(0), translation = translated_labels(0);
    table lending = house_labels(1), lent = translated_labels(1);
    categories("borrowed in the house", translation, lending, DESK_BAD_CATEGORY, 1);
    categories("borrowed in the translation", lent, house, DESK_BAD_CATEGORY, 1);
    categories("borrowed in both", lending, lent, DESK_BAD_CATEGORY, 1);
    categories("a lower fault", NOTHING, changed(lending, 8, 0x1F), DESK_BAD_CATEGORY, 0);
    categories("a fault of the lender", NOTHING, changed(lending, 73, 0), DESK_BAD_CATEGORY, 1);
    categories("a lender of kind 1", NOTHING, changed(lending, 36, 2), DESK_BAD_CATEGORY, 1);
    for (uint16_t action = 0; action <= 10; action++) {
        label("borrowed in the house", translation, lending, action, 0, 0, 0);
        label("borrowed in the translation", lent, house, action, 0, 0, 0);
    }
    for (uint8_t kind = 0; kind <= 1; kind++) {
        for (size_t len = 0; len <= 3 * DESK_CATEGORY_BYTES; len++) {
            table other = resized(house_labels(kind), len);
            uint32_t number = len % DESK_CATEGORY_BYTES != 0 ? DESK_BAD_CATEGORIES_SIZE
                              : kind == 1 && len >= 64 ? DESK_BAD_CATEGORY : DESK_GRANTED;
            int found = number == 0 && len > 0;
            categories("house size", translation, other, number, number == 10 ? 1 : 0);
            label("house size", NOTHING, other, 1, found, found ? 8 : 0, found ? 4 : 0);
        }
    }
}

static void full_files(void)
{
    for (size_t records = 1999; records <= 2001; records++) {
        table file = empty_table(records * DESK_CATEGORY_BYTES);
        for (size_t i = 0; i < records; i++) {
            put_category(file.bytes + i * DESK_CATEGORY_BYTES, i, 0, 0, "x");
        }
        int good = records <= DESK_CATEGORIES_MAX;
        categories("full file", NOTHING, file, good ? DESK_GRANTED : DESK_BAD_CATEGORIES_SIZE, 0);
        label("last of a full file", file, NOTHING, (uint16_t)(records - 1), 0,
              good ? (uint32_t)(records - 1) * 32 + 8 : 0, good ? 1 : 0);
    }
}

/* PNML texts */

static const char HEAD[] =
    "<pnml xmlns=\"http://www.pnml.org/version-2009/grammar/pnml\">"
    "<net id=\"n\" type=\"http://www.pnml.org/version-2009/grammar/ptnet\"><page id=\"g\">";
static const char TAIL[] = "</page></net></pnml>";

/* Follows the name of an optional transition. */
#define OPTIONAL "<toolspecific tool=\"desk\" version=\"1\"/>"

/* Net R at marking 3, after HEAD and before TAIL: to the end of t1's name, and
 * from there on. */
#define R_TO_NAME \
    "<place id=\"p0\"><initialMarking><text>1</text></initialMarking></place>" \
    "<place id=\"p1\"><initialMarking><text>1</text></initialMarking></place>" \
    "<place id=\"p2\"><initialMarking><text>0</text></initialMarking></place>" \
    "<transition id=\"t0\"><name><text>1</text></name></transition>" \
    "<transition id=\"t1\"><name><text>2</text></name>"
#define R_FROM_NAME \
    "</transition>" \
    "<transition id=\"t2\"><name><text>3</text></name></transition>" \
    "<arc id=\"a0\" source=\"p0\" target=\"t0\"/><arc id=\"a1\" source=\"t0\" target=\"p0\"/>" \
    "<arc id=\"a2\" source=\"p1\" target=\"t1\"/><arc id=\"a3\" source=\"t1\" target=\"p2\"/>" \
    "<arc id=\"a4\" source=\"p2\" target=\"t2\"/>"
static const char R_INSIDE[] = R_TO_NAME R_FROM_NAME;
static const char R_OPTIONAL[] = R_TO_NAME OPTIONAL R_FROM_NAME;

/* A text that grows, of at most DESK_PNML_MAX bytes. */
static char growing[DESK_PNML_MAX + 1];
static size_t grown;

static void add(const char *bytes)
{
    size_t len = strlen(bytes);
    if (len > DESK_PNML_MAX - grown) {
        puts("a text is too long");
        exit(1);
    }
    memcpy(growing + grown, bytes, len);
    grown += len;
}

static void add_number(uint64_t number)
{
    char digits[21];
    snprintf(digits, sizeof digits, "%" PRIu64, number);
    add(digits);
}

static void add_place(size_t place, uint64_t mark)
{
    add("<place id=\"p");
    add_number(place);
    add("\"><initialMarking><text>");
    add_number(mark);
    add("</text></initialMarking></place>");
}

/* `mark` is OPTIONAL or nothing. */
static void add_marked(size_t transition, uint64_t action, const char *mark)
{
    add("<transition id=\"t");
    add_number(transition);
    add("\"><name><text>");
    add_number(action);
    add("</text></name>");
    add(mark);
    add("</transition>");
}

static void add_transition(size_t transition, uint64_t action)
{
    add_marked(transition, action, "");
}

static void add_arc(size_t arc, const char *source, size_t from, const char *target, size_t to)
{
    add("<arc id=\"a");
    add_number(arc);
    add(source);
    add_number(from);
    add(target);
    add_number(to);
    add("\"/>");
}

/* What has grown, in an allocation of the exact size. */
static table text(void)
{
    table t = empty_table(grown);
    memcpy(t.bytes, growing, grown);
    grown = 0;
    return t;
}

static table text_of(const char *first, const char *second, const char *third)
{
    add(first);
    add(second);
    add(third);
    return text();
}

/* A net of so many places and transitions, all optional, every arc, every place
 * marked. */
static table full_net(size_t places, size_t transitions, uint64_t action)
{
    table t = empty_table(transitions * DESK_TRANSITION_BYTES);
    uint64_t all = UINT64_MAX >> (64 - places);
    for (size_t i = 0; i < transitions; i++) {
        put_transition(t.bytes + i * DESK_TRANSITION_BYTES, all, all, action);
        t.bytes[i * DESK_TRANSITION_BYTES + MARK] = 1;
    }
    return t;
}

static table full_text(size_t places, size_t transitions, uint64_t action)
{
    size_t arc = 0;
    add(HEAD);
    for (size_t p = 0; p < places; p++) {
        add_place(p, 1);
    }
    for (size_t t = 0; t < transitions; t++) {
        add_marked(t, action, OPTIONAL);
    }
    for (size_t t = 0; t < transitions; t++) {
        for (size_t p = 0; p < places; p++) {
            add_arc(arc++, "\" source=\"p", p, "\" target=\"t", t);
        }
        for (size_t p = 0; p < places; p++) {
            add_arc(arc++, "\" source=\"t", t, "\" target=\"p", p);
        }
    }
    add(TAIL);
    return text();
}

/* A room of the exact size, or with bytes after it that are not lent. Every
 * byte is filled, so that one that is written shows. A room of size 0 without
 * such bytes is NULL. */
static const uint8_t FILLER = 0xA5;
enum { BEHIND = 64 };

static uint8_t *filled(size_t len)
{
    uint8_t *room = len > 0 ? (uint8_t *)malloc(len) : NULL;
    if (len > 0 && room == NULL) {
        puts("no memory");
        exit(1);
    }
    if (len > 0) {
        memset(room, FILLER, len);
    }
    return room;
}

/* What stands in the room is `written` and then the filler. */
static void stands(const char *what, const uint8_t *room, size_t len, table written)
{
    size_t same = 0;
    while (same < len && room[same] == (same < written.len ? written.bytes[same] : FILLER)) {
        same++;
    }
    expect(what, "same bytes in the room", len, same);
}

/* `written` is NOTHING where the call is refused. */
static void pnml_write(const char *what, uint32_t places, uint64_t marking, table net,
                       size_t room_len, uint32_t number, uint64_t record, table written)
{
    for (size_t behind = 0; behind <= BEHIND; behind += BEHIND) {
        uint8_t *room = filled(room_len + behind);
        uint64_t found_record = UNWRITTEN;
        uint64_t found_length = UNWRITTEN;
        expect(what, "number", number,
               desk_pnml_write_bytes(places, marking, net.bytes, net.len, room, room_len,
                                     &found_record, &found_length));
        expect(what, "record", record, found_record);
        expect(what, "length", written.len, found_length);
        stands(what, room, room_len + behind, written);
        free(room);
    }
}

/* Places and marking are 0 and `written` is NOTHING where the call is refused. */
static void pnml_read(const char *what, table from, size_t room_len, uint32_t number,
                      uint64_t offset, uint32_t places, uint64_t marking, table written)
{
    for (size_t behind = 0; behind <= BEHIND; behind += BEHIND) {
        uint8_t *room = filled(room_len + behind);
        uint64_t found_offset = UNWRITTEN;
        uint32_t found_places = (uint32_t)UNWRITTEN;
        uint64_t found_marking = UNWRITTEN;
        uint64_t found_length = UNWRITTEN;
        expect(what, "number", number,
               desk_pnml_read_bytes(from.bytes, from.len, room, room_len, &found_offset,
                                    &found_places, &found_marking, &found_length));
        expect(what, "offset", offset, found_offset);
        expect(what, "places", places, found_places);
        expect(what, "marking", marking, found_marking);
        expect(what, "length", written.len, found_length);
        stands(what, room, room_len + behind, written);
        free(room);
    }
}

/* A refused reading, with room enough. */
static void unreadable(const char *what, table from, uint32_t number, uint64_t offset)
{
    pnml_read(what, from, DESK_TRANSITIONS_MAX * DESK_TRANSITION_BYTES, number, offset, 0, 0,
              NOTHING);
}

static void pnml_written(void)
{
    table r = net_r(3), r_text = text_of(HEAD, R_INSIDE, TAIL);
    uint64_t top = UINT64_C(1) << 63;
    size_t len = r_text.len;
    expect("R", "length", 739, len);
    pnml_write("R, exact room", 3, 3, r, len, DESK_GRANTED, 0, r_text);
    pnml_write("R, one byte more", 3, 3, r, len + 1, DESK_GRANTED, 0, r_text);
    pnml_write("R, much more", 3, 3, r, 10 * len, DESK_GRANTED, 0, r_text);
    pnml_write("R, one byte short", 3, 3, r, len - 1, DESK_SHORT_ROOM, 0, NOTHING);
    pnml_write("R, one byte of room", 3, 3, r, 1, DESK_SHORT_ROOM, 0, NOTHING);
    pnml_write("R, no room", 3, 3, r, 0, DESK_SHORT_ROOM, 0, NOTHING);

    table least = empty_table(DESK_TRANSITION_BYTES);
    add(HEAD);
    add_place(0, 0);
    add_transition(0, 0);
    add(TAIL);
    table least_text = text();
    pnml_write("the least net", 1, 0, least, least_text.len, DESK_GRANTED, 0, least_text);

    table most = full_net(64, 64, 65535), most_text = full_text(64, 64, 65535);
    expect("the largest net", "length", DESK_PNML_MAX, most_text.len);
    pnml_write("the largest net", 64, UINT64_MAX, most, DESK_PNML_MAX, DESK_GRANTED, 0, most_text);
    pnml_write("the largest net, short", 64, UINT64_MAX, most, DESK_PNML_MAX - 1, DESK_SHORT_ROOM,
               0, NOTHING);

    /* The refusals come before 12, in the order 1, 2, 3, 7. */
    for (size_t room = 0; room <= 1000; room += 1000) {
        pnml_write("places 0", 0, 3, NOTHING, room, DESK_BAD_ASK, 0, NOTHING);
        pnml_write("places 65", 65, 3, r, room, DESK_BAD_ASK, 0, NOTHING);
        pnml_write("places 259", 259, 3, r, room, DESK_BAD_ASK, 0, NOTHING);
        pnml_write("no net", 3, 8, NOTHING, room, DESK_BAD_NET_SIZE, 0, NOTHING);
        pnml_write("two places", 2, 8, r, room, DESK_BAD_TRANSITION, 1, NOTHING);
        pnml_write("a mark of 2", 3, 8, changed(r, 66, 2), room, DESK_BAD_TRANSITION, 2, NOTHING);
        pnml_write("spare byte", 3, 8, changed(r, 67, 1), room, DESK_BAD_TRANSITION, 2, NOTHING);
        pnml_write("marking beyond", 3, 8, r, room, DESK_BAD_MARKING, 0, NOTHING);
        pnml_write("bit 63 of 63", 63, top, r, room, DESK_BAD_MARKING, 0, NOTHING);
    }
    for (size_t i = 0; i < 6; i++) {
        static const size_t sizes[6] = {1, 23, 25, 71, 73, 65 * DESK_TRANSITION_BYTES};
        table other = resized(r, sizes[i]);
        pnml_write("net size", 3, 3, other, 1000, DESK_BAD_NET_SIZE, 0, NOTHING);
    }
}

/* A text with white space after every '>' but that of <text>. */
static table spaced(table from)
{
    static const char space[4] = {' ', '\t', '\r', '\n'};
    size_t count = 0, at = 0;
    for (size_t i = 0; i < from.len; i++) {
        count += from.bytes[i] == '>';
    }
    table t = empty_table(from.len + 5 * count);
    for (size_t i = 0; i < from.len; i++) {
        t.bytes[at++] = from.bytes[i];
        if (from.bytes[i] != '>' || (i >= 5 && memcmp(from.bytes + i - 5, "<text>", 6) == 0)) {
            continue;
        }
        for (size_t k = 0; k <= i % 5; k++) {
            t.bytes[at++] = (uint8_t)space[(i + k) % 4];
        }
    }
    return resized(t, at);
}

static void pnml_reread(void)
{
    table r = net_r(3), r_text = text_of(HEAD, R_INSIDE, TAIL);
    pnml_read("R, exact room", r_text, r.len, DESK_GRANTED, 0, 3, 3, r);
    pnml_read("R, one byte more", r_text, r.len + 1, DESK_GRANTED, 0, 3, 3, r);
    pnml_read("R, much more", r_text, 100 * r.len, DESK_GRANTED, 0, 3, 3, r);
    pnml_read("R, one byte short", r_text, r.len - 1, DESK_SHORT_ROOM, 0, 0, 0, NOTHING);
    pnml_read("R, one record", r_text, 24, DESK_SHORT_ROOM, 0, 0, 0, NOTHING);
    pnml_read("R, no room", r_text, 0, DESK_SHORT_ROOM, 0, 0, 0, NOTHING);
    pnml_read("R with white space", spaced(r_text), r.len, DESK_GRANTED, 0, 3, 3, r);

    table most = full_net(64, 64, 65535), most_text = full_text(64, 64, 65535);
    pnml_read("the largest net", most_text, most.len, DESK_GRANTED, 0, 64, UINT64_MAX, most);
    pnml_read("the largest net, short", most_text, most.len - 1, DESK_SHORT_ROOM, 0, 0, 0, NOTHING);
    pnml_read("the largest net with white space", spaced(most_text), most.len, DESK_GRANTED, 0, 64,
              UINT64_MAX, most);

    /* 13, then 1, then 2, then 12. */
    for (size_t room = 0; room <= 1000; room += 1000) {
        static const size_t sizes[8][3] = {{0, 0, 1}, {0, 1, 1}, {65, 1, 1}, {65, 65, 1},
                                           {300, 0, 1}, {1, 0, 2}, {64, 65, 2}, {1, 300, 2}};
        for (size_t i = 0; i < 8; i++) {
            for (size_t damage = 0; damage < 2; damage++) {
                add(HEAD);
                for (size_t p = 0; p < sizes[i][0]; p++) {
                    add_place(p, p & 1);
                }
                for (size_t t = 0; t < sizes[i][1]; t++) {
                    add_transition(t, t);
                }
                add(TAIL);
                add(damage ? "x" : "");
                table from = text();
                pnml_read("places and transitions", from, room,
                          damage ? (uint32_t)DESK_BAD_PNML : (uint32_t)sizes[i][2],
                          damage ? from.len - 1 : 0, 0, 0, NOTHING);
            }
        }
    }
    unreadable("no text", NOTHING, DESK_BAD_PNML, 0);
    pnml_read("no text and no room", NOTHING, 0, DESK_BAD_PNML, 0, 0, 0, NOTHING);
}

/* R where t1 is optional. */
static void pnml_optional(void)
{
    table r = net_r_optional(1), r_text = text_of(HEAD, R_OPTIONAL, TAIL);
    size_t len = r_text.len;
    expect("R, t1 optional", "length", 739 + 39, len);
    pnml_write("R, t1 optional", 3, 3, r, len, DESK_GRANTED, 0, r_text);
    pnml_write("R, t1 optional, short", 3, 3, r, len - 1, DESK_SHORT_ROOM, 0, NOTHING);
    pnml_read("R, t1 optional", r_text, r.len, DESK_GRANTED, 0, 3, 3, r);
    pnml_read("R, t1 optional, white space", spaced(r_text), r.len, DESK_GRANTED, 0, 3, 3, r);
}

static void cut_short(table whole)
{
    for (size_t len = 0; len < whole.len; len++) {
        unreadable("cut short", resized(whole, len), DESK_BAD_PNML, len);
    }
    give_back();
}

static void pnml_cut_short(void)
{
    cut_short(text_of(HEAD, R_INSIDE, TAIL));
    cut_short(text_of(HEAD, R_OPTIONAL, TAIL));
}

/* A text of HEAD, places, transitions, `before` and `after`, which is hopeless
 * from byte `at` of `after` on. */
typedef struct {
    size_t places, transitions;
    const char *before, *after;
    size_t at;
} damage;

#define ARC(number, source, target) \
    "<arc id=\"a" #number "\" source=\"" #source "\" target=\"" #target "\"/>"
#define PLACE "<place id=\"p0\"><initialMarking><text>"
#define TRANSITION "<transition id=\"t0\"><name><text>"
#define NAMED TRANSITION "7</text></name>"

static void pnml_damaged(void)
{
    static const damage cases[] = {
        {0, 0, "", "", 0},
        {0, 0, "", "\xA0", 0},
        {0, 0, "", "</page></net></pnml", 19},
        {0, 0, "", "</page ></net></pnml>", 6},
        {0, 0, TAIL, "\n\t \r<", 4},
        {0, 0, "", PLACE " 1", 37},
        {0, 0, "", PLACE "1 <", 38},
        {0, 0, "", PLACE "2", 37},
        {0, 0, "", PLACE "01", 38},
        {0, 0, "", PLACE "10", 38},
        {0, 0, "", PLACE "</text>", 37},
        {0, 0, "", "<place id=\"p1\"", 12},
        {0, 0, "", "<place id=\"p00\"", 13},
        {0, 0, "", "<place  id=\"p0\"", 7},
        {10, 0, "", "<place id=\"p1\"", 13},
        {10, 0, "", "<place id=\"p11\"", 13},
        {10, 0, "", "<place id=\"p100\"", 14},
        {1, 0, "", TRANSITION "65535</", 39},
        {1, 0, "", TRANSITION "65536<", 36},
        {1, 0, "", TRANSITION "65540<", 36},
        {1, 0, "", TRANSITION "655350<", 37},
        {1, 0, "", TRANSITION "00<", 33},
        {1, 0, "", TRANSITION "<", 32},
        {1, 0, "", "<transition id=\"t0\">" OPTIONAL "<name>", 21},
        {1, 0, "", TRANSITION "7</text>" OPTIONAL "</name>", 41},
        {1, 0, "", NAMED "<toolspecific  tool=", 61},
        {1, 0, "", NAMED "<toolspecific tool=\"desk\" version=\"2\"/>", 82},
        {1, 0, "", NAMED "<toolspecific tool=\"desk\" version=\"1\" />", 84},
        {1, 0, "", NAMED OPTIONAL OPTIONAL, 87},
        {1, 0, "", NAMED OPTIONAL "\n<name>", 88},
        {1, 0, "", NAMED "</transition>" OPTIONAL, 62},
        {1, 0, "", NAMED OPTIONAL "</transition>", 99},
        {0, 0, "", "<arc", 1},
        {1, 0, "", "<arc", 1},
        {0, 1, "", "<arc", 1},
        {1, 1, "", "<place", 1},
        {1, 1, ARC(0, p0, t0), "<transition", 1},
        {1, 1, ARC(0, p0, t0), "<place", 1},
        {3, 2, "", "<arc id=\"a1", 10},
        {3, 2, "", "<arc id=\"a0\" source=\"p7", 22},
        {3, 2, "", "<arc id=\"a0\" source=\"p0\" target=\"t12", 35},
        {12, 12, "", "<arc id=\"a0\" source=\"p12", 23},
        {12, 12, ARC(0, p5, t11), "<arc id=\"a1\" source=\"p4", 22},
        {12, 12, ARC(0, p5, t11), "<arc id=\"a1\" source=\"p1\"", 23},
        {12, 12, ARC(0, p5, t11), "<arc id=\"a1\" source=\"p10", 24},
        {12, 12, ARC(0, p5, t3), ARC(1, p4, t3), 34},
        {12, 12, ARC(0, p5, t3), ARC(1, p4, t1), 35},
        {12, 12, ARC(0, p5, t3), ARC(1, p4, t11), 39},
        {12, 12, ARC(0, p5, t3), ARC(1, p5, t3), 34},
        {12, 12, ARC(0, t3, p5), ARC(1, p0, t3), 34},
        {12, 12, ARC(0, t3, p5), ARC(1, t3, p5), 34},
        {12, 12, ARC(0, t3, p5), ARC(1, t3, p1), 35},
        {12, 12, ARC(0, t3, p5), ARC(1, t2, p1), 22},
        {12, 12, ARC(0, t3, p5), ARC(1, t1, p1), 23},
        {12, 12, ARC(0, t11, p5), ARC(1, p6, t11), 21},
        {12, 12, ARC(0, t11, p11), "<a", 1},
    };
    for (size_t i = 0; i < sizeof cases / sizeof cases[0]; i++) {
        const damage *c = &cases[i];
        add(HEAD);
        for (size_t p = 0; p < c->places; p++) {
            add_place(p, 0);
        }
        for (size_t t = 0; t < c->transitions; t++) {
            add_transition(t, 0);
        }
        add(c->before);
        size_t before = grown;
        add(c->after);
        unreadable(c->after, text(), DESK_BAD_PNML, before + c->at);
    }
    unreadable("a space first", text_of(" ", HEAD, TAIL), DESK_BAD_PNML, 0);
    unreadable("a declaration", text_of("<?xml version=\"1.0\"?>", HEAD, TAIL), DESK_BAD_PNML, 1);
    unreadable("a zero after the text", resized(text_of(HEAD, TAIL, ""), 160), DESK_BAD_PNML, 159);
}

/* Written trees */

typedef uint32_t write_call(const uint8_t *, size_t, const uint8_t *, size_t, const uint8_t *,
                            size_t, uint8_t *, size_t, uint64_t *, uint32_t *, uint64_t *);

/* One call. Side and nodes are 0 where it is refused; what is written is accepted
 * for its side alone. */
static void write_tree_by(write_call *call, const char *what, table ask, table net, table formulas,
                          uint8_t *room, size_t room_len, uint32_t number, uint64_t record,
                          uint32_t side, uint64_t nodes)
{
    uint64_t found_record = UNWRITTEN;
    uint32_t found_side = (uint32_t)UNWRITTEN;
    uint64_t found_nodes = UNWRITTEN;
    expect(what, "number", number,
           call(ask.bytes, ask.len, net.bytes, net.len, formulas.bytes, formulas.len, room,
                room_len, &found_record, &found_side, &found_nodes));
    expect(what, "record", record, found_record);
    expect(what, "side", side, found_side);
    expect(what, "nodes", nodes, found_nodes);
    if (number == DESK_GRANTED) {
        table written = {room, (size_t)nodes * DESK_NODE_BYTES};
        check(what, changed(ask, 11, (uint8_t)side), net, formulas, written, DESK_GRANTED, nodes);
        check(what, changed(ask, 11, (uint8_t)(1 - side)), net, formulas, written,
              DESK_FAULT_ROOT, 0);
    }
}

/* `tree` is NOTHING where the call is refused. The function itself is called too
 * where no pointer is NULL. */
static void write_tree(const char *what, table ask, table net, table formulas, size_t room_len,
                       uint32_t number, uint64_t record, uint32_t side, table tree)
{
    int null = ask.bytes == NULL || net.bytes == NULL || formulas.bytes == NULL;
    for (size_t behind = 0; behind <= BEHIND; behind += BEHIND) {
        uint8_t *room = filled(room_len + behind);
        write_call *call = null || room == NULL || behind == 0 ? desk_write_tree_bytes
                                                               : desk_write_tree;
        write_tree_by(call, what, ask, net, formulas, room, room_len, number, record, side,
                      tree.len / DESK_NODE_BYTES);
        stands(what, room, room_len + behind, tree);
        free(room);
    }
}

/* A refused writing. */
static void unwritten(const char *what, table ask, table net, table formulas, size_t room_len,
                      uint32_t number, uint64_t record)
{
    write_tree(what, ask, net, formulas, room_len, number, record, 0, NOTHING);
}

/* R's formulas, then 3 = step(2) of 1, 4 = not 3, 5 = and(3, 1), 6 = and(1, 3),
 * 7 = and(0, 3), 8 = and(7, 3). */
static table formulas_written(void)
{
    static const uint8_t rows[6][4] = {{3, 1, 0, 2}, {1, 3, 0, 0}, {2, 3, 1, 0},
                                       {2, 1, 3, 0}, {2, 0, 3, 0}, {2, 7, 3, 0}};
    table t = resized(formulas_r(), 9 * DESK_FORMULA_BYTES);
    for (size_t i = 0; i < 6; i++) {
        put_formula(t.bytes + (3 + i) * DESK_FORMULA_BYTES, rows[i][0], rows[i][1], rows[i][2],
                    rows[i][3]);
    }
    return t;
}

/* A written node: no anchor, kept, phase or round. */
static node plain_node(uint64_t marking, uint16_t formula, uint8_t side, uint8_t rule,
                       uint8_t transition, uint32_t parent, uint32_t first, uint8_t children)
{
    node n = {marking, 0, 0, parent, first, formula, children, rule, side, 0, 0, transition};
    return n;
}

static void trees_written(void)
{
    enum { H = DESK_HOLDS, F = DESK_FAILS };
    table formulas = formulas_written();
    table nets[2] = {net_r(3), net_r_optional(1)};
    const node truth[1] = {plain_node(3, 0, H, 15, 0, 0, 0, 0)};
    const node one_fails[1] = {plain_node(3, 1, F, 24, 0, 0, 0, 0)};
    const node one_holds[2] = {plain_node(5, 1, H, 2, 2, 0, 1, 1),
                               plain_node(1, 0, H, 15, 0, 0, 0, 0)};
    const node four[4] = {
        plain_node(3, 4, F, 21, 0, 0, 1, 1),
        plain_node(3, 3, H, 2, 1, 0, 2, 1),
        plain_node(5, 1, H, 2, 2, 1, 3, 1),
        plain_node(1, 0, H, 15, 0, 2, 0, 0),
    };
    const node five[2] = {plain_node(3, 5, F, 23, 0, 0, 1, 1),
                          plain_node(3, 1, F, 24, 0, 0, 0, 0)};
    const node six[2] = {plain_node(3, 6, F, 22, 0, 0, 1, 1), plain_node(3, 1, F, 24, 0, 0, 0, 0)};
    /* Left with all below it, then right. */
    const node eight[9] = {
        plain_node(3, 8, H, 1, 0, 0, 1, 2), plain_node(3, 7, H, 1, 0, 0, 3, 2),
        plain_node(3, 3, H, 2, 1, 0, 7, 1), plain_node(3, 0, H, 15, 0, 1, 0, 0),
        plain_node(3, 3, H, 2, 1, 1, 5, 1), plain_node(5, 1, H, 2, 2, 4, 6, 1),
        plain_node(1, 0, H, 15, 0, 5, 0, 0), plain_node(5, 1, H, 2, 2, 2, 8, 1),
        plain_node(1, 0, H, 15, 0, 7, 0, 0),
    };
    const struct {
        uint64_t marking, formula;
        const node *nodes;
        size_t count;
    } cases[7] = {{3, 0, truth, 1}, {3, 1, one_fails, 1}, {5, 1, one_holds, 2}, {3, 4, four, 4},
                  {3, 5, five, 2},  {3, 6, six, 2},       {3, 8, eight, 9}};
    for (size_t i = 0; i < 7; i++) {
        table tree = tree_of(cases[i].nodes, cases[i].count);
        uint32_t side = cases[i].nodes[0].side;
        for (uint8_t asked = 0; asked <= 1; asked++) {
            table ask = ask_r(cases[i].marking, cases[i].formula, 3, asked), net = nets[asked];
            write_tree("exact room", ask, net, formulas, tree.len, DESK_GRANTED, 0, side, tree);
            write_tree("39 bytes more", ask, net, formulas, tree.len + 39, DESK_GRANTED, 0, side,
                       tree);
            write_tree("much more", ask, net, formulas, 1000, DESK_GRANTED, 0, side, tree);
            unwritten("one byte short", ask, net, formulas, tree.len - 1, DESK_SHORT_ROOM, 0);
            unwritten("no room", ask, net, formulas, 0, DESK_SHORT_ROOM, 0);
        }
    }
}

/* The refusals come in the order 1, 2, 3, 4, 5, 7, 14, 12. */
static void trees_refused(void)
{
    table net = net_r(3), formulas = formulas_written();
    table ask = ask_r(3, 2, 3, DESK_HOLDS), beyond = ask_r(8, 2, 3, DESK_HOLDS);
    for (size_t room = 0; room <= 1000; room += 1000) {
        unwritten("nothing at all", NOTHING, NOTHING, NOTHING, room, DESK_BAD_ASK, 0);
        unwritten("side 2", ask_r(3, 2, 3, 2), NOTHING, NOTHING, room, DESK_BAD_ASK, 0);
        unwritten("places 65", ask_r(3, 2, 65, 0), net, formulas, room, DESK_BAD_ASK, 0);
        unwritten("ask cut", resized(ask, 11), net, formulas, room, DESK_BAD_ASK, 0);
        unwritten("no net", beyond, NOTHING, NOTHING, room, DESK_BAD_NET_SIZE, 0);
        unwritten("net cut", beyond, resized(net, 71), NOTHING, room, DESK_BAD_NET_SIZE, 0);
        unwritten("spare byte", beyond, changed(net, 71, 1), NOTHING, room, DESK_BAD_TRANSITION,
                  2);
        unwritten("no formulas", beyond, net, NOTHING, room, DESK_BAD_FORMULAS_SIZE, 0);
        unwritten("operator 7", beyond, net, changed(formulas, 24, 7), room, DESK_BAD_FORMULA, 3);
        unwritten("marking beyond", beyond, net, formulas, room, DESK_BAD_MARKING, 0);
        unwritten("formula beyond", ask_r(3, 9, 3, 0), net, formulas, room, DESK_BAD_MARKING, 0);
        unwritten("operator 5", ask, net, formulas, room, DESK_HAS_UNTIL, 0);
        unwritten("operator 4", ask, net, changed(formulas, 16, 4), room, DESK_HAS_UNTIL, 0);
        unwritten("an until below", ask_r(3, 4, 3, 0), net, changed(formulas, 26, 2), room,
                  DESK_HAS_UNTIL, 0);
        unwritten("an until on the right", ask_r(3, 8, 3, 0), net, changed(formulas, 68, 2), room,
                  DESK_HAS_UNTIL, 0);
    }
}

/* 15 times "and" of the record before with itself are 65,535 nodes, each "not" of
 * that is one more. */
static void trees_at_the_limit(void)
{
    table net = net_r(3);
    for (size_t nots = 0; nots <= 2; nots++) {
        table formulas = empty_table((16 + nots) * DESK_FORMULA_BYTES);
        for (size_t k = 1; k < 16 + nots; k++) {
            put_formula(formulas.bytes + k * DESK_FORMULA_BYTES, k < 16 ? 2 : 1, k - 1,
                        k < 16 ? k - 1 : 0, 0);
        }
        table ask = ask_r(3, 15 + nots, 3, DESK_HOLDS);
        uint64_t nodes = 65535 + nots;
        size_t len = (size_t)nodes * DESK_NODE_BYTES;
        uint8_t *room = filled(len);
        int fits = len <= DESK_TREE_MAX;
        write_tree_by(desk_write_tree, "at the limit", ask, net, formulas, room, len - 1,
                      DESK_SHORT_ROOM, 0, 0, 0);
        stands("at the limit", room, len, NOTHING);
        write_tree_by(desk_write_tree, "at the limit", ask, net, formulas, room, len,
                      fits ? DESK_GRANTED : DESK_SHORT_ROOM, 0,
                      fits && nots == 1 ? DESK_FAILS : DESK_HOLDS, fits ? nodes : 0);
        free(room);
    }
}

/* Converted category files */

typedef uint32_t convert_call(const uint8_t *, size_t, uint8_t *, size_t, uint64_t *, uint64_t *);

/* `rewritten` is 0 and `after` NOTHING where the call is refused. The function itself
 * is called too where no pointer is NULL. */
static void convert(const char *what, table file, size_t room_len, uint32_t number,
                    uint64_t record, uint64_t rewritten, table after)
{
    for (size_t behind = 0; behind <= BEHIND; behind += BEHIND) {
        uint8_t *room = filled(room_len + behind);
        uint64_t found_record = UNWRITTEN;
        uint64_t found_rewritten = UNWRITTEN;
        convert_call *call = file.bytes == NULL || room == NULL || behind == 0
                                 ? desk_convert_categories_bytes
                                 : desk_convert_categories;
        expect(what, "number", number,
               call(file.bytes, file.len, room, room_len, &found_record, &found_rewritten));
        expect(what, "record", record, found_record);
        expect(what, "rewritten", rewritten, found_rewritten);
        stands(what, room, room_len + behind, after);
        free(room);
    }
}

/* A refused conversion. */
static void unconverted(const char *what, table file, size_t room_len, uint32_t number,
                        uint64_t record)
{
    convert(what, file, room_len, number, record, 0, NOTHING);
}

/* A good file in rooms of several lengths. What it becomes is in order and final. */
static void converts(const char *what, table file, uint64_t rewritten, table after)
{
    static const size_t more[4] = {0, 1, DESK_CATEGORY_BYTES, 1000};
    for (size_t i = 0; i < 4; i++) {
        convert(what, file, file.len + more[i], DESK_GRANTED, 0, rewritten, after);
    }
    for (size_t less = 1; less <= file.len; less += file.len - 1) {
        unconverted(what, file, file.len - less, DESK_SHORT_ROOM, 0);
    }
    categories(what, after, after, DESK_GRANTED, 0);
    convert(what, after, after.len, DESK_GRANTED, 0, 0, after);
}

typedef struct {
    uint16_t action;
    uint8_t kind;
    uint16_t lender;
    const char *text;
} category;

static table file_of(const category *rows, size_t count)
{
    table t = empty_table(count * DESK_CATEGORY_BYTES);
    for (size_t i = 0; i < count; i++) {
        put_category(t.bytes + i * DESK_CATEGORY_BYTES, rows[i].action, rows[i].kind,
                     rows[i].lender, rows[i].text);
    }
    return t;
}

static void conversions(void)
{
    static const category lent[6] = {
        {0, 1, 65535, ""}, {1, 0, 0, "x"}, {2, 1, 1, ""},
        {260, 1, 65535, ""}, {65534, 1, 1, ""}, {65535, 0, 0, LONGEST},
    };
    static const category owned[6] = {
        {0, 0, 0, LONGEST}, {1, 0, 0, "x"}, {2, 0, 0, "x"},
        {260, 0, 0, LONGEST}, {65534, 0, 0, "x"}, {65535, 0, 0, LONGEST},
    };
    table house = house_labels(0), translation = translated_labels(0);
    converts("a lender behind", house_labels(1), 1, house);
    converts("a lender before", translated_labels(1), 1, translation);
    converts("several borrowers", file_of(lent, 6), 4, file_of(owned, 6));
    converts("no borrower", house, 0, house);
    converts("no borrower in six", file_of(owned, 6), 0, file_of(owned, 6));
    convert("nothing into nothing", NOTHING, 0, DESK_GRANTED, 0, 0, NOTHING);
    convert("nothing into room", NOTHING, 100, DESK_GRANTED, 0, 0, NOTHING);
    convert("an empty file", empty_table(0), 100, DESK_GRANTED, 0, 0, NOTHING);
}

/* The refusals come in the order 9, 10, 12; kind 1 is good where it is good by
 * document 01. */
static void conversions_refused(void)
{
    table good = house_labels(1), six = resized(good, 6 * DESK_CATEGORY_BYTES);
    put_category(six.bytes + 96, 8, 1, 2, "");
    static const struct {
        const char *what;
        size_t at;
        uint8_t value;
        uint64_t record;
    } cases[] = {
        {"kind 2", 34, 2, 1},
        {"kind 0 with a lender", 34, 0, 1},
        {"byte 3", 35, 1, 1},
        {"byte 6", 38, 1, 1},
        {"byte 7", 39, 128, 1},
        {"a text beside the lender", 40, 'x', 1},
        {"a text's last byte", 63, 1, 1},
        {"no such lender", 36, 8, 1},
        {"no such lender, high byte", 37, 7, 1},
        {"a borrower of itself", 36, 2, 1},
        {"a lender of kind 2", 66, 2, 1},
        {"a lender of kind 1", 66, 1, 1},
        {"action not above the one before", 32, 1, 1},
        {"a lender with a spare byte", 67, 1, 2},
        {"a lender with a lender", 68, 1, 2},
        {"a lender with a gap", 73, 0, 2},
        {"a lender with a control byte", 72, 0x1F, 2},
        {"a lower record", 8, 0x7F, 0},
    };
    for (size_t room = 0; room <= 1000; room += 1000) {
        for (size_t i = 0; i < sizeof cases / sizeof cases[0]; i++) {
            table faulty = changed(good, cases[i].at, cases[i].value);
            unconverted(cases[i].what, faulty, room, DESK_BAD_CATEGORY, cases[i].record);
        }
        unconverted("a borrower of a borrower", resized(six, 128), room, DESK_BAD_CATEGORY, 3);
        unconverted("empty records", six, room, DESK_BAD_CATEGORY, 3);
        unconverted("lender cut off", resized(good, 64), room, DESK_BAD_CATEGORY, 1);
        unconverted("lower of two", changed(changed(good, 73, 0), 35, 1), room,
                    DESK_BAD_CATEGORY, 1);
        unconverted("part of a record", resized(changed(good, 34, 2), 95), room,
                    DESK_BAD_CATEGORIES_SIZE, 0);
        unconverted("a byte more", resized(good, 97), room, DESK_BAD_CATEGORIES_SIZE, 0);
        unconverted("one byte", resized(good, 1), room, DESK_BAD_CATEGORIES_SIZE, 0);
    }
}

/* All records but the last borrow from it. */
static void conversions_at_the_limit(void)
{
    for (size_t records = 1999; records <= 2001; records++) {
        table before = empty_table(records * DESK_CATEGORY_BYTES);
        table after = empty_table(records * DESK_CATEGORY_BYTES);
        for (size_t i = 0; i < records; i++) {
            int last = i == records - 1;
            size_t at = i * DESK_CATEGORY_BYTES;
            put_category(before.bytes + at, i, last ? 0 : 1, last ? 0 : records - 1,
                         last ? LONGEST : "");
            put_category(after.bytes + at, i, 0, 0, LONGEST);
        }
        if (records <= DESK_CATEGORIES_MAX) {
            converts("a full file", before, records - 1, after);
        } else {
            unconverted("too many", before, before.len, DESK_BAD_CATEGORIES_SIZE, 0);
            unconverted("too many, no room", after, 0, DESK_BAD_CATEGORIES_SIZE, 0);
        }
    }
}

/* Two nets side by side */

typedef uint32_t join_call(uint32_t, uint64_t, const uint8_t *, size_t, uint32_t, uint64_t,
                           const uint8_t *, size_t, uint8_t *, size_t, uint64_t *, uint32_t *,
                           uint64_t *, uint64_t *);

/* A net with its marking. */
typedef struct {
    uint32_t places;
    uint64_t marking;
    table net;
} half;

static half half_of(uint32_t places, uint64_t marking, table net)
{
    half h = {places, marking, net};
    return h;
}

/* The function itself is called too where no pointer is NULL. */
static void join(const char *what, half first, half second, size_t room_len, uint32_t number,
                 uint64_t record, half both)
{
    for (size_t behind = 0; behind <= BEHIND; behind += BEHIND) {
        uint8_t *room = filled(room_len + behind);
        uint64_t found_record = UNWRITTEN;
        uint32_t found_places = (uint32_t)UNWRITTEN;
        uint64_t found_marking = UNWRITTEN;
        uint64_t found_length = UNWRITTEN;
        int null = first.net.bytes == NULL || second.net.bytes == NULL || room == NULL;
        join_call *call = null || behind == 0 ? desk_join_bytes : desk_join;
        expect(what, "number", number,
               call(first.places, first.marking, first.net.bytes, first.net.len, second.places,
                    second.marking, second.net.bytes, second.net.len, room, room_len,
                    &found_record, &found_places, &found_marking, &found_length));
        expect(what, "record", record, found_record);
        expect(what, "places", both.places, found_places);
        expect(what, "marking", both.marking, found_marking);
        expect(what, "length", both.net.len, found_length);
        stands(what, room, room_len + behind, both.net);
        free(room);
    }
}

/* A refused pair. */
static void unjoined(const char *what, half first, half second, size_t room_len, uint32_t number,
                     uint64_t record)
{
    join(what, first, second, room_len, number, record, half_of(0, 0, NOTHING));
}

/* Fires a transition in its half, and in the joint net, where the half's places begin at
 * `shift` and the other half is marked with `beside`. */
static void fires_as_before(const char *what, half own, uint32_t transition, half both,
                            uint32_t joint_transition, uint32_t shift, uint64_t beside)
{
    uint64_t record = UNWRITTEN, after = UNWRITTEN, missing = UNWRITTEN, occupied = UNWRITTEN;
    uint32_t number = desk_fire_bytes(own.places, own.marking, own.net.bytes, own.net.len,
                                      transition, &record, &after, &missing, &occupied);
    after = number == DESK_GRANTED ? after << shift | beside : 0;
    fire_with(what, both.places, both.marking, both.net, joint_transition, number, record, after,
              missing << shift, occupied << shift);
}

/* Every transition of the joint net does what it does in its half. */
static void halves_stay(const char *what, half first, half second, half both)
{
    uint32_t low = (uint32_t)(first.net.len / DESK_TRANSITION_BYTES);
    uint32_t high = (uint32_t)(second.net.len / DESK_TRANSITION_BYTES);
    for (uint32_t t = 0; t < low; t++) {
        fires_as_before(what, first, t, both, t, 0, second.marking << first.places);
    }
    for (uint32_t t = 0; t < high; t++) {
        fires_as_before(what, second, t, both, low + t, first.places, first.marking);
    }
    fire(what, both.places, both.marking, both.net, low + high, DESK_NO_TRANSITION, 0, 0);
}

/* Two good nets in rooms of several lengths. The check finds no fault in what they become. */
static void joins(const char *what, half first, half second, half both)
{
    static const size_t more[4] = {0, 1, DESK_TRANSITION_BYTES, 1000};
    size_t len = first.net.len + second.net.len;
    for (size_t i = 0; i < 4; i++) {
        join(what, first, second, len + more[i], DESK_GRANTED, 0, both);
    }
    const size_t less[4] = {0, first.net.len, len - DESK_TRANSITION_BYTES, len - 1};
    for (size_t i = 0; i < 4; i++) {
        unjoined(what, first, second, less[i], DESK_SHORT_ROOM, 0);
    }
    halves_stay(what, first, second, both);
    const node leaf = {both.marking, 0, 0, 0, 0, 0, 0, 15, DESK_HOLDS, 0, 0, 0};
    check(what, ask_r(both.marking, 0, (uint8_t)both.places, DESK_HOLDS), both.net, formulas_r(),
          tree_of(&leaf, 1), DESK_GRANTED, 1);
}

/* A ring of so many places and transitions; the last transitions go round once more. A
 * token in the last place. */
static half ring(uint32_t places, size_t transitions)
{
    table t = empty_table(transitions * DESK_TRANSITION_BYTES);
    for (size_t i = 0; i < transitions; i++) {
        put_transition(t.bytes + i * DESK_TRANSITION_BYTES, UINT64_C(1) << i % places,
                       UINT64_C(1) << (i + 1) % places, 1000 * i);
    }
    return half_of(places, UINT64_C(1) << (places - 1), t);
}

/* The two rings as one net. */
static half two_rings(uint32_t low, size_t low_count, uint32_t high, size_t high_count)
{
    table t = empty_table((low_count + high_count) * DESK_TRANSITION_BYTES);
    memcpy(t.bytes, ring(low, low_count).net.bytes, low_count * DESK_TRANSITION_BYTES);
    for (size_t i = 0; i < high_count; i++) {
        put_transition(t.bytes + (low_count + i) * DESK_TRANSITION_BYTES,
                       UINT64_C(1) << (low + i % high), UINT64_C(1) << (low + (i + 1) % high),
                       1000 * i);
    }
    return half_of(low + high, UINT64_C(1) << (low - 1) | UINT64_C(1) << (low + high - 1), t);
}

static void nets_joined(void)
{
    table r = net_r(3), r_optional = net_r_optional(1), both = empty_table(6 * 24);
    static const uint64_t rows[6][3] = {{1, 1, 1}, {2, 4, 2}, {4, 0, 3},
                                        {8, 8, 1}, {16, 32, 2}, {32, 0, 3}};
    for (size_t i = 0; i < 6; i++) {
        put_transition(both.bytes + i * 24, rows[i][0], rows[i][1], rows[i][2]);
    }
    joins("R beside itself", half_of(3, 3, r), half_of(3, 3, r), half_of(6, 27, both));
    for (uint64_t low = 0; low < 8; low++) {
        for (uint64_t high = 0; high < 8; high++) {
            half first = half_of(3, low, r), second = half_of(3, high, net_r(3));
            half joint = half_of(6, low | high << 3, both);
            join("R beside R", first, second, both.len, DESK_GRANTED, 0, joint);
            halves_stay("R beside R", first, second, joint);
        }
    }
    for (size_t len = 0; len <= both.len; len++) {
        int fits = len == both.len;
        join("R beside R, room", half_of(3, 3, r), half_of(3, 3, r), len,
             fits ? DESK_GRANTED : DESK_SHORT_ROOM, 0,
             fits ? half_of(6, 27, both) : half_of(0, 0, NOTHING));
    }
    table first = changed(both, 24 + MARK, 1), second = changed(both, 96 + MARK, 1);
    joins("optional in the first", half_of(3, 3, r_optional), half_of(3, 3, r),
          half_of(6, 27, first));
    joins("optional in the second", half_of(3, 3, r), half_of(3, 3, r_optional),
          half_of(6, 27, second));
    joins("optional in both", half_of(3, 3, r_optional), half_of(3, 3, r_optional),
          half_of(6, 27, changed(first, 96 + MARK, 1)));

    /* A transition that touches no place, and places that no transition touches. */
    table nothing = empty_table(DESK_TRANSITION_BYTES), mixed = resized(r, 4 * 24);
    put_transition(nothing.bytes, 0, 0, 65535);
    put_transition(mixed.bytes + 72, 0, 0, 65535);
    joins("no place touched", half_of(3, 3, r), half_of(1, 1, nothing), half_of(4, 11, mixed));
    joins("61 places more", half_of(3, 7, r), half_of(61, 0, nothing), half_of(64, 7, mixed));
}

/* Sums of exactly 64 places and transitions, and of one more. */
static void joins_at_the_limit(void)
{
    static const uint32_t places[5][2] = {{32, 32}, {1, 63}, {63, 1}, {5, 59}, {40, 24}};
    for (size_t i = 0; i < 5; i++) {
        for (size_t k = 0; k < 5; k++) {
            uint32_t low = places[i][0], high = places[i][1];
            size_t low_count = places[k][0], high_count = places[k][1];
            half first = ring(low, low_count), second = ring(high, high_count);
            joins("sums of 64", first, second, two_rings(low, low_count, high, high_count));
            half wider = ring(high + 1, high_count), longer = ring(high, high_count + 1);
            size_t room = 64 * DESK_TRANSITION_BYTES;
            for (size_t len = 0; len <= 2 * room; len += room) {
                unjoined("65 places", first, wider, len, DESK_TOO_LARGE, 0);
                unjoined("65 places", wider, first, len, DESK_TOO_LARGE, 0);
                unjoined("65 transitions", first, longer, len, DESK_TOO_LARGE, 0);
                unjoined("65 transitions", longer, first, len, DESK_TOO_LARGE, 0);
            }
            give_back();
        }
    }
    half least = ring(1, 1), widest = ring(64, 1), longest = ring(1, 64), most = ring(64, 64);
    for (size_t room = 0; room <= 4000; room += 4000) {
        unjoined("64 places and 1", widest, least, room, DESK_TOO_LARGE, 0);
        unjoined("1 place and 64", least, widest, room, DESK_TOO_LARGE, 0);
        unjoined("64 transitions and 1", longest, least, room, DESK_TOO_LARGE, 0);
        unjoined("1 transition and 64", least, longest, room, DESK_TOO_LARGE, 0);
        unjoined("twice the most", most, most, room, DESK_TOO_LARGE, 0);
    }
}

/* A half's refusals come in the order 1, 2, 3, 7, those of the first before those of the
 * second, and all of them before 15 and 12. */
static void joins_refused(void)
{
    table r = net_r(3);
    static const struct {
        const char *what;
        uint32_t places;
        uint64_t marking;
        size_t len, at;
        uint8_t value;
        uint32_t number;
        uint64_t record;
    } cases[] = {
        {"0 places", 0, 8, 0, 0, 0, DESK_BAD_ASK, 0},
        {"65 places", 65, 8, 72, MARK, 2, DESK_BAD_ASK, 0},
        {"259 places", 259, 3, 72, 0, 1, DESK_BAD_ASK, 0},
        {"the most places", UINT32_MAX, 3, 72, 0, 1, DESK_BAD_ASK, 0},
        {"no records", 3, 8, 0, 0, 0, DESK_BAD_NET_SIZE, 0},
        {"part of a record", 3, 8, 71, MARK, 2, DESK_BAD_NET_SIZE, 0},
        {"a byte more", 3, 3, 73, 0, 1, DESK_BAD_NET_SIZE, 0},
        {"65 records", 3, 3, 65 * 24, 0, 1, DESK_BAD_NET_SIZE, 0},
        {"2 places", 2, 8, 72, 0, 1, DESK_BAD_TRANSITION, 1},
        {"pre beyond", 3, 8, 72, 24, 10, DESK_BAD_TRANSITION, 1},
        {"post beyond", 3, 3, 72, 48 + 8, 8, DESK_BAD_TRANSITION, 2},
        {"post far beyond", 3, 3, 72, 15, 128, DESK_BAD_TRANSITION, 0},
        {"mark 2", 3, 8, 72, 24 + MARK, 2, DESK_BAD_TRANSITION, 1},
        {"mark 255", 3, 3, 72, 48 + MARK, 255, DESK_BAD_TRANSITION, 2},
        {"first spare byte", 3, 3, 72, MARK + 1, 1, DESK_BAD_TRANSITION, 0},
        {"last spare byte", 3, 3, 72, 71, 128, DESK_BAD_TRANSITION, 2},
        {"marking beyond", 3, 8, 72, 0, 1, DESK_BAD_MARKING, 0},
        {"marking far beyond", 3, UINT64_C(1) << 63, 72, 0, 1, DESK_BAD_MARKING, 0},
    };
    enum { CASES = sizeof cases / sizeof cases[0] };
    half faulty[CASES], good[2] = {half_of(3, 3, r), ring(64, 64)};
    for (size_t i = 0; i < CASES; i++) {
        table net = NOTHING;
        if (cases[i].len > 0) {
            net = changed(resized(r, cases[i].len), cases[i].at, cases[i].value);
        }
        faulty[i] = half_of(cases[i].places, cases[i].marking, net);
    }
    for (size_t room = 0; room <= 4000; room += 4000) {
        for (size_t i = 0; i < CASES; i++) {
            const char *what = cases[i].what;
            uint32_t number = cases[i].number;
            uint64_t record = cases[i].record;
            for (size_t k = 0; k < 2; k++) {
                unjoined(what, faulty[i], good[k], room, number, record);
                unjoined(what, good[k], faulty[i], room, number, record);
            }
            for (size_t k = 0; k < CASES; k++) {
                unjoined(what, faulty[i], faulty[k], room, number, record);
            }
        }
    }
    unjoined("no room", good[0], good[0], 0, DESK_SHORT_ROOM, 0);
}

/* Room in the formula table */

typedef uint32_t save_call(const uint8_t *, size_t, const uint8_t *, size_t, const uint8_t *,
                           size_t, const uint8_t *, size_t, uint8_t *, size_t, uint8_t *, size_t,
                           uint8_t *, size_t, uint64_t *, uint64_t *);

/* The four tables of a tree. */
typedef struct {
    table ask, net, formulas, tree;
} tables;

static tables tables_of(table ask, table net, table formulas, table tree)
{
    tables t = {ask, net, formulas, tree};
    return t;
}

static const tables NO_TABLES = {{NULL, 0}, {NULL, 0}, {NULL, 0}, {NULL, 0}};

/* The lengths of the rooms for the ask, the formulas and the tree. */
typedef struct {
    size_t len[3];
} lengths;

static lengths lengths_of(tables t, size_t more)
{
    lengths l = {{t.ask.len + more, t.formulas.len + more, t.tree.len + more}};
    return l;
}

/* A room inside filled bytes, `around` of them on each side. */
typedef struct {
    uint8_t *whole, *room;
} inside;

static inside filled_around(size_t len, size_t around)
{
    uint8_t *whole = filled(len + 2 * around);
    inside i = {whole, whole != NULL ? whole + around : NULL};
    return i;
}

/* `after` is NO_TABLES where the call is refused. The function itself is called too where
 * no pointer is NULL. */
static void save(const char *what, tables t, lengths rooms, uint32_t number, uint64_t place,
                 tables after)
{
    const table written[3] = {after.ask, after.formulas, after.tree};
    int null = t.ask.bytes == NULL || t.net.bytes == NULL || t.formulas.bytes == NULL ||
               t.tree.bytes == NULL;
    for (size_t around = 0; around <= BEHIND; around += BEHIND) {
        inside in[3];
        for (size_t i = 0; i < 3; i++) {
            in[i] = filled_around(rooms.len[i], around);
        }
        uint64_t found_place = UNWRITTEN;
        uint64_t found_count = UNWRITTEN;
        save_call *call = null || around == 0 ? desk_save_room_bytes : desk_save_room;
        expect(what, "number", number,
               call(t.ask.bytes, t.ask.len, t.net.bytes, t.net.len, t.formulas.bytes,
                    t.formulas.len, t.tree.bytes, t.tree.len, in[0].room, rooms.len[0],
                    in[1].room, rooms.len[1], in[2].room, rooms.len[2], &found_place,
                    &found_count));
        expect(what, "place", place, found_place);
        expect(what, "count", after.formulas.len / DESK_FORMULA_BYTES, found_count);
        for (size_t i = 0; i < 3; i++) {
            stands(what, in[i].whole, around, NOTHING);
            stands(what, in[i].room, rooms.len[i] + around, written[i]);
            free(in[i].whole);
        }
    }
}

/* A refused call. */
static void unsaved(const char *what, tables t, lengths rooms, uint32_t number, uint64_t place)
{
    save(what, t, rooms, number, place, NO_TABLES);
}

/* An accepted tree in rooms of several lengths. The check accepts what it becomes, which
 * stays the same. */
static void saves(const char *what, tables t, tables after)
{
    static const size_t more[4] = {0, 1, DESK_NODE_BYTES, 1000};
    for (size_t i = 0; i < 4; i++) {
        save(what, t, lengths_of(after, more[i]), DESK_GRANTED, 0, after);
        for (size_t room = 0; room < 3; room++) {
            lengths rooms = lengths_of(after, more[i]), none = rooms;
            rooms.len[room] -= more[i] + 1;
            none.len[room] = 0;
            unsaved(what, t, rooms, DESK_SHORT_ROOM, 0);
            unsaved(what, t, none, DESK_SHORT_ROOM, 0);
        }
    }
    unsaved(what, t, lengths_of(NO_TABLES, 0), DESK_SHORT_ROOM, 0);
    save(what, t, lengths_of(t, 0), DESK_GRANTED, 0, after);
    save(what, after, lengths_of(after, 0), DESK_GRANTED, 0, after);
    check(what, after.ask, after.net, after.formulas, after.tree, DESK_GRANTED,
          after.tree.len / DESK_NODE_BYTES);
}

/* The same tables with formula k numbered numbers[k]; below 256. */
static tables renumbered(tables t, table formulas, const uint8_t *numbers)
{
    tables new_tables = {resized(t.ask, t.ask.len), t.net, formulas, resized(t.tree, t.tree.len)};
    new_tables.ask.bytes[8] = numbers[t.ask.bytes[8]];
    for (size_t at = 32; at < t.tree.len; at += DESK_NODE_BYTES) {
        new_tables.tree.bytes[at] = numbers[t.tree.bytes[at]];
    }
    return new_tables;
}

/* A formula table from operator, left, right and action. */
static table formulas_of(const uint8_t (*rows)[4], size_t count)
{
    table t = empty_table(count * DESK_FORMULA_BYTES);
    for (size_t i = 0; i < count; i++) {
        put_formula(t.bytes + i * DESK_FORMULA_BYTES, rows[i][0], rows[i][1], rows[i][2],
                    rows[i][3]);
    }
    return t;
}

static tables tables_r(void)
{
    return tables_of(ask_r(3, 2, 3, DESK_HOLDS), net_r(3), formulas_r(), holds_tree());
}

/* R's formulas as these records, with dead ones before, between and behind. */
static const uint8_t DEAD_NUMBERS[3] = {1, 3, 5};

static tables tables_r_dead(void)
{
    static const uint8_t rows[8][4] = {{0, 0, 0, 0}, {0, 0, 0, 0}, {1, 1, 0, 0}, {3, 1, 0, 3},
                                       {2, 2, 3, 0}, {5, 1, 3, 0}, {4, 5, 4, 0}, {3, 6, 0, 2}};
    return renumbered(tables_r(), formulas_of(rows, 8), DEAD_NUMBERS);
}

static void tables_saved(void)
{
    tables r = tables_r(), dead = tables_r_dead();
    saves("R, all reached", r, r);
    saves("R, dead records", dead, r);
    static const uint8_t before[4][4] = {{0, 0, 0, 0}, {0, 0, 0, 0}, {3, 1, 0, 3}, {5, 1, 2, 0}};
    static const uint8_t between[4][4] = {{0, 0, 0, 0}, {1, 0, 0, 0}, {3, 0, 0, 3}, {5, 0, 2, 0}};
    static const uint8_t behind[4][4] = {{0, 0, 0, 0}, {3, 0, 0, 3}, {5, 0, 1, 0}, {5, 2, 2, 0}};
    static const uint8_t numbers[3][3] = {{1, 2, 3}, {0, 2, 3}, {0, 1, 2}};
    saves("dead before", renumbered(r, formulas_of(before, 4), numbers[0]), r);
    saves("dead between", renumbered(r, formulas_of(between, 4), numbers[1]), r);
    saves("dead behind", renumbered(r, formulas_of(behind, 4), numbers[2]), r);

    /* The claim that fails, with rules 31, 32, 24 and 33. */
    tables one = tables_of(ask_r(1, 2, 1, DESK_FAILS), net_r(1), formulas_r(), loop_tree(1, 1, 0));
    saves("one place, all reached", one, one);
    saves("one place, dead records", renumbered(one, dead.formulas, DEAD_NUMBERS), one);
}

/* The check's own answers, and 12 after them. */
static void saves_refused(void)
{
    tables t = tables_r_dead();
    table beyond = changed(t.ask, 0, 11);
    const struct {
        const char *what;
        tables t;
        uint32_t number;
        uint64_t place;
    } cases[] = {
        {"nothing at all", NO_TABLES, DESK_BAD_ASK, 0},
        {"side 2", tables_of(changed(t.ask, 11, 2), t.net, t.formulas, t.tree), DESK_BAD_ASK, 0},
        {"no net", tables_of(beyond, NOTHING, NOTHING, NOTHING), DESK_BAD_NET_SIZE, 0},
        {"spare byte", tables_of(beyond, changed(t.net, 71, 1), NOTHING, NOTHING),
         DESK_BAD_TRANSITION, 2},
        {"no formulas", tables_of(beyond, t.net, NOTHING, NOTHING), DESK_BAD_FORMULAS_SIZE, 0},
        {"257 formulas", tables_of(beyond, t.net, resized(t.formulas, 257 * 8), NOTHING),
         DESK_BAD_FORMULAS_SIZE, 0},
        {"a dead record", tables_of(beyond, t.net, changed(t.formulas, 56 + 2, 7), NOTHING),
         DESK_BAD_FORMULA, 7},
        {"no tree", tables_of(beyond, t.net, t.formulas, NOTHING), DESK_BAD_TREE_SIZE, 0},
        {"marking beyond", tables_of(beyond, t.net, t.formulas, t.tree), DESK_BAD_MARKING, 0},
        {"formula beyond", tables_of(changed(t.ask, 8, 8), t.net, t.formulas, t.tree),
         DESK_BAD_MARKING, 0},
        {"a leaf with a first child",
         tables_of(t.ask, t.net, t.formulas, changed(t.tree, 22 * 40 + 28, 1)), DESK_FAULT_LINKS,
         22},
        {"phase 5", tables_of(t.ask, t.net, t.formulas, changed(t.tree, 37, 5)), DESK_FAULT_RANGE,
         0},
        {"the other side", tables_of(changed(t.ask, 11, 1), t.net, t.formulas, t.tree),
         DESK_FAULT_ROOT, 0},
        {"a dead record asked", tables_of(changed(t.ask, 8, 7), t.net, t.formulas, t.tree),
         DESK_FAULT_ROOT, 0},
        {"rule 19", tables_of(t.ask, t.net, t.formulas, changed(t.tree, 21 * 40 + 35, 19)),
         DESK_FAULT_RULE, 21},
        {"rule 5 on the trail", tables_of(t.ask, t.net, t.formulas, changed(t.tree, 2 * 40 + 35, 5)),
         DESK_FAULT_CONDITION, 2},
        {"rule 5 with three", tables_of(t.ask, t.net, t.formulas, changed(t.tree, 35, 5)),
         DESK_FAULT_COUNT, 0},
        {"a dead record in a leaf",
         tables_of(t.ask, t.net, t.formulas, changed(t.tree, 22 * 40 + 32, 0)), DESK_FAULT_CHILD,
         20},
    };
    for (size_t i = 0; i < sizeof cases / sizeof cases[0]; i++) {
        tables c = cases[i].t;
        check(cases[i].what, c.ask, c.net, c.formulas, c.tree, cases[i].number, cases[i].place);
        unsaved(cases[i].what, c, lengths_of(NO_TABLES, 0), cases[i].number, cases[i].place);
        unsaved(cases[i].what, c, lengths_of(t, 0), cases[i].number, cases[i].place);
        unsaved(cases[i].what, c, lengths_of(t, 1000), cases[i].number, cases[i].place);
    }
}

/* A table of 256 records: `step` apart stand record 0 and so many "and"s, each of the one
 * before with itself, the others are dead. */
static table spaced_ands(size_t ands, size_t step)
{
    table t = empty_table(DESK_FORMULAS_MAX * DESK_FORMULA_BYTES);
    for (size_t k = 1; k < DESK_FORMULAS_MAX; k++) {
        int reached = k % step == 0 && k <= ands * step;
        size_t operand = reached ? k - step : k - 1;
        put_formula(t.bytes + k * DESK_FORMULA_BYTES, 2, operand, operand, 0);
    }
    return t;
}

/* The tables of "formula f holds" at marking 3 in net R, with the tree that is written. */
static tables tables_written(table formulas, uint64_t formula, size_t nodes)
{
    tables t = {ask_r(3, formula, 3, DESK_HOLDS), net_r(3), formulas,
                empty_table(nodes * DESK_NODE_BYTES)};
    write_tree_by(desk_write_tree, "a tree", t.ask, t.net, t.formulas, t.tree.bytes, t.tree.len,
                  DESK_GRANTED, 0, DESK_HOLDS, nodes);
    return t;
}

/* 256 records, from one of them reached to all, and trees of up to 65,535 nodes. */
static void saves_at_the_limit(void)
{
    for (size_t ands = 0; ands <= 15; ands += 5) {
        size_t nodes = ((size_t)2 << ands) - 1;
        table all = spaced_ands(ands, 1);
        tables after = tables_written(resized(all, (ands + 1) * DESK_FORMULA_BYTES), ands, nodes);
        saves("the first of 256", tables_written(all, ands, nodes), after);
        saves("every 17th of 256", tables_written(spaced_ands(ands, 17), 17 * ands, nodes), after);
        give_back();
    }
    table nots = empty_table(DESK_FORMULAS_MAX * DESK_FORMULA_BYTES);
    for (size_t k = 1; k < DESK_FORMULAS_MAX; k++) {
        put_formula(nots.bytes + k * DESK_FORMULA_BYTES, 1, k - 1, 0, 0);
    }
    tables even = tables_written(resized(nots, 255 * DESK_FORMULA_BYTES), 254, 255);
    saves("255 of 256", tables_written(nots, 254, 255), even);
    put_formula(nots.bytes + 255 * DESK_FORMULA_BYTES, 2, 254, 254, 0);
    tables all = tables_written(nots, 255, 2 * 255 + 1);
    saves("all of 256", all, all);
}

/* The tables of "R holds 2" as files, to be compared with the other places that
 * have them: 0 where they are written. */
static int write_table(const char *folder, const char *name, table t)
{
    char path[4096];
    int size = snprintf(path, sizeof path, "%s/%s", folder, name);
    FILE *file = size > 0 && (size_t)size < sizeof path ? fopen(path, "wb") : NULL;
    if (file == NULL) {
        return 1;
    }
    size_t written = fwrite(t.bytes, 1, t.len, file);
    return fclose(file) != 0 || written != t.len;
}

static int write_tables(const char *folder)
{
    int bad = write_table(folder, "ASK", ask_r(3, 2, 3, DESK_HOLDS));
    bad |= write_table(folder, "NET", net_r(3));
    bad |= write_table(folder, "FORMULA", formulas_r());
    bad |= write_table(folder, "TREE", holds_tree());
    give_back();
    return bad;
}

/* With a folder as argument, writes the tables of "R holds 2" there instead. */
int main(int argc, char **argv)
{
    if (argc == 2) {
        return write_tables(argv[1]);
    }
    samples();
    give_back();
    optional_transitions();
    give_back();
    check_refusals();
    give_back();
    sizes_at_the_limit();
    give_back();
    firings();
    give_back();
    reasons();
    give_back();
    labels();
    give_back();
    borrowed_labels();
    give_back();
    full_files();
    give_back();
    pnml_written();
    give_back();
    pnml_reread();
    give_back();
    pnml_optional();
    give_back();
    pnml_cut_short();
    give_back();
    pnml_damaged();
    give_back();
    trees_written();
    give_back();
    trees_refused();
    give_back();
    trees_at_the_limit();
    give_back();
    conversions();
    give_back();
    conversions_refused();
    give_back();
    conversions_at_the_limit();
    give_back();
    nets_joined();
    give_back();
    joins_at_the_limit();
    give_back();
    joins_refused();
    give_back();
    tables_saved();
    give_back();
    saves_refused();
    give_back();
    saves_at_the_limit();
    give_back();
    if (failed > 0) {
        printf("%u checks passed, %u failed\n", passed, failed);
        return 1;
    }
    printf("%u checks passed\n", passed);
    return 0;
}

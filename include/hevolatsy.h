/* The proved library for a dispatch program in C (C11) or C++ (C++11). Link `target/staticlib/libcapi.a` (docs/LINKING.md).
 *
 * A node is one 16-bit number, 1000 * depth + label. A tree is its nodes in preorder; a fleet is its vehicles' trees end to end.
 * Remarks, labels 600 to 699, do not count: they stay in sheets and keep their node numbers, and a register counts them, but no vehicle holds a
 * pattern that has one, and none is listed; a fleet has the list that it has with its remarks taken out.
 *
 * Every function returns one number: the value of an answered call, 0 or more, or the number of a refusal with a minus sign
 * (enum hevolatsy_refusal). Lengths count elements. No call keeps a pointer, allocates, or has a state of its own: what it needs stands on the
 * stack, for hevolatsy_start and hevolatsy_step some 260 kilobytes, for hevolatsy_batch some 400, with a register or without, for
 * hevolatsy_pages some 400, for hevolatsy_swap some 10 (docs/LINKING.md, "Stack").
 * A refused call writes nothing; an answered one writes its result to the front of the output (of each output, where it has several) and
 * nothing past it. An output must not overlap another argument, and a pointer must not be NULL, not even for a length of 0.
 */
#ifndef HEVOLATSY_H
#define HEVOLATSY_H

#include <stddef.h>
#include <stdint.h>

#ifdef __cplusplus
#define HEVOLATSY_ASSERT static_assert
extern "C" {
#else
#define HEVOLATSY_ASSERT _Static_assert
#endif

/* Limits: trees of a fleet, nodes of a tree, nodes of a fleet, depth; bytes that decide any sheet. */
#define HEVOLATSY_TREES 64
#define HEVOLATSY_TREE_NODES 256
#define HEVOLATSY_NODES 4096
#define HEVOLATSY_DEPTH 15
#define HEVOLATSY_SHEET_BYTES 16388

/* Entries of a label register: labels are 1 to 999. */
#define HEVOLATSY_LABELS 999

/* Bytes of a page: 54 lines of 72 columns and a line end. */
#define HEVOLATSY_PAGE_BYTES 3942

/* Limits of a call: nodes of a pattern and size bound, threshold. */
#define HEVOLATSY_PATTERN_NODES 16
#define HEVOLATSY_MOST_THRESHOLD 64

enum hevolatsy_refusal {
    HEVOLATSY_NO_BYTES = 1,       /* sheet of no bytes */
    HEVOLATSY_HIGH_BIT = 2,       /* bit above bit 1 set */
    HEVOLATSY_FIRST_FIELDS = 3,   /* first record lacks a field */
    HEVOLATSY_CUT_RECORD = 4,     /* sheet ends before a record's fields do */
    HEVOLATSY_DEPTH_RULE = 5,     /* first depth not 0, later depth above previous + 1, or above 15 */
    HEVOLATSY_LABEL_RULE = 6,     /* label not 1 to 999 */
    HEVOLATSY_FAMILY_RULE = 7,    /* family not allowed there */
    HEVOLATSY_NEEDLESS_FIELD = 8, /* field that should be absent */
    HEVOLATSY_FLEET_LIMIT = 9,    /* tree 65, node 257 of a tree, or node 4,097 */
    HEVOLATSY_NO_FLEET = 10,      /* lent pairs that are no fleet; a tree that no fleet could hold, a register that is not the fleet's, too many nodes after a swap */
    HEVOLATSY_THRESHOLD = 11,     /* threshold not 1 to 64 */
    HEVOLATSY_SIZE_BOUND = 12,    /* size bound not 1 to 16 */
    HEVOLATSY_PATTERN_SIZE = 13,  /* pattern empty or over the bound */
    HEVOLATSY_NO_TREE = 14,       /* pattern's pairs are no tree */
    HEVOLATSY_NOT_IN_FORM = 15,   /* pattern given to a step not in its form */
    HEVOLATSY_VEHICLE = 16,       /* vehicle number 0 or above the fleet's */
    HEVOLATSY_SHORT_OUTPUT = 17,  /* output too short */
    HEVOLATSY_SHORT_PAGES = 18,   /* output shorter than the pages of the list */
    HEVOLATSY_PROFILE = 19        /* profile not 0, 1 or 2; checked right after 12 */
};

/* Reads a sheet into its pairs; returns how many there are. Refusals 1 to 9, then 17. */
int64_t hevolatsy_read(const uint8_t *sheet, size_t sheet_len, uint16_t *output, size_t output_len);

/* Writes the sheet of a fleet; returns its bytes. Refusals 10, 17. */
int64_t hevolatsy_write(const uint16_t *fleet, size_t fleet_len, uint8_t *output, size_t output_len);

/* The number of nodes of a vehicle's tree, vehicles numbered from 1. Refusals 10, 16. */
int64_t hevolatsy_vehicle(const uint16_t *fleet, size_t fleet_len, size_t vehicle);

/* The form (canonical child order) of a tree of any families; returns its nodes. Refusals 13 (over 256 nodes), 14, 17. */
int64_t hevolatsy_form(const uint16_t *tree, size_t tree_len, uint16_t *output, size_t output_len);

/* The number of vehicles that hold the pattern: 0 where it has a remark. Refusals 10, 13 (over 16 nodes), 14. */
int64_t hevolatsy_support(const uint16_t *fleet, size_t fleet_len, const uint16_t *pattern, size_t pattern_len);

/* The heaviest placing of a pattern in a vehicle's tree: for each pattern node the number of its place, from 1, remarks counted; returns the
 * pattern's nodes, or 0 where it does not occur, as one with a remark never does, and then writes nothing. Refusals 10, 13 (over 16 nodes), 14, 16, 17. */
int64_t hevolatsy_place(const uint16_t *fleet, size_t fleet_len, size_t vehicle, const uint16_t *pattern, size_t pattern_len,
                        uint16_t *output, size_t output_len);

/* The profile of a list: which of the forms that reach the threshold are on it. A proper supertree of a form is a tree of more nodes in which
 * the form occurs, its root anywhere, of any size (over the bound too) and any labels. Closed and maximal lists are parts of the full list in
 * its order, with the same supports; every maximal form is closed. A call at profile 1 or 2 goes through forms of the full list until one is on
 * its own, so it may take the time of the whole full list (docs/LINKING.md, "Profiles"). */
enum hevolatsy_profile {
    HEVOLATSY_FULL = 0,   /* all */
    HEVOLATSY_CLOSED = 1, /* those of which no proper supertree has the same support */
    HEVOLATSY_MAXIMAL = 2 /* those of which no proper supertree reaches the threshold */
};

/* What is asked of a list. Set it by an initializer, so that a field added later is 0. */
struct hevolatsy_request {
    size_t threshold; /* 1 to 64 */
    size_t bound;     /* 1 to 16 */
    size_t profile;   /* enum hevolatsy_profile; 0 is the full list */
};

#define HEVOLATSY_REQUEST_FIELDS 3

/* A request crosses as numbers, its fields in their order. A missing number counts as 0 (so that fewer than two are refused, by 11 or
 * 12, and two ask for the full list); numbers past the last field are not looked at. So a program compiled today, which lends as many numbers
 * as it knows, keeps running when fields are added at the end.
 *
 * HEVOLATSY_REQUEST(request) makes the two arguments, pointer and length, from a struct. C lets it be read as an array: all fields are
 * size_t, they lie in the order of their declaration, a pointer to the struct points to the first, and by the size no gap is left. */
HEVOLATSY_ASSERT(sizeof(struct hevolatsy_request) == HEVOLATSY_REQUEST_FIELDS * sizeof(size_t), "a request is its numbers, without gaps");

static inline const size_t *hevolatsy_numbers(const struct hevolatsy_request *request)
{
    return (const size_t *)request;
}

#define HEVOLATSY_REQUEST(request) hevolatsy_numbers(&(request)), HEVOLATSY_REQUEST_FIELDS

/* The lightest form on the list that the request asks for; returns 100 * support + nodes, or 0 at end, and then writes nothing.
 * Refusals in this order: 10, 11, 12, 19, 17 (output shorter than the bound). */
int64_t hevolatsy_start(const uint16_t *fleet, size_t fleet_len, const size_t *request, size_t request_len, uint16_t *output,
                        size_t output_len);

/* The lightest form on the list that is heavier than a pattern in its form, listed or not; returns as hevolatsy_start does.
 * Refusals in this order: 10, 11, 12, 19, 13 (over the bound), 14, 15, 17 (output shorter than the bound). */
int64_t hevolatsy_step(const uint16_t *fleet, size_t fleet_len, const size_t *request, size_t request_len, const uint16_t *pattern,
                       size_t pattern_len, uint16_t *output, size_t output_len);

/* The next forms of the list after a pattern in its form (of no pairs: from the start), as many as surely fit: the forms stand end to end
 * at the front of the output, and found[k] is what the step that gives form k would return, 100 * support + nodes. A form is put only while
 * at least `bound` pairs and one entry of found are left; so fewer forms than fit means that the list ends there. Returns how many forms.
 * Refusals in this order: 10, 11, 12, 19, 13 (over the bound), 14, 15, 17 (output shorter than the bound, or no entry in found); of no pairs
 * not 13 to 15.
 *
 * An output of HEVOLATSY_PATTERN_NODES pairs for each entry of found has room for a form for each: then fewer forms than entries is the end,
 * and after as many the next batch goes on from the last form, copied out of the output. */
int64_t hevolatsy_batch(const uint16_t *fleet, size_t fleet_len, const size_t *request, size_t request_len, const uint16_t *pattern,
                        size_t pattern_len, uint16_t *output, size_t output_len, size_t *found, size_t found_len);

/* The parts of what a start or a step returns, and of an entry of a batch's found. */
#define HEVOLATSY_SUPPORT_OF(found) ((int)((found) / 100))
#define HEVOLATSY_NODES_OF(found) ((int)((found) % 100))

/* The list that the request asks for, on pages of HEVOLATSY_PAGE_BYTES bytes each, as markers print it: a form has its support in columns 1
 * and 2, right-aligned, and its pairs from column 4 on, eight to a line and eight columns each; the line `end` comes last, and blanks fill the
 * lines and pages. Returns the number of pages, at least 1. Refusals in this order: 10, 11, 12, 19, 18 (output shorter than the pages). The
 * list is gone through twice, since nothing may be written before it is known that all pages fit; one that does not fit is left as soon as that
 * is known. */
int64_t hevolatsy_pages(const uint16_t *fleet, size_t fleet_len, const size_t *request, size_t request_len, uint8_t *output,
                        size_t output_len);

/* The label register of a fleet: nodes[label - 1] is the number of the label's nodes in the fleet, holders[label - 1] the set of vehicles
 * whose tree has one, a 64-bit number with vehicle 1 as its lowest bit; 0 and 0 where none does. The register is the first
 * HEVOLATSY_LABELS entries of both; what stands behind them is neither looked at nor written. Where a call is lent a register, one of fewer
 * entries is not the fleet's. */

/* Makes the register of a fleet; returns HEVOLATSY_LABELS. Refusals 10, 17 (fewer than HEVOLATSY_LABELS entries in nodes or in holders). */
int64_t hevolatsy_register(const uint16_t *fleet, size_t fleet_len, uint16_t *nodes, size_t nodes_len, uint64_t *holders, size_t holders_len);

/* Puts a tree in the place of a vehicle's, vehicles numbered from 1, and brings the fleet's register up to date. The fleet is the first
 * `used` pairs of the buffer; the trees behind the vehicle's move. Returns the pairs of the new fleet; behind these the buffer holds what it
 * held there, so where the new fleet is shorter, the old one's last pairs.
 * Refusals in this order: 10 (no fleet, or `used` above buffer_len; a tree that no fleet could hold: of no or over 256 nodes, two trees, or
 * wrong in itself; a register that is not this fleet's), 16, 10 (over 4,096 nodes in the new fleet), 17 (buffer shorter than the new fleet). */
int64_t hevolatsy_swap(uint16_t *buffer, size_t buffer_len, size_t used, size_t vehicle, const uint16_t *tree, size_t tree_len,
                       uint16_t *nodes, size_t nodes_len, uint64_t *holders, size_t holders_len);

/* hevolatsy_start, hevolatsy_step and hevolatsy_batch with the fleet's register: 10 where it is not this fleet's; else they return and write
 * what the calls without it do. */
int64_t hevolatsy_start_with_register(const uint16_t *fleet, size_t fleet_len, const uint16_t *nodes, size_t nodes_len,
                                      const uint64_t *holders, size_t holders_len, const size_t *request, size_t request_len,
                                      uint16_t *output, size_t output_len);
int64_t hevolatsy_step_with_register(const uint16_t *fleet, size_t fleet_len, const uint16_t *nodes, size_t nodes_len,
                                     const uint64_t *holders, size_t holders_len, const size_t *request, size_t request_len,
                                     const uint16_t *pattern, size_t pattern_len, uint16_t *output, size_t output_len);
int64_t hevolatsy_batch_with_register(const uint16_t *fleet, size_t fleet_len, const uint16_t *nodes, size_t nodes_len,
                                      const uint64_t *holders, size_t holders_len, const size_t *request, size_t request_len,
                                      const uint16_t *pattern, size_t pattern_len, uint16_t *output, size_t output_len, size_t *found,
                                      size_t found_len);

#ifdef __cplusplus
}
#endif

#endif

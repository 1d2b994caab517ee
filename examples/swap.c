/* Gives a vehicle the tree of another and lists the fleet that this makes, as the key program does, with a label register kept by the swap:
 * threshold, size bound, the vehicle and the other as arguments, the sheet on standard input. */
#include <stdio.h>
#include <stdlib.h>
#include <string.h>

#include "hevolatsy.h"

/* Forms of a batch at most. */
#define FORMS 1024

static uint16_t fleet[HEVOLATSY_NODES];
static uint16_t label_nodes[HEVOLATSY_LABELS];
static uint64_t label_holders[HEVOLATSY_LABELS];

static int refused(int64_t answer)
{
    printf("refused %d\n", (int)-answer);
    return 0;
}

static size_t number(int argc, char **argv, int word)
{
    return word < argc ? strtoul(argv[word], NULL, 10) : 0;
}

/* Copies the tree of a vehicle; returns its nodes, or a refusal. */
static int64_t copy_tree(size_t nodes, size_t vehicle, uint16_t *tree)
{
    size_t begin = 0;
    int64_t length = hevolatsy_vehicle(fleet, nodes, vehicle);
    if (length < 0)
        return length;
    for (size_t before = 1; before < vehicle; before++)
        begin += (size_t)hevolatsy_vehicle(fleet, nodes, before);
    memcpy(tree, fleet + begin, (size_t)length * sizeof *tree);
    return length;
}

static void print_line(const uint16_t *form, size_t found)
{
    printf("%d", HEVOLATSY_SUPPORT_OF(found));
    for (int i = 0; i < HEVOLATSY_NODES_OF(found); i++)
        printf(" %d.%03d", form[i] / 1000, form[i] % 1000);
    putchar('\n');
}

/* Prints the list; returns 0, or a refusal. */
static int64_t print_list(size_t nodes, struct hevolatsy_request request)
{
    static uint16_t forms[FORMS * HEVOLATSY_PATTERN_NODES];
    static size_t found[FORMS];
    uint16_t last[HEVOLATSY_PATTERN_NODES] = { 0 };
    size_t last_nodes = 0;
    int64_t count;
    do {
        count = hevolatsy_batch_with_register(fleet, nodes, label_nodes, HEVOLATSY_LABELS, label_holders, HEVOLATSY_LABELS,
                                              HEVOLATSY_REQUEST(request), last, last_nodes, forms, FORMS * HEVOLATSY_PATTERN_NODES, found,
                                              FORMS);
        if (count < 0)
            return count;
        const uint16_t *form = forms;
        for (int64_t k = 0; k < count; k++) {
            print_line(form, found[k]);
            last_nodes = (size_t)HEVOLATSY_NODES_OF(found[k]);
            form += last_nodes;
        }
        if (count > 0)
            memcpy(last, form - last_nodes, last_nodes * sizeof *last);
    } while (count == FORMS);
    puts("end");
    return 0;
}

int main(int argc, char **argv)
{
    static uint8_t sheet[HEVOLATSY_SHEET_BYTES];
    uint16_t tree[HEVOLATSY_TREE_NODES];
    struct hevolatsy_request request = { .threshold = number(argc, argv, 1), .bound = number(argc, argv, 2) };
    size_t vehicle = number(argc, argv, 3), other = number(argc, argv, 4);
    size_t bytes = fread(sheet, 1, sizeof sheet, stdin);

    int64_t nodes = hevolatsy_read(sheet, bytes, fleet, HEVOLATSY_NODES);
    if (nodes < 0)
        return refused(nodes);
    int64_t made = hevolatsy_register(fleet, (size_t)nodes, label_nodes, HEVOLATSY_LABELS, label_holders, HEVOLATSY_LABELS);
    if (made < 0)
        return refused(made);
    int64_t tree_nodes = copy_tree((size_t)nodes, other, tree);
    if (tree_nodes < 0)
        return refused(tree_nodes);
    nodes = hevolatsy_swap(fleet, HEVOLATSY_NODES, (size_t)nodes, vehicle, tree, (size_t)tree_nodes, label_nodes, HEVOLATSY_LABELS,
                           label_holders, HEVOLATSY_LABELS);
    if (nodes < 0)
        return refused(nodes);
    int64_t listed = print_list((size_t)nodes, request);
    return listed < 0 ? refused(listed) : 0;
}

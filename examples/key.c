/* Lists a fleet as the key program does, through the C interface: threshold, size bound and, if it is not the full list, profile (a number)
 * as arguments, the sheet on standard input. */
#include <stdio.h>
#include <stdlib.h>
#include <string.h>

#include "hevolatsy.h"

/* Forms of a batch at most. */
#define FORMS 1024

static int refused(int64_t answer)
{
    printf("refused %d\n", (int)-answer);
    return 0;
}

static void print_line(const uint16_t *form, size_t found)
{
    printf("%d", HEVOLATSY_SUPPORT_OF(found));
    for (int i = 0; i < HEVOLATSY_NODES_OF(found); i++)
        printf(" %d.%03d", form[i] / 1000, form[i] % 1000);
    putchar('\n');
}

int main(int argc, char **argv)
{
    static uint8_t sheet[HEVOLATSY_SHEET_BYTES];
    static uint16_t fleet[HEVOLATSY_NODES];
    static uint16_t forms[FORMS * HEVOLATSY_PATTERN_NODES];
    static size_t found[FORMS];
    uint16_t last[HEVOLATSY_PATTERN_NODES] = { 0 };
    size_t last_nodes = 0;
    int64_t count;
    struct hevolatsy_request request = {
        .threshold = argc > 1 ? strtoul(argv[1], NULL, 10) : 0,
        .bound = argc > 2 ? strtoul(argv[2], NULL, 10) : 0,
        .profile = argc > 3 ? strtoul(argv[3], NULL, 10) : HEVOLATSY_FULL,
    };
    size_t bytes = fread(sheet, 1, sizeof sheet, stdin);

    int64_t nodes = hevolatsy_read(sheet, bytes, fleet, HEVOLATSY_NODES);
    if (nodes < 0)
        return refused(nodes);
    do {
        count = hevolatsy_batch(fleet, (size_t)nodes, HEVOLATSY_REQUEST(request), last, last_nodes, forms, FORMS * HEVOLATSY_PATTERN_NODES,
                                found, FORMS);
        if (count < 0)
            return refused(count);
        const uint16_t *form = forms;
        for (int64_t k = 0; k < count; k++) {
            print_line(form, found[k]);
            last_nodes = (size_t)HEVOLATSY_NODES_OF(found[k]);
            form += last_nodes;
        }
        if (count > 0)
            memcpy(last, form - last_nodes, last_nodes * sizeof *last);
    } while (count == FORMS);
    puts("end");
    return 0;
}

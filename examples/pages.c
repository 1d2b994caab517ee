/* Prints a fleet's list on pages through the C interface: threshold and size bound as arguments, the sheet on standard input. How many pages there
 * are is known when they fit, so the memory for them is doubled until they do. */
#include <stdio.h>
#include <stdlib.h>

#include "hevolatsy.h"

static int refused(int64_t answer)
{
    printf("refused %d\n", (int)-answer);
    return 0;
}

int main(int argc, char **argv)
{
    static uint8_t sheet[HEVOLATSY_SHEET_BYTES];
    static uint16_t fleet[HEVOLATSY_NODES];
    uint8_t *output = NULL;
    int64_t pages = -HEVOLATSY_SHORT_PAGES;
    struct hevolatsy_request request = {
        .threshold = argc > 1 ? strtoul(argv[1], NULL, 10) : 0,
        .bound = argc > 2 ? strtoul(argv[2], NULL, 10) : 0,
    };
    size_t bytes = fread(sheet, 1, sizeof sheet, stdin);

    int64_t nodes = hevolatsy_read(sheet, bytes, fleet, HEVOLATSY_NODES);
    if (nodes < 0)
        return refused(nodes);
    for (size_t room = HEVOLATSY_PAGE_BYTES; pages == -HEVOLATSY_SHORT_PAGES; room *= 2) {
        free(output);
        output = malloc(room);
        if (output == NULL) {
            fprintf(stderr, "no memory for the pages\n");
            return 1;
        }
        pages = hevolatsy_pages(fleet, (size_t)nodes, HEVOLATSY_REQUEST(request), output, room);
    }
    if (pages < 0)
        return refused(pages);
    return fwrite(output, HEVOLATSY_PAGE_BYTES, (size_t)pages, stdout) != (size_t)pages;
}

/* A journal, and its check: what happened on a node as text, which is legal; and the same with a line changed, which isn't. */
#include <stdio.h>
#include <stdlib.h>
#include <string.h>

#include "thp.h"

static void want(thp_code code) {
    if (code != THP_OK) {
        fprintf(stderr, "journal: %s\n", thp_strerror(code));
        exit(1);
    }
}

int main(void) {
    thp_node node = THP_NODE_INIT;
    uint64_t page;
    uint32_t line, count;
    thp_done done;
    thp_tried tried;
    thp_back back;
    size_t size;

    want(thp_node_create(&node, 4, 2, THP_UNDERUSED_OFF));
    for (int k = 0; k < 2; k++) {
        want(thp_node_alloc(&node, 1, &page));
        want(thp_node_split_pmd(&node, 1, page));
        want(thp_node_unmap_sub(&node, 1, page, 0, 1, &done));
    }
    want(thp_node_pin(&node, 1, page));
    want(thp_node_take(&node, 1, 128, &count));
    do {
        want(thp_node_split_next(&node, 1, &tried));
    } while (tried.kind != THP_TRY_DONE);
    want(thp_node_put_back(&node, 1, &back));

    if (thp_node_journal(&node, NULL, 0, &size) != THP_TOO_SMALL) return 1;
    uint8_t *text = malloc(size);
    if (text == NULL) return 1;
    want(thp_node_journal(&node, text, size, &size));
    want(thp_node_destroy(&node));

    fwrite(text, 1, size, stdout);
    want(thp_check_text(text, size, &line));
    printf("legal\n");
    /* the first page comes a second time */
    memcpy(text + size - strlen("1 back 1\nend\n"), "1 back 0", strlen("1 back 0"));
    thp_code code = thp_check_text(text, size, &line);
    printf("line %u: %s\n", (unsigned)line, thp_strerror(code));
    free(text);
    return code == THP_ILLEGAL ? 0 : 1;
}

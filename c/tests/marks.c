/* Passes of two cells are never joined: not where as many cells were created between them as numbers of 8 or 16 bits can count, and
   not where several threads create cells at once (the thread sanitizer sees whether they are counted in one step). Both kinds of
   cells are counted together. */
#include "wanted.h"

#include <pthread.h>

/* creates a cell, of either kind */
typedef thp_code create(thp_pass *pass, uint32_t blocks, uint32_t order, uint32_t underused, uint32_t callers);
static create *const KINDS[] = {thp_cell_create, thp_cell_create_counting};

/* the pass of the first caller of a new cell, or of the second one; its other pass is destroyed */
static thp_pass pass_of_new_cell(create *kind, int is_second) {
    thp_pass first = THP_PASS_INIT, second = THP_PASS_INIT;
    ANSWERS(kind(&first, 1, 2, THP_UNDERUSED_OFF, 2), THP_OK);
    ANSWERS(thp_pass_split(&first, 1, &second), THP_OK);
    ANSWERS(thp_pass_destroy(is_second ? &first : &second), THP_OK);
    return is_second ? second : first;
}

static void *create_cells(void *unused) {
    static char failed[] = "failed";
    (void)unused;
    for (int cell = 0; cell < 100; cell++) {
        thp_pass pass = THP_PASS_INIT;
        if (KINDS[cell % 2](&pass, 1, 2, THP_UNDERUSED_OFF, 1) != THP_OK || thp_pass_destroy(&pass) != THP_OK) return failed;
    }
    return NULL;
}

int main(void) {
    enum { THREADS = 4 };
    pthread_t threads[THREADS];
    for (int i = 0; i < THREADS; i++) WANT(pthread_create(&threads[i], NULL, create_cells, NULL) == 0);
    for (int i = 0; i < THREADS; i++) {
        void *failed = NULL;
        WANT(pthread_join(threads[i], &failed) == 0 && failed == NULL);
    }
    thp_pass firsts[2];
    for (int kind = 0; kind < 2; kind++) firsts[kind] = pass_of_new_cell(KINDS[kind], 0);
    for (uint32_t after = 2; after <= 65537; after++) {
        if (after / 2 == 128 || after / 2 == 32768) {
            thp_pass other = pass_of_new_cell(KINDS[after % 2], 1);
            ANSWERS(thp_pass_join(&firsts[after % 2], &other), THP_BAD_PASS);
            ANSWERS(thp_pass_destroy(&other), THP_OK);
        } else {
            thp_pass pass = THP_PASS_INIT;
            if (KINDS[after % 2](&pass, 1, 2, THP_UNDERUSED_OFF, 1) != THP_OK || thp_pass_destroy(&pass) != THP_OK) failures++;
        }
    }
    for (int kind = 0; kind < 2; kind++) ANSWERS(thp_pass_destroy(&firsts[kind]), THP_OK);
    return failures != 0;
}

/* Calls in a program that is signalled, cancels a thread within them, and forks while its threads make them. */
#include "wanted.h"

#include <pthread.h>
#include <signal.h>
#include <sys/wait.h>
#include <time.h>
#include <unistd.h>

enum { ROUNDS = 40, LONGEST = 16384, SIGNALS = 100, THREADS = 3, CHILDREN = 8 };

static uint8_t wanted[LONGEST];
static size_t length;

/* the lives of some pages on a node of its own; the journal, and its length */
static size_t lives(uint8_t *text) {
    thp_node node = THP_NODE_INIT;
    uint64_t page;
    thp_done done;
    thp_scan scan;
    size_t size = 0;
    ANSWERS(thp_node_create(&node, 4, 2, THP_UNDERUSED_OFF), THP_OK);
    for (int round = 0; round < ROUNDS; round++) {
        ANSWERS(thp_node_alloc(&node, 0, &page), THP_OK);
        ANSWERS(thp_node_split_pmd(&node, 1, page), THP_OK);
        ANSWERS(thp_node_unmap_sub(&node, 1, page, 0, 2, &done), THP_OK);
        ANSWERS(thp_node_scan(&node, 2, 8, &scan), THP_OK);
        ANSWERS(thp_node_unmap_sub(&node, 1, page, 2, 2, &done), THP_OK);
    }
    ANSWERS(thp_node_journal(&node, text, LONGEST, &size), THP_OK);
    ANSWERS(thp_node_destroy(&node), THP_OK);
    return size;
}

static void as_wanted(void) {
    uint8_t text[LONGEST];
    WANT(lives(text) == length && memcmp(text, wanted, length) == 0);
}

/* ---- signals: a handler that makes no call finds a node in the midst of one, and the call goes on as if nothing were */

static int signals;

static void on_signal(int number) {
    (void)number;
    __atomic_fetch_add(&signals, 1, __ATOMIC_RELAXED);
}

static int is_signalled(void) { return __atomic_load_n(&signals, __ATOMIC_RELAXED) >= SIGNALS; }

static void *send_signals(void *to) {
    const struct timespec pause = {0, 50000};
    while (!is_signalled()) {
        WANT(pthread_kill(*(const pthread_t *)to, SIGUSR1) == 0);
        nanosleep(&pause, NULL);
    }
    return NULL;
}

static void signalled(void) {
    pthread_t self = pthread_self(), sender;
    struct sigaction action;
    memset(&action, 0, sizeof action);
    action.sa_handler = on_signal;
    WANT(sigaction(SIGUSR1, &action, NULL) == 0);
    WANT(pthread_create(&sender, NULL, send_signals, &self) == 0);
    while (!is_signalled()) as_wanted();
    WANT(pthread_join(sender, NULL) == 0);
}

/* ---- cancellation: no call has a cancellation point, and a thread's cleanup may give its node back */

static int reached, passed;

/* each call of the library, at least once */
static void every_call(thp_node *node) {
    thp_node other = THP_NODE_INIT;
    uint8_t text[LONGEST];
    uint64_t page;
    uint32_t count, line;
    size_t size;
    thp_done done;
    thp_scan scan;
    thp_tried tried;
    thp_back back;
    thp_stats stats;
    ANSWERS(thp_node_create(&other, 4, 2, 1), THP_OK);
    ANSWERS(thp_node_reserve(&other, 100), THP_OK);
    ANSWERS(thp_node_alloc(&other, 0, &page), THP_OK);
    ANSWERS(thp_node_map_whole(&other, 0, page), THP_OK);
    ANSWERS(thp_node_unmap_whole(&other, 0, page, &done), THP_OK);
    ANSWERS(thp_node_split_pmd(&other, 0, page), THP_OK);
    ANSWERS(thp_node_map_sub(&other, 0, page, 0, 1), THP_OK);
    ANSWERS(thp_node_write(&other, 0, page, 0, 4), THP_OK);
    ANSWERS(thp_node_zero(&other, 0, page, 0, 1), THP_OK);
    ANSWERS(thp_node_unmap_sub(&other, 0, page, 1, 1, &done), THP_OK);
    ANSWERS(thp_node_pin(&other, 0, page), THP_OK);
    ANSWERS(thp_node_take(&other, 0, 128, &count), THP_OK);
    ANSWERS(thp_node_split_next(&other, 0, &tried), THP_OK);
    ANSWERS(thp_node_put_back(&other, 0, &back), THP_OK);
    ANSWERS(thp_node_unpin(&other, 0, page, &done), THP_OK);
    ANSWERS(thp_node_scan(&other, 0, 128, &scan), THP_OK);
    ANSWERS(thp_node_take(&other, 0, 128, &count), THP_OK);
    ANSWERS(thp_node_abandon(&other, 0), THP_OK);
    ANSWERS(thp_node_queue_length(&other, &count), THP_OK);
    ANSWERS(thp_node_stats(&other, &stats), THP_OK);
    ANSWERS(thp_node_close(&other, 0), THP_OK);
    ANSWERS(thp_node_journal(&other, text, LONGEST, &size), THP_OK);
    ANSWERS(thp_check_text(text, size, &line), THP_OK);
    ANSWERS(thp_node_destroy(&other), THP_OK);
    ANSWERS(thp_use_allocator(NULL), THP_NULL);
    WANT(strcmp(thp_version(), thp_strerror(THP_OK)) != 0);
    ANSWERS(thp_node_alloc(node, 0, &page), THP_OK);
}

static void give_back(void *node) { ANSWERS(thp_node_destroy((thp_node *)node), THP_OK); }

static void *is_cancelled(void *node) {
    pthread_cleanup_push(give_back, node);
    WANT(pthread_cancel(pthread_self()) == 0);
    every_call((thp_node *)node);
    reached = 1;
    pthread_testcancel();
    passed = 1;
    pthread_cleanup_pop(0);
    return NULL;
}

static void cancelled(void) {
    thp_node node = THP_NODE_INIT;
    pthread_t thread;
    void *reported = NULL;
    ANSWERS(thp_node_create(&node, 4, 9, THP_UNDERUSED_OFF), THP_OK);
    WANT(pthread_create(&thread, NULL, is_cancelled, &node) == 0);
    WANT(pthread_join(thread, &reported) == 0 && reported == PTHREAD_CANCELED);
    WANT(reached && !passed);
    ANSWERS(thp_node_destroy(&node), THP_EMPTY);
}

/* ---- fork: while threads make calls a child is made, which makes none and runs another program; no thread's call finds it out */

static int is_over;

static void *until_over(void *unused) {
    while (!__atomic_load_n(&is_over, __ATOMIC_RELAXED)) as_wanted();
    return unused;
}

static void forked(void) {
    pthread_t threads[THREADS];
    for (int k = 0; k < THREADS; k++) WANT(pthread_create(&threads[k], NULL, until_over, NULL) == 0);
    for (int k = 0; k < CHILDREN; k++) {
        int status = 1;
        const pid_t child = fork();
        if (child == 0) {
            execl("/bin/sh", "sh", "-c", ":", (char *)NULL);
            _exit(1);
        }
        WANT(child > 0 && waitpid(child, &status, 0) == child && status == 0);
        as_wanted();
    }
    __atomic_store_n(&is_over, 1, __ATOMIC_RELAXED);
    for (int k = 0; k < THREADS; k++) WANT(pthread_join(threads[k], NULL) == 0);
}

int main(void) {
    length = lives(wanted);
    WANT(length > 0);
    signalled();
    cancelled();
    forked();
    if (failures == 0) printf("interrupted: done\n");
    return failures != 0;
}

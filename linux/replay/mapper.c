/* One process that maps at most one huge page, and changes its mappings as the tool asks by a socket.
 *
 * mapper      standard input: one end of a pair of SOCK_SEQPACKET sockets, whose other end the tool has
 *
 * No socket has a name, so only the tool can send. A message is a struct command, the reply to it a number of 64 bits, which is negative if
 * the command failed: -errno. When the tool shuts its end, also by being killed, the process drops its page and its pins, and then ends.
 *
 * Rights: the process keeps user 0, but drops every capability and cannot gain one. As a user that others have, too, it could be stopped or
 * killed by each of that user's processes; of user 0 no unprivileged process can signal or trace it. */
#define _GNU_SOURCE
#include <errno.h>
#include <fcntl.h>
#include <linux/capability.h>
#include <signal.h>
#include <stdint.h>
#include <stdlib.h>
#include <string.h>
#include <sys/mman.h>
#include <sys/prctl.h>
#include <sys/resource.h>
#include <sys/socket.h>
#include <sys/syscall.h>
#include <sys/uio.h>
#include <unistd.h>

enum { LINE = STDIN_FILENO, BASE = 4096 };

enum word { /* mappers.py has the same order */
    FORK,     /* makes a child that inherits the mapping, but no pin; carries the child's socket, the reply is its number */
    ALLOC,    /* ORDER: maps an aligned region of one page and touches it, so that this fault allocates it; the reply is the address */
    UNMAP,    /* FIRST COUNT: drops the mappings of COUNT subpages from FIRST on */
    SPLITPMD, /* splits the PMD entry by a border of two areas inside the page, and joins them again */
    FILL,     /* FIRST COUNT BYTE: writes bytes into COUNT subpages from FIRST on */
    PIN,      /* FIRST: holds a reference on the page by a pipe */
    UNPIN,    /* drops one */
};

struct command {
    int32_t word, operands[3];
};
static int ends[2] = { -1, -1 }; /* of a pipe, each of whose bytes holds a reference on the page; made with the first */
static unsigned char *page;      /* NULL before ALLOC */
static int subpages;

static void reply(int64_t number)
{
    if (send(LINE, &number, sizeof number, MSG_NOSIGNAL) < 0)
        exit(1);
}

static void drop_pins(void)
{
    close(ends[0]);
    close(ends[1]);
    ends[0] = ends[1] = -1;
}

/* Receives a command, and the descriptor that it carries, or -1. */
static struct command receive(int *carried)
{
    struct command command = { -1, { 0 } };
    char room[CMSG_SPACE(sizeof(int))];
    struct iovec part = { &command, sizeof command };
    struct msghdr message = { .msg_iov = &part, .msg_iovlen = 1, .msg_control = room, .msg_controllen = sizeof room };
    if (recvmsg(LINE, &message, MSG_CMSG_CLOEXEC) <= 0) {
        munmap(page, (size_t)subpages * BASE);
        drop_pins();
        exit(1); /* which closes the socket: the tool learns then that all is gone */
    }
    struct cmsghdr *head = CMSG_FIRSTHDR(&message);
    *carried = -1;
    if (head)
        memcpy(carried, CMSG_DATA(head), sizeof *carried);
    return command;
}

static long alloc_page(int order)
{
    size_t size = (size_t)BASE << order;
    /* a hole on each side, so that no other area joins the page's */
    unsigned char *room = mmap(NULL, 2 * size + 2 * BASE, PROT_NONE, MAP_PRIVATE | MAP_ANONYMOUS, -1, 0);
    if (room == MAP_FAILED)
        return -errno;
    unsigned char *at = (unsigned char *)(((uintptr_t)room + BASE + size - 1) & -(uintptr_t)size);
    if (mprotect(at, size, PROT_READ | PROT_WRITE) || madvise(at, size, MADV_HUGEPAGE))
        return -errno;
    *(volatile unsigned char *)at = 0;
    page = at;
    subpages = 1 << order;
    return (long)page;
}

/* Makes a child with a socket of its own, to which it doesn't reply. */
static void fork_child(int socket)
{
    pid_t child = fork();
    if (child) {
        reply(child < 0 ? -errno : child);
    } else {
        if (dup2(socket, LINE) != LINE)
            _exit(1);
        drop_pins();
    }
}

/* The result of a command. Ranges lie in the page. */
static long run(int word, const int32_t *operands)
{
    if (!page || word == ALLOC)
        return !page && word == ALLOC ? alloc_page(operands[0]) : -EINVAL;
    unsigned char *at = page + (size_t)operands[0] * BASE;
    size_t size = (size_t)operands[1] * BASE, half = (size_t)subpages * BASE / 2;
    char byte;
    switch (word) {
    case UNMAP:
        return madvise(at, size, MADV_DONTNEED) ? -errno : 0;
    case SPLITPMD:
        return madvise(page, half, MADV_DONTDUMP) || madvise(page, half, MADV_DODUMP) ? -errno : 0;
    case FILL:
        memset(at, operands[2], size);
        return 0;
    case PIN:
        if (ends[0] < 0 && pipe2(ends, O_CLOEXEC | O_NONBLOCK))
            return -errno;
        return vmsplice(ends[1], &(struct iovec){ at, 1 }, 1, SPLICE_F_NONBLOCK) == 1 ? 0 : -errno;
    case UNPIN:
        return ends[0] >= 0 && read(ends[0], &byte, 1) == 1 ? 0 : -ENOENT;
    }
    return -EINVAL;
}

int main(void)
{
    struct __user_cap_header_struct head = { .version = _LINUX_CAPABILITY_VERSION_3 };
    struct __user_cap_data_struct none[_LINUX_CAPABILITY_U32S_3] = { { 0, 0, 0 }, { 0, 0, 0 } };
    struct rlimit no_core = { 0, 0 };
    if (prctl(PR_SET_NO_NEW_PRIVS, 1, 0, 0, 0) || prctl(PR_CAP_AMBIENT, PR_CAP_AMBIENT_CLEAR_ALL, 0, 0, 0) ||
        syscall(SYS_capset, &head, none) || prctl(PR_SET_DUMPABLE, 0, 0, 0, 0) || setrlimit(RLIMIT_CORE, &no_core))
        return 2;
    signal(SIGCHLD, SIG_IGN); /* children are reaped by the kernel */
    signal(SIGINT, SIG_IGN);  /* the tool ends its mappers itself */
    for (;;) {
        int carried;
        struct command command = receive(&carried);
        if (command.word == FORK && carried >= 0)
            fork_child(carried);
        else
            reply(run(command.word, command.operands));
        if (carried >= 0)
            close(carried);
    }
}

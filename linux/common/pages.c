/* Worker processes for linux/common/workers.py: each reads what may wait for another process's mmap_lock, page tables and smaps. */
#define _GNU_SOURCE
#include <errno.h>
#include <fcntl.h>
#include <linux/bpf.h>
#include <signal.h>
#include <stdint.h>
#include <stdio.h>
#include <string.h>
#include <sys/prctl.h>
#include <sys/syscall.h>
#include <unistd.h>
#include "../kernel/shared.h"

enum { SOCKET, FLAGS_FILE, FIND_TABLE, COPY_TABLE }; /* descriptors: the socket, /proc/kpageflags, two programs of linux/kernel/memory.bpf.c */
enum { BASE = 4096, BLOCK = 512, RECENT = 64, TEXT = 1 << 16, LINE = 256, BLOCKS = 1 << 25, TOUCHES = 16 };

/* arch/x86/include/asm/pgtable_types.h */
enum { PRESENT = 1, LEAF = 1 << 7, NO_ACCESS = 1 << 8, TABLE_BITS = 9 };
#define FRAME_BITS 0x000ffffffffff000ul

/* include/uapi/linux/kernel-page-flags.h */
enum { ANON = 1 << 12, HEAD = 1 << 15, TAIL = 1 << 16, HUGETLB = 1 << 17, THP = 1 << 22, ZERO_PAGE = 1 << 24 };
#define KEPT (1ul << 13 | 1ul << 14 | 1ul << 19 | 1ul << 33) /* SWAPCACHE, SWAPBACKED, HWPOISON, MLOCKED */

/* How a process maps a huge page: the subpages in `set`, at `address` + their numbers, by one PMD entry or by PTEs. */
struct piece {
    uint64_t address, head, flags;      /* flags: KEPT ones of the first frame, by /proc/kpageflags */
    uint32_t process, order, by_pmd, unused;
    uint64_t set[BLOCK / 64];
};

/* What is known of a block of frames: how often it was touched, and from TOUCHES times on whether it has huge anonymous pages. Most
 * memory has none. Workers share the table. */
enum { UNKNOWN, NONE = TOUCHES, SOME };

struct walk {
    uint8_t *known;                     /* BLOCKS of them, of all processes of a look, or NULL */
    const struct tables *tables;
    int process, with_small;
    struct piece *out;
    long found, most, lost, small, changed;
    long recent[RECENT];                /* pieces found last, by their pages: parts of one page become one piece */
    uint64_t block, block_flags[BLOCK]; /* the flags that were read last, and of which block of frames */
    uint64_t head;                      /* the huge page that was found last in that block, and its order or -1 */
    int order;
};

/* What reads page tables: no lock is taken, and no right to frame numbers is needed. */
struct tables {
    unsigned long long (*copies)[ENTRIES]; /* shared with COPY_TABLE */
    uint64_t map;                       /* where the kernel's map of all memory begins */
    int64_t levels, place;              /* levels of tables; which copy is ours */
};

/* Runs a BPF program once; returns whether it finds what is requested. */
static int run_program(int program, struct thp_request *request) {
    union bpf_attr run = { .test = { .prog_fd = program, .ctx_size_in = sizeof *request, .ctx_in = (uintptr_t)request } };
    return syscall(SYS_bpf, BPF_PROG_TEST_RUN, &run, sizeof run) >= 0 && run.test.retval == FINE;
}

/* The frame of an entry that has one of these bits, or 0. It is inverted in one that isn't present (asm/pgtable-invert.h). */
static uint64_t frame_of(uint64_t entry, uint64_t bits) {
    return entry & bits ? ((entry & PRESENT ? entry : ~entry) & FRAME_BITS) / BASE : 0;
}

/* Whether these are flags of an anonymous huge page. */
static int is_ours(uint64_t flags) {
    return flags & ANON && flags & (HEAD | TAIL) && flags & THP && !(flags & (HUGETLB | ZERO_PAGE));
}

static void set_bits(uint64_t *set, long first, long count) {
    for (long i = first; i < first + count; i++) set[i / 64] |= 1ul << i % 64;
}

/* Adds `count` subpages from `first` on of the huge page at frame `head`; subpage 0 is, or would be, at `address`. */
static void put_piece(struct walk *w, uint64_t address, uint64_t head, uint64_t flags, long first, long count, int order, int by_pmd) {
    if (order != PMD_ORDER && (!w->with_small || order < 2)) { w->small += first == 0; return; }
    long *last = &w->recent[(head >> order ^ address / BASE) % RECENT];
    if (!by_pmd && *last < w->found) {
        struct piece *p = &w->out[*last];
        if (p->head == head && p->address == address && !p->by_pmd) { set_bits(p->set, first, count); return; }
    }
    if (w->found == w->most) { w->lost++; return; }
    struct piece *p = &w->out[*last = w->found++];
    *p = (struct piece){ .address = address, .head = head, .flags = flags & KEPT, .process = (uint32_t)w->process,
                         .order = (uint32_t)order, .by_pmd = (uint32_t)by_pmd };
    set_bits(p->set, first, count);
}

static int read_block(struct walk *w, uint64_t block) {
    if (w->block == block) return 0;
    w->block = ~0ul;
    w->order = -1;
    if (pread(FLAGS_FILE, w->block_flags, sizeof w->block_flags, block * BLOCK * 8) != sizeof w->block_flags) return -1;
    w->block = block;
    return 0;
}

/* Whether a block of frames is known to have no huge anonymous page. Others see a state once it is decided. */
static int is_plain(struct walk *w, uint64_t block) {
    uint8_t known = __atomic_load_n(&w->known[block % BLOCKS], __ATOMIC_RELAXED);
    if (known >= TOUCHES) return known == NONE;
    if (++known == TOUCHES) known = read_block(w, block) ? UNKNOWN : NONE;
    for (int i = 0; known == NONE && i < BLOCK; i++)
        if (is_ours(w->block_flags[i])) known = SOME;
    __atomic_store_n(&w->known[block % BLOCKS], known, __ATOMIC_RELAXED);
    return known == NONE;
}

/* Finds the huge page around a frame of the block that was read: returns its order and fills `head`, or -1. */
static int order_around(struct walk *w, uint64_t frame, uint64_t *head) {
    if (w->order >= 0 && frame - w->head < 1ul << w->order) { *head = w->head; return w->order; }
    long low = frame % BLOCK, high = low + 1;
    while (low > 0 && w->block_flags[low] & TAIL) low--;
    if (!(w->block_flags[low] & HEAD) || !is_ours(w->block_flags[low])) return -1;
    while (high < BLOCK && w->block_flags[high] & TAIL) high++;
    long size = high - low;
    if (size & (size - 1)) return -1;
    w->head = *head = frame / BLOCK * BLOCK + low;
    return w->order = __builtin_ctzl(size);
}

/* Takes `count` subpages at `address` in consecutive frames of one block. */
static void take_frames(struct walk *w, uint64_t address, uint64_t frame, long count) {
    uint64_t flags[BLOCK];
    if (w->known && is_plain(w, frame / BLOCK)) return;
    if (w->block == frame / BLOCK)
        memcpy(flags, w->block_flags + frame % BLOCK, count * 8);
    else if (pread(FLAGS_FILE, flags, count * 8, frame * 8) != count * 8)
        return; /* a device's memory */
    for (long i = 0, taken; i < count; i += taken) {
        uint64_t head;
        taken = 1;
        if (!is_ours(flags[i])) continue;
        int order = read_block(w, frame / BLOCK) ? -1 : order_around(w, frame + i, &head);
        if (order < 0) { w->changed++; continue; }
        taken = (long)(head + (1ul << order) - (frame + i));
        if (taken > count - i) taken = count - i;
        long first = (long)(frame + i - head);
        put_piece(w, address + (i - first) * BASE, head, w->block_flags[head % BLOCK], first, taken, order, 0);
    }
}

/* Takes a block of addresses that one PMD entry maps: one huge page, so its first flags describe it. */
static void take_whole(struct walk *w, uint64_t at, uint64_t frame) {
    uint64_t flags;
    if (pread(FLAGS_FILE, &flags, 8, frame * 8) != 8 || !(flags & ANON) || flags & (HUGETLB | ZERO_PAGE)) return;
    if (frame % BLOCK || !is_ours(flags) || !(flags & HEAD)) { w->changed += BLOCK; return; }
    put_piece(w, at, frame, flags, 0, BLOCK, PMD_ORDER, 1);
}

/* Takes a block of addresses that a table of PTEs maps. Flags that were read before the table don't count. */
static void take_entries(struct walk *w, uint64_t at, const uint64_t *entries) {
    w->block = ~0ul;
    for (long i = 0, count; i < BLOCK; i += count) {
        uint64_t frame = frame_of(entries[i], PRESENT | NO_ACCESS);
        count = 1;
        if (!frame) continue;
        while (i + count < BLOCK && (frame + count) % BLOCK && frame_of(entries[i + count], PRESENT | NO_ACCESS) == frame + count)
            count++;
        take_frames(w, at + i * BASE, frame, count);
    }
}

/* Takes what a page table, so many levels above PTEs, maps from `begin` on, between `start` and `end`. One that changes meanwhile
 * has frames whose flags don't fit, or that a second look doesn't find. */
static void walk_table(struct walk *w, uint64_t table, int level, uint64_t begin, uint64_t start, uint64_t end) {
    uint64_t entries[ENTRIES], size = (uint64_t)BASE << TABLE_BITS * level;
    struct thp_request request = { .at = w->tables->map + table, .found = (uint64_t)w->tables->place };
    long count = level + 1 == w->tables->levels ? ENTRIES / 2 : ENTRIES; /* the other half is the kernel's */
    if (!run_program(COPY_TABLE, &request)) { w->changed += BLOCK; return; }
    memcpy(entries, w->tables->copies[w->tables->place], sizeof entries);
    if (!level) { take_entries(w, begin, entries); return; }
    for (long i = 0; i < count; i++) {
        uint64_t at = begin + i * size;
        if (at + size <= start || at >= end) continue;
        if (entries[i] & LEAF) {
            if (level == 1) take_whole(w, at, frame_of(entries[i], LEAF) / BLOCK * BLOCK); /* other bits below are set */
        } else if (entries[i] & PRESENT) {
            walk_table(w, entries[i] & FRAME_BITS, level - 1, at, start, end);
        }
    }
}

struct span { uint64_t low, high; };

/* The blocks of addresses that a piece lies in. */
static struct span blocks_of(const struct piece *p) {
    long first = 0, last = BLOCK - 1;
    while (!(p->set[first / 64] >> first % 64 & 1)) first++;
    while (!(p->set[last / 64] >> last % 64 & 1)) last--;
    return (struct span){ (p->address + first * BASE) & -(uint64_t)(BLOCK * BASE),
                          ((p->address + last * BASE) | (BLOCK * BASE - 1)) + 1 };
}

/* Takes what is mapped where `count` pieces, ascending, were found before. */
static void walk_again(struct walk *w, uint64_t table, const struct piece *old, long count) {
    for (long i = 0, next; i < count; i = next) {
        struct span here = blocks_of(&old[i]), more;
        for (next = i + 1; next < count && (more = blocks_of(&old[next])).low <= here.high; next++)
            if (more.high > here.high) here.high = more.high;
        walk_table(w, table, (int)w->tables->levels - 1, 0, here.low, here.high);
    }
}

static int open_file(int thread, const char *name) {
    char path[64];
    snprintf(path, sizeof path, "/proc/%d/%s", thread, name);
    return open(path, O_RDONLY | O_CLOEXEC);
}

/* Fills `out` with at most `most` locked VMAs of an open /proc/PID/smaps, ascending, adjacent ones joined. Returns how many there are
 * in all, or -errno. A line counts by its begin; the kernel escapes line feeds in names. */
long find_locked(int file, struct span *out, long most) {
    char text[TEXT], line[LINE];
    struct span here = { 0 }, range;
    long length = 0, found = 0, got;
    while ((got = read(file, text, sizeof text)) > 0)
        for (long i = 0; i < got; i++) {
            char space;
            if (text[i] != '\n') {
                if (length < LINE - 3) line[length++] = text[i] ? text[i] : '?';
                continue;
            }
            memcpy(line + length, " ", 2); /* so that each word ends in a space */
            length = 0;
            if (sscanf(line, "%lx-%lx%c", &range.low, &range.high, &space) == 3 && space == ' ' && range.low < range.high)
                here = range;
            if (strncmp(line, "VmFlags:", 8) || !strstr(line, " lo ")) continue;
            if (found && found <= most && out[found - 1].high == here.low) out[found - 1].high = here.high;
            else if (found++ < most) out[found - 1] = here;
        }
    return got < 0 ? -errno : found;
}

/* What a worker has in common with who started it. */
struct room {
    struct piece *pieces;
    struct span *spans;
    uint8_t *known;
    int64_t most_pieces, most_spans;
    struct tables tables;
};

enum { WALK, FIND_TABLES };
struct request { int32_t what, thread, process, with_small; int64_t most, count; };
struct reply { int64_t found, lost, small, changed, spans; };

/* Where the highest page table is of the process whose /proc/PID/maps is open, 0 where there is none; and its locked base pages. */
static uint64_t find_table(const struct room *room, int maps, uint64_t *locked) {
    struct thp_request request = { .at = (uint64_t)maps };
    if (!run_program(FIND_TABLE, &request)) return 0;
    *locked = request.length;
    return request.at - room->tables.map;
}

/* Reads how a process maps huge pages: `found` pieces, or -errno. Counts pieces that had no room, pages below PMD size that
 * weren't asked for, and base pages whose flags don't fit their page table. Then its locked areas. With `count` pieces, which are
 * the last ones of the room: only where these are. */
static struct reply walk(const struct room *room, const struct request *q) {
    struct walk w = { .known = q->count ? NULL : room->known, .tables = &room->tables, .process = q->process, .with_small = q->with_small,
                      .out = room->pieces, .block = ~0ul, .order = -1, .most = q->count ? room->most_pieces - q->count : q->most };
    int maps = open_file(q->thread, "maps"), smaps = -1; /* open, its page table is no other process's */
    if (maps < 0) return (struct reply){ .found = -errno };
    uint64_t locked, table = find_table(room, maps, &locked);
    if (table && q->count) walk_again(&w, table, room->pieces + w.most, q->count);
    else if (table) walk_table(&w, table, (int)room->tables.levels - 1, 0, 0, ~0ul);
    close(maps);
    struct reply out = { table ? w.found : -ESRCH, w.lost, w.small, w.changed, 0 };
    if (!table || q->count || !w.found || !locked) return out;
    out.spans = (smaps = open_file(q->thread, "smaps")) < 0 ? -errno : find_locked(smaps, room->spans, room->most_spans);
    if (smaps >= 0) close(smaps);
    return out;
}

/* Replaces each of `count` threads by where its highest page table is: threads that share an address space have the same. */
static struct reply find_tables(const struct room *room, const struct request *q) {
    uint64_t *all = (uint64_t *)room->pieces, locked;
    for (long i = 0; i < q->count; i++) {
        int maps = open_file((int)all[i], "maps");
        all[i] = maps < 0 ? 0 : find_table(room, maps, &locked);
        if (maps >= 0) close(maps);
    }
    return (struct reply){ .found = q->count };
}

/* Answers requests until there is nobody who asks, or the parent has ended. */
void serve(const struct room *room, int parent) {
    struct request q;
    if (prctl(PR_SET_PDEATHSIG, SIGKILL) || getppid() != parent || close_range(COPY_TABLE + 1, ~0u, 0)) return;
    while (read(SOCKET, &q, sizeof q) == sizeof q) {
        struct reply out = q.what == WALK ? walk(room, &q) : find_tables(room, &q);
        if (write(SOCKET, &out, sizeof out) != sizeof out) return;
    }
}

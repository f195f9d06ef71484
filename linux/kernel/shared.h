/* SPDX-License-Identifier: MIT OR GPL-2.0 */
/* What the programs, the loader and the tools in Python (linux/common/kernel_library.py, linux/record/records.py) share. */
#ifndef SHARED_H
#define SHARED_H

enum { PMD_ORDER = 9, BASE_BITS = 12 };

/* records of a recording: linux/record/records.py, Kind */

enum { QUEUE_MOST = 2000 };	/* pages of a queue that a record has room for; those before the last ones of a longer queue are in PARTs */
#define TORN 0xffffffffu	/* instead of their number: the walk of the queue didn't end where it began */
enum kind { ENTER, EXIT, FAULT, ALLOC, FREE, FORK, EXIT_MMAP, SCAN, SCANNED, COPY, COLLAPSED, MOVED, CONTENTS,
	    QUEUED, UNQUEUED, BATCH, TRIED, KINDS, PART = KINDS };
enum how { IN_FAULT = 1, IN_NONE = 2 };

struct thp_record {
	unsigned long long kind, time, task, space, values[9];
	unsigned long long space_end;	/* 0, of a PART its place in the queue; linux/record/records.py links records here .. */
	unsigned long long count;	/* low half: pages of the queue, or TORN; high half: the place of the first that is another
					   group's, from 1; 0: none is */
	unsigned long long link;	/* .. and here */
	unsigned long long folios[QUEUE_MOST];
};

/* what a recording is loaded with */
struct thp_settings {
	unsigned long long group;		/* address of its struct mem_cgroup */
	unsigned long long first_page;		/* struct page of frame 0 */
	unsigned long long scan_function;	/* deferred_split_scan */
	unsigned long long queue_lists;		/* deferred_split_lru; 0: none */
	unsigned int orders;			/* a bit for each that is followed */
	unsigned int room;			/* bytes of the ring */
	int numa_node;				/* whose pages are in the queue; -1: those of all nodes */
	unsigned int spaces, blocks, homes;	/* how many this machine can have: address spaces, blocks of 2 MiB, places of pages */
};

struct thp_counters {
	unsigned long long lost;	/* records that found no room */
	unsigned long long unobserved;	/* begins and ends of the kernel's functions that none saw */
	unsigned long long left_out;	/* at most so many runs of the programs */
	unsigned long long inner_pages;	/* huge pages of groups in the recorded one */
	unsigned long long refused;	/* why no functions are traced: an error number; 0: they are */
};

/* readers of kernel memory */

enum answer { FINE, CHANGED, NO_QUEUE, NO_FIELD, NO_NUMBER, UNREADABLE };
enum { WINDOW = 1 << 16, STATES = 1024, NAME = 64, TABLES = 32, ENTRIES = 512 };

/* What a run is given, and what it returns. */
struct thp_request {
	unsigned long long group, numa_node;
	unsigned long long at;	/* where the walk of a queue continues (0: its head); a descriptor; the address that was found */
	unsigned long long found, length;
};

/* What the kernel's structures of one huge page contain. */
struct thp_page_state {
	unsigned long long frame;	/* set by the caller */
	unsigned long long group;	/* address of its struct mem_cgroup; 0: none */
	int references, large, entire;
	unsigned char is_linked, is_partly, has_failed, unused;
};

/* The memory that programs and caller share. */
struct thp_window {
	unsigned long long first_page;		/* struct page of frame 0, set by the caller */
	unsigned long long page_size;		/* bytes of struct page */
	unsigned long long scan_function;	/* deferred_split_scan; 0: its address is hidden */
	unsigned long long queue_lists;		/* deferred_split_lru; 0: none, or hidden */
	unsigned long long has_lists;		/* whether the queues are in deferred_split_lru */
	char lacking[NAME];			/* the field that a run needs and this kernel lacks */
	struct thp_page_state states[STATES];
	unsigned long long folios[WINDOW];	/* of a queue, oldest first */
	unsigned long long zeros[TABLES][8];	/* which of 512 base pages are zero-filled, for each thread of the caller */
	unsigned long long tables[TABLES][ENTRIES];	/* copies of page tables, for each worker of linux/common/pages.c */
};

#endif

// SPDX-License-Identifier: MIT OR GPL-2.0
/*
 * Readers of kernel memory: a control group's address, deferred split queues, the structures of huge pages, page tables, zero-filled base
 * pages. linux/common/kernel_memory.py runs them.
 *
 * All are of type syscall: the caller runs them when it needs an answer, and they are attached to nothing. What they return is in their
 * context (struct thp_request) and in `window`. Nothing is locked, and kernel memory is only read, by a helper that survives any address.
 */
#include "kernel_types.h"
#include "shared.h"
#include <bpf/bpf_helpers.h>
#include <bpf/bpf_core_read.h>
#include "queue.bpf.h"

char LICENSE[] SEC("license") = "Dual MIT/GPL";

struct thp_window window;

enum { BASE = 4096, GIB = 1 << 30, FARTHEST = 1 << 14 };
enum { GLANCE = 64, REST = 448 };	/* bytes of a base page that are read first, and then at a time: a program's stack is small */
enum { FLAGS = 7 };			/* low bits of memcg_data (include/linux/memcontrol.h) */

/* Ends a run with the name of a field that this kernel lacks. */
#define NEED(exists, name) do {						\
	if (!(exists)) {						\
		__builtin_memcpy(window.lacking, name, sizeof(name));	\
		return NO_FIELD;					\
	}								\
} while (0)

static __always_inline struct file *file_of(__u64 descriptor)
{
	struct files_struct *files = bpf_get_current_task_btf()->files;
	struct fdtable *table = READ(files->fdt);

	return (void *)read_pointer((__u64)(READ(table->fd) + descriptor));
}

static __always_inline struct cgroup_subsys_state *own_group(void)
{
	return bpf_get_current_task_btf()->cgroups->subsys[bpf_core_enum_value(enum cgroup_subsys_id, memory_cgrp_id)];
}

/* Fills in what the window has of the kernel. Addresses of symbols are looked up without the list of all of them. */
SEC("syscall")
int describe_kernel(struct thp_request *request)
{
	static const char scan[] = "deferred_split_scan", lists[] = "deferred_split_lru";

	bpf_kallsyms_lookup_name(scan, sizeof(scan), 0, &window.scan_function);	/* 0 where it isn't found */
	bpf_kallsyms_lookup_name(lists, sizeof(lists), 0, &window.queue_lists);
	window.has_lists = !has_group_queue();
	window.page_size = bpf_core_type_size(struct page);
	return window.has_lists && !window.queue_lists ? NO_QUEUE : FINE;
}

/* The struct mem_cgroup of the open folder `at`. */
SEC("syscall")
int find_group(struct thp_request *request)
{
	struct file *file = file_of(request->at);
	struct inode *inode = READ(file->f_inode);
	struct kernfs_node *node = READ(inode->i_private);
	struct cgroup *group = READ(node->priv);
	__u64 memory = bpf_core_enum_value(enum cgroup_subsys_id, memory_cgrp_id);

	request->group = read_pointer((__u64)&group->subsys + sizeof(void *) * memory);
	return request->group ? FINE : UNREADABLE;
}

/* queues */

struct thp_walk { __u64 head, at, count; };

static long step(__u32 index, struct thp_walk *walk)
{
	if (walk->at == walk->head || !walk->at)
		return 1;
	window.folios[index % WINDOW] = walk->at - link_offset();
	walk->at = (__u64)READ(((struct list_head *)walk->at)->next);
	walk->count = index + 1;
	return 0;
}

static __always_inline enum answer walk_queue(struct thp_request *run)
{
	bool is_root = !READ(((struct mem_cgroup *)run->group)->css.parent);
	struct thp_walk walk = {};

	if (!has_group_queue()) {
		struct list_lru *lru = (void *)window.queue_lists;

		if (!lru)
			return NO_QUEUE;
		if (!is_root && (READ(((struct mem_cgroup *)run->group)->kmemcg_id) < 0 || !READ(lru->memcg_aware)))
			return NO_NUMBER;
	}
	walk.head = find_queue(window.queue_lists, run->group, is_root, run->numa_node, &run->length);
	if (!walk.head)
		return FINE;
	walk.at = run->at ?: (__u64)READ(((struct list_head *)walk.head)->next);
	bpf_loop(WINDOW, step, &walk, 0);
	run->found = walk.count;
	run->at = walk.at == walk.head ? 0 : walk.at;
	return walk.at ? FINE : CHANGED;
}

/* The queue of a group and NUMA node: folios, oldest first, in the window. Further runs return more of them, until `at` is 0. */
SEC("syscall")
int read_queue(struct thp_request *request)
{
	/* a copy: the verifier refuses a context whose address was computed with */
	struct thp_request run = { .group = request->group, .numa_node = request->numa_node, .at = request->at };
	enum answer answer = walk_queue(&run);

	*request = run;
	return answer;
}

/* pages */

/* The page of the open file `at`, which has one. */
SEC("syscall")
int find_page(struct thp_request *request)
{
	struct file *file = file_of(request->at);
	struct address_space *mapping = READ(file->f_mapping);

	request->at = (__u64)READ(mapping->i_pages.xa_head);
	return request->at ? FINE : UNREADABLE;
}

/* The group that a page is charged to; Linux 7 charges it to an obj_cgroup, which names the group. */
static __always_inline __u64 group_of(struct folio *folio)
{
	__u64 charged = READ(folio->memcg_data) & ~(__u64)FLAGS;
	struct cgroup_subsys_state *own = own_group();
	struct cgroup_subsys *memory = READ(own->ss);

	if (charged && READ(((struct mem_cgroup *)charged)->css.ss) != memory)
		charged = (__u64)READ(((struct obj_cgroup *)charged)->memcg);
	return charged && READ(((struct mem_cgroup *)charged)->css.ss) == memory ? charged : 0;
}

static long look_at(__u32 index, void *unused)
{
	struct thp_page_state *state;
	struct list_head *next;
	struct folio *folio;

	if (index >= STATES)
		return 1;
	state = &window.states[index];
	folio = (void *)(window.first_page + state->frame * bpf_core_type_size(struct page));
	state->has_failed = bpf_probe_read_kernel(&next, sizeof(next), &folio->_deferred_list.next) != 0;
	state->is_linked = next != &folio->_deferred_list;
	state->is_partly = READ(folio->_flags_1) >> bpf_core_enum_value(enum pageflags___6_12, PG_partially_mapped) & 1;
	state->references = READ(folio->_refcount.counter);
	state->large = READ(folio->_large_mapcount.counter);
	state->entire = READ(folio->_entire_mapcount.counter);
	state->group = group_of(folio);
	return 0;
}

/* Fills in the first `found` states of the window. */
SEC("syscall")
int look_at_pages(struct thp_request *request)
{
	NEED(bpf_core_field_exists(struct folio, _large_mapcount), "folio._large_mapcount");
	NEED(bpf_core_field_exists(struct folio, _entire_mapcount), "folio._entire_mapcount");
	NEED(bpf_core_field_exists(struct folio, _deferred_list), "folio._deferred_list");
	NEED(bpf_core_field_exists(struct folio, _flags_1), "folio._flags_1");
	NEED(bpf_core_enum_value_exists(enum pageflags___6_12, PG_partially_mapped), "PG_partially_mapped");
	bpf_loop(request->found, look_at, 0, 0);
	return FINE;
}

/* page tables of x86-64 (arch/x86/include/asm/pgtable_types.h) */

enum { PRESENT = 1, LEAF = 1 << 7, TABLE_BITS = 9 };
#define FRAME_BITS 0x000ffffffffff000ULL

struct thp_search { __u64 table, address, content, base, levels, frame, found; };

/* Whether our own page tables lead to the page at our address, whose content is known, if the map of all memory begins at a base. */
static __always_inline bool leads_to_page(struct thp_search *search, int levels)
{
	__u64 at = search->table, entry = 0, content = 0;

	for (int level = levels - 1; level >= 0; level--) {
		__u64 index = search->address >> (BASE_BITS + TABLE_BITS * level) & (ENTRIES - 1);

		if (bpf_probe_read_kernel(&entry, sizeof(entry), (void *)(at + sizeof(entry) * index)))
			return false;
		if (!(entry & PRESENT) || (level && entry & LEAF))
			return false;
		at = search->base + (entry & FRAME_BITS);
	}
	search->levels = levels;
	search->frame = (entry & FRAME_BITS) >> BASE_BITS;
	return !bpf_probe_read_kernel(&content, sizeof(content), (void *)at) && content == search->content;
}

static long try_base(__u32 index, struct thp_search *search)
{
	search->found = leads_to_page(search, 4) || leads_to_page(search, 5);
	if (search->found)
		return 1;
	search->base -= GIB;
	return 0;
}

/* Where the kernel's map of all memory begins (`at`), how many levels page tables have (`found`), and the frame of a page of ours
 * (`length`), whose address is `group` and which begins with `numa_node`. */
SEC("syscall")
int find_map(struct thp_request *request)
{
	struct thp_search search = { .address = request->group, .content = request->numa_node };
	struct mm_struct *mm = bpf_get_current_task_btf()->mm;

	search.table = (__u64)READ(mm->pgd);
	search.base = search.table & -(__u64)GIB;
	bpf_loop(FARTHEST, try_base, &search, 0);
	request->at = search.base;
	request->found = search.levels;
	request->length = search.frame;
	return search.found ? FINE : UNREADABLE;
}

/* The top page table of the process whose open /proc/PID/maps is `at`, which the file keeps; `length`: base pages in locked areas. */
SEC("syscall")
int find_tables(struct thp_request *request)
{
	struct file *file = file_of(request->at);
	struct seq_file *sequence = READ(file->private_data);
	void *state = READ(sequence->private);
	struct mm_struct *mm;

	if (bpf_core_field_exists(struct proc_maps_private, mm))
		mm = READ(((struct proc_maps_private *)state)->mm);
	else
		mm = READ(((struct proc_maps_private___locking *)state)->lock_ctx.mm);
	request->at = mm ? (__u64)READ(mm->pgd) : 0;
	request->length = READ(mm->locked_vm);
	return request->at ? FINE : UNREADABLE;
}

/* Copies the table at `at` to the window's tables, at place `found`. linux/common/pages.c runs it in workers. */
SEC("syscall")
int copy_table(struct thp_request *request)
{
	__u64 place = request->found;

	if (place >= TABLES)
		return UNREADABLE;
	return bpf_probe_read_kernel(window.tables[place], sizeof(window.tables[0]), (void *)request->at) ? UNREADABLE : FINE;
}

/* contents: what pages contain doesn't leave the kernel */

/* Whether memory is all 0; -1: it can't be read. Places are read in ascending order: a look at a later one first makes the processor read
 * memory a third slower. */
static __always_inline int is_zero(__u64 *room, int size, __u64 at)
{
	__u64 all = 0;

	if (bpf_probe_read_kernel(room, size, (void *)at))
		return -1;
#pragma unroll
	for (int i = 0; i < size / 8; i++)
		all |= room[i];
	return !all;
}

struct thp_look { __u64 address, place, failed; };

static long look_for_zeros(__u32 index, struct thp_look *look)
{
	__u64 room[REST / 8], at = look->address + (__u64)index * BASE;
	int zero = is_zero(room, GLANCE, at);

	for (int place = GLANCE; place < BASE && zero > 0; place += REST)
		zero = is_zero(room, REST, at + place);
	look->failed = zero < 0;
	window.zeros[look->place % TABLES][index / 64 % 8] |= (__u64)(zero > 0) << (index & 63);
	return zero < 0;
}

/* Fills in which of `length` base pages from `at` on are zero-filled, at place `found` of the window. */
SEC("syscall")
int find_zeros(struct thp_request *request)
{
	struct thp_look look = { .address = request->at, .place = request->found };

	__builtin_memset(window.zeros[look.place % TABLES], 0, sizeof(window.zeros[0]));
	bpf_loop(request->length, look_for_zeros, &look, 0);
	return look.failed ? UNREADABLE : FINE;
}

// SPDX-License-Identifier: MIT OR GPL-2.0
/* Records what a control group's tasks do to huge pages, with copies of the group's deferred split queue: a program for each tracepoint.
 * The kinds of records and their fields are in linux/record/records.py.
 *
 * A record is sent only where it can matter. An address space is known once it has a page of the group (`spaces`), with a bit for each 2
 * MiB of it where such a page may be. Calls and copies elsewhere, and faults that allocate nothing, aren't sent.
 *
 * Most programs are tp_btf: the verifier knows the types of their arguments, so that they load fields without a helper. It lets nobody
 * compute with such pointers: programs that do are raw_tp. */
#include "kernel_types.h"
#include "shared.h"
#include <bpf/bpf_helpers.h>
#include <bpf/bpf_core_read.h>
#include <bpf/bpf_tracing.h>
#include "queue.bpf.h"
#include "record.bpf.h"
#include "functions.bpf.h"

char LICENSE[] SEC("license") = "Dual MIT/GPL";

enum { MMAP = 9, MPROTECT = 10, MUNMAP = 11, BRK = 12, MREMAP = 25, MADVISE = 28 };	/* x86-64 */
enum { FIXED = 0x10, NOREPLACE = 0x100000, ERRORS = 4095, WRITTEN = 3 };
enum { FRAME_END = 52 };
enum { STACK = 1 << 14 };	/* bytes of a task's stack on x86-64 */
#define FACTOR 0x9e3779b97f4a7c15ull	/* of a hash */

/* calls */

/* Whether a call may change mappings; of mmap, one that replaces a mapping. */
static __always_inline bool changes_mappings(long number, struct pt_regs *regs)
{
	if (number == MMAP)
		return (regs->r10 & (FIXED | NOREPLACE)) == FIXED;
	return number == MUNMAP || number == MPROTECT || number == MREMAP || number == MADVISE || number == BRK;
}

/* Whether a call can reach a page of the group. */
static __always_inline bool matters(long number, struct pt_regs *regs, struct task_struct *task)
{
	struct thp_space *space = space_of((__u64)task->mm);
	__u64 start = regs->di, length = regs->si;

	if (!space)
		return false;
	if (space->all || number == MREMAP || number == BRK)
		return true;
	return length && may_have(space, start >> (BASE_BITS + PMD_ORDER), (start + length - 1) >> (BASE_BITS + PMD_ORDER));
}

/* A number by which a task's calls differ, unless they ask for the same. */
static __always_inline __u64 hash_of(long number, struct pt_regs *regs)
{
	return ((regs->dx * FACTOR + regs->si) * FACTOR + regs->di) * FACTOR + number;
}

static __always_inline int begin_call(int copy, struct pt_regs *regs, long number)
{
	struct task_struct *task;
	struct thp_space *space;
	struct thp_task *state;

	if (!changes_mappings(number, regs))
		return 0;
	task = bpf_get_current_task_btf();
	state = own_state(task);
	if (!state || (copy && state->has_entered && state->call == hash_of(number, regs)))
		return 0;
	state->address = state->last = 0;
	state->has_left = false;
	if (!state->is_next && !matters(number, regs, task))
		return 0;
	state->is_next = false;
	state->has_entered = true;
	state->call = hash_of(number, regs);
	space = space_of((__u64)task->mm);
	if (space && number == MREMAP)
		space->all = 1;	/* where the mapping goes isn't known yet */
	return send(ENTER, task, VALUES(number, regs->di, regs->si, regs->dx, task->mm->brk));
}

/* sys_enter: the begin of a call that may change mappings (ENTER). Forgets the task's last fault, to which a call's allocations don't
 * belong. tp_btf: reads registers and the task. */
IN_COPIES("tp_btf/sys_enter", on_enter, begin_call(copy, regs, number), struct pt_regs *regs, long number)

/* A page is queued: sends the begin of the call of which that is a part, if no program saw it. */
static __always_inline void begin_unseen(void)
{
	struct task_struct *task = bpf_get_current_task_btf();
	struct pt_regs *regs = (void *)bpf_task_pt_regs(task);

	if (task->mm && regs)
		begin_call(1, regs, regs->orig_ax);
}

/* The folio that is known at an address, and in `home` its place; 0: none. */
static __always_inline __u64 find_home(struct thp_home *home, __u64 address)
{
	for (__u32 order = PMD_ORDER; order > 1; order--) {
		__u64 *found;

		if (!(settings.orders >> order & 1))
			continue;
		home->block = address >> (BASE_BITS + order) << 4 | order;
		found = bpf_map_lookup_elem(&homes, home);
		if (found)
			return *found;
	}
	return 0;
}

static __always_inline bool is_head(struct folio *folio)
{
	__u64 flags;

	if (bpf_core_field_exists(struct folio___memdesc, flags.f))
		flags = READ(((struct folio___memdesc *)folio)->flags.f);
	else
		flags = READ(((struct folio___number *)folio)->flags);
	return flags >> bpf_core_enum_value(enum pageflags, PG_head) & 1;
}

/* Adds the page that is known at the call's address, and its map counts, where this kernel counts them so; notes where mremap has
 * moved it, to one block or two. */
static __always_inline void add_counts(struct thp_record *record, long result)
{
	struct thp_home home = { .space = record->space };
	struct folio *folio;
	__u64 found;
	__u32 order;

	if (!bpf_core_field_exists(struct folio, _large_mapcount) || !bpf_core_field_exists(struct folio, _entire_mapcount) ||
	    !bpf_core_field_exists(struct folio, _nr_pages_mapped))
		return;
	found = find_home(&home, record->values[1]);
	if (!found)
		return;
	order = home.block & 15;
	folio = (void *)found;
	record->values[5] = found;
	record->values[6] = (__u32)READ(folio->_large_mapcount.counter);
	record->values[7] = (__u32)READ(folio->_entire_mapcount.counter);
	record->values[8] = (__u32)READ(folio->_nr_pages_mapped.counter);
	if (!is_head(folio))
		record->values[8] |= 1ull << 32;	/* it is split: these are no counts */
	if (record->values[0] != MREMAP || (unsigned long)result >= (unsigned long)-ERRORS)
		return;
	home.block = (__u64)result >> (BASE_BITS + order) << 4 | order;
	bpf_map_update_elem(&homes, &home, &found, BPF_ANY);
	home.block += 16;
	bpf_map_update_elem(&homes, &home, &found, BPF_ANY);
}

static __always_inline int end_call(int copy, struct pt_regs *regs, long result)
{
	long number = regs->orig_ax;
	__u32 slot = 0;
	struct thp_record *record;
	struct task_struct *task;
	struct thp_task *state;

	if (!changes_mappings(number, regs))
		return 0;
	task = bpf_get_current_task_btf();
	state = own_state(task);
	if (!state || (copy && state->has_left && state->call == hash_of(number, regs)))
		return 0;
	if (!state->has_entered || state->call != hash_of(number, regs)) {
		if (!matters(number, regs, task))
			return 0;
		send(ENTER, task, VALUES(number, regs->di, regs->si, regs->dx, task->mm->brk));
	}
	state->has_entered = false;
	state->has_left = true;
	state->call = hash_of(number, regs);
	record = bpf_map_lookup_elem(&scratch, &slot);
	if (!record)
		return 0;
	fill(record, EXIT, task, VALUES(number, regs->di, regs->si, regs->dx, result));
	add_counts(record, result);
	return add_queue(record);
}

/* sys_exit: the end of such a call, with map counts and the queue (EXIT). A call that reached no page at its begin may reach one at its
 * end: then both are sent. tp_btf: reads registers and the task. */
IN_COPIES("tp_btf/sys_exit", on_exit, end_call(copy, regs, result), struct pt_regs *regs, long result)

/* faults, allocations, frees */

/* Keeps the fault; sends it only where the task has allocated something that matters in an earlier one. */
static __always_inline int on_fault(unsigned long address, unsigned long code)
{
	struct task_struct *task = bpf_get_current_task_btf();
	struct thp_task *state = own_state(task);

	if (!state)
		return 0;
	state->address = address;
	state->code = code;
	state->last = 0;
	if (!state->is_next)
		return 0;
	state->is_next = false;
	return send(FAULT, task, VALUES(address, code));
}

/* page_fault_user: a fault of a task, where something waits for it (FAULT). tp_btf: reads the task. */
IN_COPIES("tp_btf/page_fault_user", on_user_fault, on_fault(address, code),
	  unsigned long address, struct pt_regs *regs, unsigned long code)

/* page_fault_kernel: the same for a fault in a call, as of copy_from_user. */
IN_COPIES("tp_btf/page_fault_kernel", on_kernel_fault, on_fault(address, code),
	  unsigned long address, struct pt_regs *regs, unsigned long code)

/* The first struct page of the block of 2 MiB that a page is in. */
static __always_inline __u64 block_of(__u64 page)
{
	return page & -(LARGE * (__u64)bpf_core_type_size(struct page));
}

/* Clears the bits of an allocation's frames, as far as they are in the block of its first. Returns whether that block is tracked. */
static __noinline bool forget_frees(__u64 page, __u32 order)
{
	__u64 block = block_of(page), first = (page - block) / bpf_core_type_size(struct page) % LARGE;
	struct thp_seen *seen = bpf_map_lookup_elem(&tracked, &block);
	__u64 bits = order < 6 ? ((1ull << (1 << order)) - 1) << first % 64 : ~0ull;

	for (__u64 i = 0; seen && i < LARGE / 64; i++)
		if ((i == first / 64 || (i > first / 64 && i < (first + (1 << order)) / 64)) && seen->bits[i] & bits)
			__sync_fetch_and_and(&seen->bits[i], ~bits);
	return seen;
}

/* Frees in the block of a page are recorded from now on, one of each frame; those of other pages in it that were recorded stay so. */
static __always_inline void track(__u64 page, __u32 order)
{
	__u64 block = block_of(page);
	struct thp_seen none = {};

	if (!forget_frees(page, order) && bpf_map_update_elem(&tracked, &block, &none, BPF_ANY))
		lose();
}

/* Counts a page that is allocated in a group below the recorded one. */
static __always_inline int count_inner(struct task_struct *task)
{
	if (is_below(group_of(task)))
		__sync_fetch_and_add(&counters.inner_pages, 1);
	return 0;
}

/* A base page for a fault that writes where a page is present, perhaps one of ours. */
static __always_inline int on_base_page(int copy, __u64 page, __u32 flags)
{
	struct task_struct *task = bpf_get_current_task_btf();
	struct thp_space *space;
	struct thp_task *state;
	__u64 block;

	if (!(flags & movable))
		return 0;
	state = bpf_task_storage_get(&tasks, task, 0, 0);
	if (!state || !state->address || (state->code & WRITTEN) != WRITTEN || !is_own(task))
		return 0;
	if (copy && state->last == page)
		return 0;
	space = space_of((__u64)task->mm);
	block = state->address >> (BASE_BITS + PMD_ORDER);
	if (!space || !(space->all || may_have(space, block, block)))
		return 0;
	state->last = page;
	state->is_next = true;
	return send(COPY, task, VALUES(page, IN_FAULT, state->address, state->code));
}

static __always_inline int note_alloc(int copy, __u64 folio, unsigned int order, __u32 flags)
{
	struct task_struct *task;
	struct thp_task *state;
	__u64 mm;

	if (running_scans)
		forget_frees(folio, order);
	if (running_scans && order > PMD_ORDER)	/* two blocks */
		forget_frees(folio + LARGE * (__u64)bpf_core_type_size(struct page), PMD_ORDER);
	if (!folio || order == 1)
		return 0;
	if (!order)
		return on_base_page(copy, folio, flags);
	if (~flags & (nomemalloc | movable))
		return 0;
	task = bpf_get_current_task_btf();
	mm = (__u64)task->mm;
	if (mm && group_of(task) != settings.group)
		return copy ? 0 : count_inner(task);
	if (!mm && order != PMD_ORDER)
		return 0;
	state = state_of(task);
	if (copy && state && state->last == folio)
		return 0;
	track(folio, order & 15);
	if (!state)
		return 0;
	state->fresh = state->last = folio;
	state->is_next = true;
	if (state->address) {
		struct thp_home home = { mm, state->address >> (BASE_BITS + (order & 15)) << 4 | order };

		bpf_map_update_elem(&homes, &home, &folio, BPF_ANY);
		add_page(mm, state->address);
	}
	return send(ALLOC, task, VALUES(folio, order, state->address ? IN_FAULT : IN_NONE, state->address, state->code));
}

/* mm_page_alloc: huge pages of the group's tasks, and of kernel threads, which may be khugepaged's (ALLOC); base pages that can be copies
 * (COPY). Huge pages have __GFP_NOMEMALLOC, and all except the huge zero page are movable. While a scan runs, the frees of all that is
 * allocated are recorded again. raw_tp: it computes with the address of the page. */
IN_COPIES("raw_tp/mm_page_alloc", on_alloc, note_alloc(copy, (__u64)page, order, flags),
	  struct page *page, unsigned int order, __u32 flags)

/* Whether the task itself scans our queue: an interrupt in its name has another stack. A tracepoint's arguments are on the stack. */
static __always_inline bool is_scanning(void *arguments)
{
	struct task_struct *task = bpf_get_current_task_btf();
	struct thp_task *state = running_scans ? bpf_task_storage_get(&tasks, task, 0, 0) : 0;

	return state && state->scans && read_pointer((__u64)&arguments) - (__u64)task->stack < STACK;
}

/* Sends the free of a page in a block where a huge page of ours was made. A frame that is freed again was another's meanwhile, and so is a
 * block once it was freed whole. But while a scan runs allocations clear bits, so a frame that it frees with its bit set is free already.
 * The first copy alone sends that: for the others, the first may have set the bit. */
static __always_inline int send_free(int copy, void *arguments, __u64 page, unsigned int order)
{
	__u64 block = block_of(page), place, bit, again = 0;
	struct thp_seen *seen = bpf_map_lookup_elem(&tracked, &block);

	if (!seen)
		return 0;
	if (order < PMD_ORDER) {
		place = (page - block) / bpf_core_type_size(struct page) % LARGE;
		bit = 1ull << place % 64;
		again = (__sync_fetch_and_or(&seen->bits[place / 64], bit) & bit) != 0;
		if (again && (copy || order || !is_scanning(arguments)))
			return 0;
	} else if (bpf_map_delete_elem(&tracked, &block)) {
		return 0;
	}
	return send(FREE, bpf_get_current_task_btf(), VALUES(page, order, again));
}

/* mm_page_free: pages in blocks where a huge page of ours was made, by whomever they are freed (FREE). raw_tp: it computes with
 * the address of the page. */
IN_COPIES("raw_tp/mm_page_free", on_free, send_free(copy, ctx, (__u64)page, order), struct page *page, unsigned int order)

/* collapses and migrations */

static __always_inline int note_collapse(int copy, struct mm_struct *mm, int status, __u64 order)
{
	struct task_struct *task = bpf_get_current_task_btf(), *owner = mm->owner;
	struct thp_home home = { .space = (__u64)mm };
	struct thp_task *state;
	__u64 folio, index;

	if (!owner || status != (int)bpf_core_enum_value(enum scan_result, SCAN_SUCCEED))
		return 0;
	if (has_collapse_order && order != PMD_ORDER)
		return 0;
	if (group_of(owner) != settings.group)
		return 0;
	state = bpf_task_storage_get(&tasks, task, 0, 0);
	if (!state || !state->fresh)
		return 0;
	folio = state->fresh;
	state->fresh = 0;
	index = READ(((struct folio *)folio)->index);
	home.block = index >> PMD_ORDER << 4 | PMD_ORDER;
	bpf_map_update_elem(&homes, &home, &folio, BPF_ANY);
	add_page(home.space, index << BASE_BITS);
	return send_with_queue(COLLAPSED, task, VALUES(home.space, status, folio, index));
}

/* mm_collapse_huge_page: a collapse in an address space of the group, by whomever, with the queue (COLLAPSED; mm/khugepaged.c:
 * collapse_huge_page). tp_btf: reads the owner of the address space, which Linux 7 may have none of. */
IN_COPIES("tp_btf/mm_collapse_huge_page", on_collapse, note_collapse(copy, mm, status, has_collapse_order ? ctx[3] : 0),
	  struct mm_struct *mm, int isolated, int status)

/* A mapping of a page of the group exists again, where a migration entry was. The page is known by its frame. */
static __always_inline int on_moved(int copy, unsigned long address, unsigned long entry, __u32 order)
{
	struct task_struct *task = bpf_get_current_task_btf();
	struct thp_task *state;
	__u64 frame = entry << (64 - FRAME_END) >> (64 - FRAME_END + BASE_BITS);
	__u64 page = settings.first_page + frame * bpf_core_type_size(struct page);

	if (!is_charged((struct folio *)page))
		return 0;
	state = state_of(task);
	if (!state || (copy && state->last == address))
		return 0;
	state->last = address;
	track(page, order);
	return send(MOVED, task, VALUES(address, page, order));
}

/* remove_migration_pmd: a migration, or a split that failed, maps a page again (MOVED). tp_btf: reads the task. */
IN_COPIES("tp_btf/remove_migration_pmd", on_moved_pmd, on_moved(copy, address, entry, PMD_ORDER),
	  unsigned long address, unsigned long entry)

/* remove_migration_pte: the same, of a page's first subpage alone: the kernel reports order 0 for the others. */
IN_COPIES("tp_btf/remove_migration_pte", on_moved_pte, order < 2 ? 0 : on_moved(copy, address, entry, order),
	  unsigned long address, unsigned long entry, int order)

/* address spaces, scans */

static __always_inline int note_fork(int copy, struct task_struct *parent, struct task_struct *child)
{
	struct task_struct *task = bpf_get_current_task_btf();
	__u64 from = (__u64)parent->mm, to = (__u64)child->mm;
	struct thp_space *space;

	if (!is_own(task) || !to || from == to || (copy && space_of(to)))
		return 0;
	space = space_of(from);
	if (!space)
		return 0;
	if (bpf_map_update_elem(&spaces, &to, space, BPF_ANY))
		return lose();
	return send(FORK, task, VALUES(from, to, child->tgid));
}

/* sched_process_fork: a process or thread begins (FORK); what is known of its parent's address space is copied for the child's.
 * tp_btf: reads both tasks. */
IN_COPIES("tp_btf/sched_process_fork", on_fork, note_fork(copy, parent, child), struct task_struct *parent, struct task_struct *child)

static __always_inline int end_space(int copy, struct mm_struct *mm)
{
	__u64 space = (__u64)mm;

	if (bpf_map_delete_elem(&spaces, &space))
		return 0;
	return send_with_queue(EXIT_MMAP, bpf_get_current_task_btf(), VALUES(space));
}

/* exit_mmap: an address space has ended, with the queue (EXIT_MMAP). tp_btf: reads the task. */
IN_COPIES("tp_btf/exit_mmap", on_exit_mmap, end_space(copy, mm), struct mm_struct *mm)

static __always_inline int begin_scan(int copy, struct shrinker *shrinker, struct shrink_control *control, unsigned long freeable,
				      unsigned long total)
{
	struct task_struct *task = bpf_get_current_task_btf();
	struct thp_task *state;

	if ((__u64)shrinker->scan_objects != settings.scan_function || !is_own_scan(control))
		return 0;
	state = state_of(task);
	if (!state || (copy && state->scans))
		return 0;
	__sync_fetch_and_add(&running_scans, !state->scans);
	state->scans = true;
	return send_with_queue(SCAN, task, VALUES(total, freeable));
}

/* mm_shrink_slab_start: the shrinker begins on the queue, with the queue (SCAN). tp_btf: reads shrinker and control. */
IN_COPIES("tp_btf/mm_shrink_slab_start", on_scan, begin_scan(copy, shrinker, control, freeable, total), struct shrinker *shrinker,
	  struct shrink_control *control, long deferred, unsigned long freeable, unsigned long long delta, unsigned long total)

static __always_inline int end_scan(int copy, struct shrinker *shrinker, int freed, long total)
{
	struct task_struct *task = bpf_get_current_task_btf();
	struct thp_task *state;

	if ((__u64)shrinker->scan_objects != settings.scan_function)
		return 0;
	state = bpf_task_storage_get(&tasks, task, 0, 0);
	if (!state || !state->scans)
		return 0;
	__sync_fetch_and_sub(&running_scans, 1);
	state->scans = false;
	return send_with_queue(SCANNED, task, VALUES(freed, total));
}

/* mm_shrink_slab_end: the end of a scan of our queue, with the queue (SCANNED). Its group isn't among the arguments: the task's
 * state knows of the scan. tp_btf: reads the shrinker. */
IN_COPIES("tp_btf/mm_shrink_slab_end", on_scanned, end_scan(copy, shrinker, freed, total),
	  struct shrinker *shrinker, int nid, int freed, long unused, long deferred, long total)

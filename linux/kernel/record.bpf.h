/* SPDX-License-Identifier: MIT OR GPL-2.0 */
/* What the programs of a recording know of tasks, address spaces and pages, and how they send records. */
#ifndef RECORD_BPF_H
#define RECORD_BPF_H

const volatile struct thp_settings settings;
const volatile __u32 nomemalloc, movable;	/* ___GFP_*: of an enumeration without a name, which CO-RE doesn't find */
const volatile bool has_collapse_order;		/* an argument of a tracepoint, since Linux 7 */
const volatile bool is_traced;			/* functions are */

struct thp_counters counters;
__u32 running_scans;	/* of our queue */
__u64 copied;		/* when the queue was last */

enum { CHARGED_TO = ~7, BLOCKS = 4096, RANGE = 32, INNER_LEVELS = 8, TRIES = 3, LARGE = 512 };
enum { SHORT = 64, SPACING = 1000000, LONG_SPACING = 1000 };	/* pages; ns; ns for each page of a longer queue than QUEUE_MOST */
enum { MOST_STEPS = 1 << 23 };	/* of bpf_loop */

/* A call of a function: when it began (0: it has ended, or isn't one of ours), its page, and whether that was in the queue. */
struct thp_function { __u64 began, folio, was_linked; };

struct thp_task {
	__u64 address, code;	/* its last fault; 0: a call began since */
	__u64 fresh;		/* the huge page that it allocated last */
	bool is_next;		/* its next event is sent in any case */
	__u64 last;		/* the page or address of the last allocation or move that was sent, since its last fault or call */
	bool has_entered;	/* the begin of its call was sent */
	bool has_left;		/* the end of its call was sent */
	__u64 call;		/* the hash of that call */
	bool scans;
	struct thp_function functions[KINDS - QUEUED];
};

struct thp_space {
	__u64 all;		/* not 0: all of it matters */
	__u64 bits[BLOCKS / 64];
};

struct thp_home { __u64 space, block; };
struct thp_seen { __u64 bits[LARGE / 64]; };

struct {
	__uint(type, BPF_MAP_TYPE_RINGBUF);
	__uint(max_entries, 1 << 24);
} ring SEC(".maps");

struct {
	__uint(type, BPF_MAP_TYPE_TASK_STORAGE);
	__uint(map_flags, BPF_F_NO_PREALLOC);
	__type(key, int);
	__type(value, struct thp_task);
} tasks SEC(".maps");

/* Where there is another number of entries, library.c sets it by what the machine has. */
#define MAP(name, kind, flags, key_type, value_type) struct {	\
	__uint(type, BPF_MAP_TYPE_##kind);			\
	__uint(map_flags, flags);				\
	__uint(max_entries, 1);					\
	__type(key, key_type);					\
	__type(value, value_type);				\
} name SEC(".maps")

MAP(spaces, HASH, BPF_F_NO_PREALLOC, __u64, struct thp_space);
MAP(homes, LRU_HASH, 0, struct thp_home, __u64);	/* the folio at a place of its order */
MAP(tracked, HASH, 0, __u64, struct thp_seen);		/* blocks whose frees are recorded, a bit for each frame whose free was */
/* a record with a queue: programs that send one aren't preempted, nor run in interrupts */
MAP(scratch, PERCPU_ARRAY, 0, __u32, struct thp_record);

static const struct thp_space blank;

/* Programs in three copies. The kernel leaves a program out where it would run within itself on a processor: in an interrupt, and where
 * programs can be preempted (Linux 7), in another task. So each tracepoint has three programs, and what the first one that runs has done,
 * the others don't do again: a free has its bit, what a task does is in its state; and a program isn't preempted but at its first and last
 * instructions. All three are left out only where three other tasks were preempted there in one of them each: no processor has three
 * contexts below the one in which a page is freed. */
extern void bpf_preempt_disable(void) __ksym __weak;	/* Linux 6.10 */
extern void bpf_preempt_enable(void) __ksym __weak;

static __always_inline void keep_processor(void)
{
	if (bpf_preempt_disable)
		bpf_preempt_disable();
}

static __always_inline int leave_processor(int result)
{
	if (bpf_preempt_enable)
		bpf_preempt_enable();
	return result;
}

#define ONE_COPY(section, name, number, call, arguments...)	\
SEC(section)							\
int BPF_PROG(name, arguments)					\
{								\
	enum { copy = number };					\
								\
	keep_processor();					\
	return leave_processor(call);				\
}

#define IN_COPIES(section, name, call, arguments...)		\
	ONE_COPY(section, name, 0, call, arguments)		\
	ONE_COPY(section, name##_2, 1, call, arguments)		\
	ONE_COPY(section, name##_3, 2, call, arguments)

static __always_inline int lose(void)
{
	__sync_fetch_and_add(&counters.lost, 1);
	return 0;
}

/* tasks and address spaces */

static __always_inline __u64 group_of(struct task_struct *task)
{
	return (__u64)task->cgroups->subsys[bpf_core_enum_value(enum cgroup_subsys_id, memory_cgrp_id)];
}

/* Whether a group is the recorded one, or below it. */
static __always_inline bool is_below(__u64 group)
{
	for (int i = 0; i < INNER_LEVELS && group && group != settings.group; i++)
		group = (__u64)READ(((struct cgroup_subsys_state *)group)->parent);
	return group == settings.group;
}

/* The group that a page is charged to, by its memcg_data; Linux 7 charges it to an obj_cgroup. */
static __always_inline __u64 charged_group(__u64 charge)
{
	charge &= CHARGED_TO;
	return charge == settings.group ? charge : (__u64)READ(((struct obj_cgroup *)charge)->memcg);
}

static __always_inline bool is_charged(struct folio *folio)
{
	return charged_group(READ(folio->memcg_data)) == settings.group;
}

/* What is known of a task. Where there is no room for it, what it does isn't recorded and counts as lost. */
static __always_inline struct thp_task *state_of(struct task_struct *task)
{
	struct thp_task *state = bpf_task_storage_get(&tasks, task, 0, BPF_LOCAL_STORAGE_GET_F_CREATE);

	if (!state)
		lose();
	return state;
}

static __always_inline struct thp_space *space_of(__u64 mm)
{
	return bpf_map_lookup_elem(&spaces, &mm);
}

/* Whether a task is in the group, or has left it and has pages of it. */
static __always_inline bool is_own(struct task_struct *task)
{
	return group_of(task) == settings.group || space_of((__u64)task->mm);
}

/* The same of a task whose pages can matter; 0: none. */
static __always_inline struct thp_task *own_state(struct task_struct *task)
{
	return is_own(task) ? state_of(task) : 0;
}

/* Notes that an address space has a page at an address. What is done in one for which there is no room counts as lost. */
static __always_inline void add_page(__u64 mm, __u64 address)
{
	__u64 block = address >> (BASE_BITS + PMD_ORDER);
	struct thp_space *space = space_of(mm);

	if (!space) {
		bpf_map_update_elem(&spaces, &mm, &blank, BPF_ANY);
		space = space_of(mm);
	}
	if (space)
		__sync_fetch_and_or(&space->bits[block % BLOCKS / 64], 1ull << block % 64);
	else
		lose();
}

/* Whether an address space may have a page in one of these blocks. */
static __always_inline bool may_have(struct thp_space *space, __u64 block, __u64 last)
{
	for (int i = 0; i < RANGE; i++, block++) {
		if (space->bits[block % BLOCKS / 64] >> block % 64 & 1)
			return true;
		if (block >= last)
			return false;
	}
	return true;
}

/* records */

#define VALUES(values...) ((__u64[9]){ values })

static __always_inline void fill(struct thp_record *record, enum kind kind, struct task_struct *task, const __u64 *values)
{
	record->kind = kind;
	record->time = bpf_ktime_get_ns();
	record->task = bpf_get_current_pid_tgid();
	record->space = (__u64)task->mm;
	__builtin_memcpy(record->values, values, sizeof(record->values));
	record->space_end = record->count = record->link = 0;
}

/* Sends a record with VALUES. Tried again: the ring's lock may be refused once, to a processor that waited long for it. */
static __always_inline int send(enum kind kind, struct task_struct *task, const __u64 *values)
{
	for (int i = 0; i < TRIES; i++) {
		struct thp_record *record = bpf_ringbuf_reserve(&ring, __builtin_offsetof(struct thp_record, folios), 0);

		if (record) {
			fill(record, kind, task, values);
			bpf_ringbuf_submit(record, 0);
			return 0;
		}
	}
	return lose();
}

extern void *bpf_rdonly_cast(const void *address, __u32 type) __ksym __weak;	/* Linux 6.2 */

/* A walk of the queue; `charge`: the memcg_data of the last page that is our group's; `place`: of the next page in the record. */
struct thp_walk { struct thp_record *record; __u64 head, at, charge; __u32 count, place, foreign; };

/* Whether a page of the queue is another group's, by its memcg_data. Linux 7 moves the pages of a group that is removed to its parent's
 * queue before their charge. */
static __noinline bool is_foreign(__u64 charge)
{
	__u64 group = charged_group(charge);

	return has_group_queue() ? group != settings.group : !is_below(group);
}

/* Reads a field: by a load, instead of a call of a helper for each page, where the kernel allows that. */
#define LOAD(type, at, field) (bpf_rdonly_cast								\
	? ((type *)bpf_rdonly_cast(at, bpf_core_type_id_kernel(type)))->field : READ((at)->field))

/* Sends what a record has room for of a longer queue. Returns whether the ring had room. */
static __always_inline bool send_part(struct thp_record *record, __u32 first)
{
	__u64 kind = record->kind;
	long failed;

	record->kind = PART, record->space_end = first, record->count = QUEUE_MOST;
	failed = bpf_ringbuf_output(&ring, record, sizeof(*record), 0);
	record->kind = kind, record->space_end = 0;
	return !failed;
}

/* Reads the charge before the link: a page that leaves the queue before its charge doesn't lead to the head. Another group's is read again
 * after it, since a page can come back. A walk ends where it meets a page that has just left the queue and is linked to itself, or the head
 * of a scan's own list, on a stack, below all struct pages. */
static long step(__u32 index, struct thp_walk *walk)
{
	struct folio *folio = (void *)(walk->at - link_offset());
	struct list_head *link = (void *)walk->at;
	__u64 charge, next;
	__u32 place = walk->place;

	if (walk->at == walk->head || (__u64)folio < settings.first_page)
		return 1;
	if (place >= QUEUE_MOST) {
		if (!send_part(walk->record, index - QUEUE_MOST))
			return 1;
		place = 0;
	}
	walk->record->folios[place] = (__u64)folio;
	walk->place = place + 1;
	charge = LOAD(struct folio, folio, memcg_data);
	barrier();
	next = (__u64)LOAD(struct list_head, link, next);
	if (next == walk->at)
		return 1;
	walk->at = next;
	if (charge != walk->charge && !is_foreign(charge))
		walk->charge = charge;
	else if (charge != walk->charge && !walk->foreign && is_foreign(READ(folio->memcg_data)))
		walk->foreign = index + 1;
	walk->count = index + 1;
	return 0;
}

/* Whether a queue of this length isn't copied: where functions are traced, or a record has no room for it, copies have a distance in time.
 * Those of scans that aren't traced are all that shows what they took. */
static __always_inline bool is_too_soon(struct thp_record *record, __u64 length)
{
	if (is_traced && length > SHORT && record->time < copied + SPACING)
		return true;
	return length > QUEUE_MOST && (is_traced || (record->kind != SCAN && record->kind != SCANNED)) &&
	       record->time < copied + LONG_SPACING * length;
}

/* Adds a copy of the queue, which is made again where the walk didn't end where it began, and sends the record. */
static __always_inline int add_queue(struct thp_record *record)
{
	__u32 numa_node = settings.numa_node < 0 ? 0 : settings.numa_node;
	struct thp_walk walk = { .record = record, .charge = settings.group };
	__u64 count = TORN, length = 0, size = 0;
	int tries = TRIES;

	walk.head = find_queue(settings.queue_lists, settings.group, false, numa_node, &length);
	if (!walk.head)
		count = 0;
	if (is_too_soon(record, length))
		tries = 0;
	else
		copied = record->time;
	for (int i = 0; i < tries && count == TORN; i++) {
		walk.at = (__u64)READ(((struct list_head *)walk.head)->next);
		walk.count = walk.place = walk.foreign = 0;
		bpf_loop(MOST_STEPS, step, &walk, 0);
		if (walk.at == walk.head)
			count = walk.count;
	}
	record->count = count | (__u64)walk.foreign << 32;
	if (count != TORN)
		size = walk.place > QUEUE_MOST ? QUEUE_MOST : walk.place;
	size = __builtin_offsetof(struct thp_record, folios) + 8 * size;
	for (int i = 0; i < TRIES; i++)
		if (!bpf_ringbuf_output(&ring, record, size, 0))
			return 0;
	return lose();
}

static __always_inline int send_with_queue(enum kind kind, struct task_struct *task, const __u64 *values)
{
	__u32 slot = 0;
	struct thp_record *record = bpf_map_lookup_elem(&scratch, &slot);

	if (!record)
		return 0;
	fill(record, kind, task, values);
	return add_queue(record);
}
#endif

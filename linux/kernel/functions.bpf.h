/* SPDX-License-Identifier: MIT OR GPL-2.0 */
/* Records what the kernel's own functions do to the queue: programs at the entry and exit of each. They are optional: library.c leaves them
 * out where the kernel lacks such a function, or refuses to have functions traced. */
#ifndef FUNCTIONS_BPF_H
#define FUNCTIONS_BPF_H

/* Whether a scan is one of our queue. */
static __always_inline bool is_own_scan(struct shrink_control *control)
{
	return (__u64)control->memcg == settings.group && (settings.numa_node < 0 || control->nid == settings.numa_node);
}

static __always_inline bool is_linked(struct folio *folio)
{
	return folio && (__u64)READ(folio->_deferred_list.next) != (__u64)&folio->_deferred_list;
}

static __always_inline void begin_unseen(void);	/* record.bpf.c */

/* Notes when a function begins. Which of the copies runs first isn't known. */
static __always_inline int enter(enum kind kind, struct folio *folio, bool is_ours)
{
	struct thp_task *state = is_ours ? state_of(bpf_get_current_task_btf()) : 0;
	struct thp_function *function;

	if (!state)
		return 0;
	if (kind == QUEUED)
		begin_unseen();
	function = &state->functions[kind - QUEUED];
	if (function->began && function->folio == (__u64)folio)
		return 0;
	if (function->began)
		__sync_fetch_and_add(&counters.unobserved, 1);	/* the end of its last call */
	*function = (struct thp_function){ bpf_ktime_get_ns(), (__u64)folio, is_linked(folio) };
	return 0;
}

/* Sends what a function has done. */
static __always_inline int leave(enum kind kind, struct folio *folio, bool is_ours, bool is_partly, void *context)
{
	struct task_struct *task = bpf_get_current_task_btf();
	struct thp_task *state = bpf_task_storage_get(&tasks, task, 0, 0);
	struct thp_function *function;
	__u64 began, links, result = 0;

	if (!state)
		return 0;
	function = &state->functions[kind - QUEUED];
	began = function->began;
	if (!began && function->folio != (__u64)folio && is_ours)
		__sync_fetch_and_add(&counters.unobserved, 1);	/* its begin */
	if (!began)
		return 0;
	function->began = 0;
	links = function->was_linked | is_linked(folio) << 1 | is_partly << 2;
	bpf_get_func_ret(context, &result);
	return send(kind, task, VALUES((__u64)folio, began, result, links, state->functions[BATCH - QUEUED].began));
}

#define AT_FUNCTION(name, kind, folio, is_ours, is_partly, arguments...)				\
	IN_COPIES("fentry/" #name, enter_##name, enter(kind, folio, is_ours), arguments)	\
	IN_COPIES("fexit/" #name, leave_##name, leave(kind, folio, is_ours, is_partly, ctx), arguments)

/* A page is queued, unless it is already (QUEUED). */
AT_FUNCTION(deferred_split_folio, QUEUED, folio, is_charged(folio), partly, struct folio *folio, bool partly)

/* A page that is freed, or migrates, leaves the queue (UNQUEUED). */
AT_FUNCTION(__folio_unqueue_deferred_split, UNQUEUED, folio, is_charged(folio), 0, struct folio *folio)

/* A scan of our queue takes a batch (BATCH). */
AT_FUNCTION(deferred_split_scan, BATCH, 0, is_own_scan(control), 0, struct shrinker *shrinker, struct shrink_control *control)

/* A split of a page, by whomever (TRIED); before Linux 6.15 it is split_huge_page_to_list_to_order. */
AT_FUNCTION(__folio_split, TRIED, folio, is_charged(folio), 0, struct folio *folio)
#endif

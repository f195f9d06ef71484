/* SPDX-License-Identifier: MIT OR GPL-2.0 */
/* Where a control group's deferred split queue is, in both forms, and where a page's link is. */
#ifndef QUEUE_BPF_H
#define QUEUE_BPF_H

/* Reads a field of kernel memory, which may be smaller in the running kernel; 0 where it can't be read: the helper clears it. Where it is
 * larger, the verifier finds a call of no function, 57005 (linux/common/kernel_library.py), and refuses the programs. */
#define READ(field) ({									\
	__typeof__(field) value_ = 0;							\
	__u64 size_ = bpf_core_field_size(field);					\
	if (size_ > sizeof(value_))							\
		asm volatile("call 57005" ::: "r0", "r1", "r2", "r3", "r4", "r5");	\
	bpf_probe_read_kernel((void *)&value_, size_, &(field));			\
	value_;										\
})

static __always_inline __u64 read_pointer(__u64 at)
{
	__u64 found;

	bpf_probe_read_kernel(&found, sizeof(found), (void *)at);
	return found;
}

enum { LEVELS = 8 };	/* of an xarray whose indices have 31 bits, and whose nodes have at least 16 slots */

static __always_inline bool has_group_queue(void)
{
	return bpf_core_field_exists(struct mem_cgroup___queue, deferred_split_queue);
}

/* The offset of a queue's link: in struct folio, or (before Linux 6.6) in the second tail page. */
static __always_inline __u64 link_offset(void)
{
	if (bpf_core_field_exists(struct folio, _deferred_list))
		return bpf_core_field_offset(struct folio, _deferred_list);
	return 2 * bpf_core_type_size(struct page) + bpf_core_field_offset(struct page___6_1, deferred_list);
}

static __always_inline bool is_node(__u64 entry)
{
	return (entry & 3) == 2 && entry > 4096;
}

/* lib/xarray.c: xa_load */
static __always_inline __u64 load_entry(struct xarray *array, __u64 index)
{
	__u64 entry = (__u64)READ(array->xa_head);
	__u64 slots = bpf_core_field_size(struct xa_node, slots) / sizeof(void *);

	if (!is_node(entry))
		return index || entry & 3 ? 0 : entry;
	for (int level = 0; level < LEVELS && is_node(entry); level++) {
		struct xa_node *node = (void *)(entry - 2);
		__u64 place = index >> (READ(node->shift) & 63);

		if (level == 0 && place >= slots)
			return 0;
		entry = read_pointer((__u64)&node->slots + sizeof(void *) * (place & (slots - 1)));
	}
	return entry & 3 ? 0 : entry;
}

/* A group's list for a NUMA node; 0 where the group never had a page that may be queued. */
static __always_inline __u64 find_list(__u64 lists, __u64 group, bool is_root, __u32 numa_node)
{
	struct list_lru *lru = (void *)lists;
	__u64 found;

	if (is_root)
		return (__u64)READ(lru->node) + numa_node * bpf_core_type_size(struct list_lru_node) +
		       bpf_core_field_offset(struct list_lru_node, lru);
	found = load_entry(&lru->xa, READ(((struct mem_cgroup *)group)->kmemcg_id));
	if (!found)
		return 0;
	return found + bpf_core_field_offset(struct list_lru_memcg, node) +
	       numa_node * bpf_core_type_size(struct list_lru_one);
}

/* Returns the address of the head of a group's queue, 0 where there is none, and in `length` how many pages the kernel counts in it.
 * `lists` is the address of deferred_split_lru (mm/huge_memory.c), where the kernel has that. */
static __always_inline __u64 find_queue(__u64 lists, __u64 group, bool is_root, __u32 numa_node, __u64 *length)
{
	struct list_lru_one *list;

	if (has_group_queue()) {
		struct deferred_split *queue = &((struct mem_cgroup___queue *)group)->deferred_split_queue;

		if (length)
			*length = READ(queue->split_queue_len);
		return (__u64)&queue->split_queue;
	}
	list = (void *)find_list(lists, group, is_root, numa_node);
	if (!list)
		return 0;
	if (length)
		*length = READ(list->nr_items);
	return (__u64)&list->list;
}
#endif

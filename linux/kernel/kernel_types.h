/* SPDX-License-Identifier: MIT OR GPL-2.0 */
/* The kernel's types, as far as the programs use them.
 *
 * libbpf finds each field by its name when the programs are loaded (CO-RE), so that neither the order nor the offsets of fields matter
 * here. A name after ___ is another form of the same type. The loader compares the sizes of numbers and pointers with the running kernel's
 * (library.c). */
#ifndef KERNEL_TYPES_H
#define KERNEL_TYPES_H

typedef unsigned char __u8;
typedef unsigned short __u16;
typedef unsigned int __u32;
typedef unsigned long long __u64;
typedef signed char __s8;
typedef short __s16;
typedef int __s32;
typedef long long __s64;
typedef __u16 __be16;
typedef __u32 __be32;
typedef __u32 __wsum;
typedef _Bool bool;

enum { false, true };

/* include/uapi/linux/bpf.h */
enum { BPF_MAP_TYPE_HASH = 1, BPF_MAP_TYPE_PERCPU_ARRAY = 6, BPF_MAP_TYPE_LRU_HASH = 9 };
enum { BPF_MAP_TYPE_RINGBUF = 27, BPF_MAP_TYPE_TASK_STORAGE = 29 };
enum { BPF_ANY = 0, BPF_F_NO_PREALLOC = 1, BPF_LOCAL_STORAGE_GET_F_CREATE = 1 };

#pragma clang attribute push(__attribute__((preserve_access_index)), apply_to = record)

typedef struct { int counter; } atomic_t;
struct list_head { struct list_head *next, *prev; };

/* address spaces, tasks, control groups */
struct mm_struct { unsigned long brk, locked_vm; struct task_struct *owner; void *pgd; };
struct pt_regs { unsigned long orig_ax, di, si, dx, r10; };
enum cgroup_subsys_id { memory_cgrp_id = 4 };
struct kernfs_node { void *priv; };
struct cgroup_subsys_state { struct cgroup *cgroup; struct cgroup_subsys *ss; struct cgroup_subsys_state *parent; };
struct cgroup { struct cgroup_subsys_state *subsys[1]; };
struct css_set { struct cgroup_subsys_state *subsys[1]; };
struct task_struct { int tgid; void *stack; struct mm_struct *mm; struct css_set *cgroups; struct files_struct *files; };

/* files: from a descriptor of the caller to a control group, or to a page */
struct xarray { void *xa_head; };
struct address_space { struct xarray i_pages; };
struct inode { void *i_private; };
struct file { struct address_space *f_mapping; struct inode *f_inode; void *private_data; };
struct seq_file { void *private; };
struct proc_maps_private { struct mm_struct *mm; };
struct proc_maps_locking_ctx { struct mm_struct *mm; };
struct proc_maps_private___locking { struct proc_maps_locking_ctx lock_ctx; }; /* Linux 6.18 */
struct fdtable { struct file **fd; };
struct files_struct { struct fdtable *fdt; };

/* pages */
typedef struct { unsigned long f; } memdesc_flags_t;
struct page { unsigned long flags; };
struct page___6_1 { struct list_head deferred_list; };
struct folio {
	unsigned long index, memcg_data, _flags_1;
	atomic_t _refcount, _large_mapcount, _entire_mapcount, _nr_pages_mapped;
	struct list_head _deferred_list;
};
struct folio___number { unsigned long flags; };
struct folio___memdesc { memdesc_flags_t flags; };	/* Linux 6.18 */
enum pageflags { PG_head = 6 };
enum pageflags___6_12 { PG_partially_mapped = 9 };
enum scan_result { SCAN_SUCCEED = 1 };

/* deferred split queues: one of each group, or (Linux 7) one of each group and NUMA node */
struct deferred_split { struct list_head split_queue; unsigned long split_queue_len; };
struct mem_cgroup { struct cgroup_subsys_state css; int kmemcg_id; };
struct mem_cgroup___queue { struct deferred_split deferred_split_queue; };
struct obj_cgroup { struct mem_cgroup *memcg; };
struct list_lru_one { struct list_head list; long nr_items; };
struct list_lru_node { struct list_lru_one lru; };
struct list_lru { struct list_lru_node *node; bool memcg_aware; struct xarray xa; };
struct list_lru_memcg { struct list_lru_one node[0]; };
struct xa_node { unsigned char shift; void *slots[1]; };

/* the shrinker */
struct shrink_control { int nid; struct mem_cgroup *memcg; };
struct shrinker { unsigned long (*scan_objects)(struct shrinker *, struct shrink_control *); };

#pragma clang attribute pop
#endif

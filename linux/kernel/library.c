// SPDX-License-Identifier: MIT OR GPL-2.0
/* Loads the readers of kernel memory (memory.bpf.c), for linux/common/kernel_memory.py, and the programs of a recording (record.bpf.c),
 * whose records it moves to a file, for linux/record/recorder.py. What opens programs leaves a reason or lines of what isn't followed in
 * `problem`. */
#define _GNU_SOURCE
#include <errno.h>
#include <stdarg.h>
#include <stdbool.h>
#include <stdint.h>
#include <stdio.h>
#include <stdlib.h>
#include <string.h>
#include <unistd.h>
#include <bpf/bpf.h>
#include <bpf/btf.h>
#include <bpf/libbpf.h>
#include "shared.h"
#include "memory.skel.h"
#include "record.skel.h"

enum { PIECE = 1 << 18, NAMES = 80 };
#define SPLIT "__folio_split"
#define FORMER_SPLIT "split_huge_page_to_list_to_order"	/* before Linux 6.15 */

/* messages */

static __thread FILE *messages;	/* while programs are opened: warnings of libbpf, and our own */
static __thread char *said;
static __thread size_t length;

static int print(enum libbpf_print_level level, const char *format, va_list words)
{
	return level == LIBBPF_WARN && messages ? vfprintf(messages, format, words) : 0;
}

static bool begin_messages(void)
{
	messages = open_memstream(&said, &length);
	libbpf_set_print(print);
	return messages;
}

/* Copies the end of what was said, as far as there is room. */
static void end_messages(char *text, size_t size)
{
	size_t skipped;

	fclose(messages);
	messages = NULL;
	skipped = length >= size ? length - size + 1 : 0;
	memcpy(text, said + skipped, length - skipped + 1);
	free(said);
}

/* the running kernel's types */

/* Returns a flag of an allocation by its bit's enumerator, whose enumeration may have no name. Kernels without it have macros, which aren't
 * among their types: `macro` is the flag's value in include/linux/gfp_types.h of Linux 6.1. */
static uint32_t find_flag(const struct btf *types, const char *name, uint32_t macro)
{
	for (uint32_t id = 1; id < btf__type_cnt(types); id++) {
		const struct btf_type *type = btf__type_by_id(types, id);

		for (int i = 0; btf_is_enum(type) && i < btf_vlen(type); i++)
			if (!strcmp(btf__name_by_offset(types, btf_enum(type)[i].name_off), name))
				return 1u << btf_enum(type)[i].val;
	}
	return macro;
}

/* Returns how many arguments a tracepoint has; -1: there is none. include/trace/bpf_probe.h: typedef btf_trace_NAME, a pointer to a
 * function whose first argument isn't the tracepoint's */
static int count_arguments(const struct btf *types, const char *tracepoint)
{
	const struct btf_type *type;
	char name[NAMES];
	int id;

	snprintf(name, sizeof(name), "btf_trace_%s", tracepoint);
	id = btf__find_by_name_kind(types, name, BTF_KIND_TYPEDEF);
	if (id < 0)
		return -1;
	type = btf__type_by_id(types, btf__type_by_id(types, id)->type);
	return btf_vlen(btf__type_by_id(types, type->type)) - 1;
}

/* readers of kernel memory */

/* Types are looked up in the kernel alone. libbpf's default is to look for one that it lacks in its modules, which needs CAP_SYS_ADMIN. */
static const struct bpf_object_open_opts kernel_alone = { .sz = sizeof(kernel_alone), .btf_custom_path = "/sys/kernel/btf/vmlinux" };

/* Returns the programs, loaded; NULL where they are refused. */
struct memory_bpf *thp_memory_open(char *problem, size_t size)
{
	struct memory_bpf *programs;

	if (!begin_messages())
		return NULL;
	programs = memory_bpf__open_opts(&kernel_alone);
	if (programs && memory_bpf__load(programs)) {
		memory_bpf__destroy(programs);
		programs = NULL;
	}
	end_messages(problem, size);
	return programs;
}

/* Returns the descriptor of a program, which pages.c runs. */
int thp_memory_program(struct memory_bpf *programs, const char *name)
{
	return bpf_program__fd(bpf_object__find_program_by_name(programs->obj, name));
}

/* Runs a program by its name. Returns its answer (enum answer), or -errno. */
int thp_memory_run(struct memory_bpf *programs, const char *name, struct thp_request *request)
{
	LIBBPF_OPTS(bpf_test_run_opts, options, .ctx_in = request, .ctx_size_in = sizeof(*request));
	int failed = bpf_prog_test_run_opts(thp_memory_program(programs, name), &options);

	return failed ? failed : (int)options.retval;
}

/* Returns the memory that the programs share with the caller. */
struct thp_window *thp_memory_window(struct memory_bpf *programs)
{
	return &programs->bss->window;
}

/* recordings */

struct recorder {
	struct record_bpf *programs;
	struct ring_buffer *ring;
	FILE *file;
	long count;	/* records that were taken .. */
	size_t room;	/* .. and bytes that the file may still grow by */
	int refused;	/* why no functions are traced: an error number; 0: they are */
};

void thp_record_close(struct recorder *recorder)
{
	ring_buffer__free(recorder->ring);
	record_bpf__destroy(recorder->programs);
	if (recorder->file)
		fclose(recorder->file);
	free(recorder);
}

/* Keeps a record after a head of 8 bytes, its length, which is a multiple of 8. A negative result leaves it in the ring. */
static int take_one(void *context, void *data, size_t size)
{
	struct recorder *recorder = context;
	uint64_t head = size;

	if (sizeof(head) + size > recorder->room)
		return -EXFULL;
	if (fwrite_unlocked(&head, sizeof(head), 1, recorder->file) != 1 || fwrite_unlocked(data, size, 1, recorder->file) != 1)
		return -errno;
	recorder->room -= sizeof(head) + size;
	recorder->count++;
	return 0;
}

/* Leaves out the programs of a tracepoint that this kernel lacks, or has with another number of arguments, and reports it. */
static void leave_out(const struct btf *kernel, const struct bpf_object *object, const char *name, int least, int most, const char *what)
{
	int found = count_arguments(kernel, name);
	struct bpf_program *program;

	if (found >= least && found <= most)
		return;
	bpf_object__for_each_program(program, object)
		if (!strcmp(strchr(bpf_program__section_name(program), '/') + 1, name))
			bpf_program__set_autoload(program, false);
	fprintf(messages, "%s aren't followed: this kernel's tracepoint %s %s\n", what, name,
		    found < 0 ? "isn't there" : "has other arguments");
}

/* Sets what the programs are loaded with. */
static bool configure(struct record_bpf *programs, const struct thp_settings *settings, const struct btf *kernel)
{
	memcpy((void *)&programs->rodata->settings, settings, sizeof(*settings));
	programs->rodata->nomemalloc = find_flag(kernel, "___GFP_NOMEMALLOC_BIT", 0x80000);
	programs->rodata->movable = find_flag(kernel, "___GFP_MOVABLE_BIT", 0x08);
	programs->rodata->has_collapse_order = count_arguments(kernel, "mm_collapse_huge_page") > 3;
	leave_out(kernel, programs->obj, "mm_collapse_huge_page", 3, 4, "collapses");
	leave_out(kernel, programs->obj, "remove_migration_pmd", 2, 2, "migrations");
	leave_out(kernel, programs->obj, "remove_migration_pte", 3, 3, "migrations");
	return !bpf_map__set_max_entries(programs->maps.ring, settings->room) &&
	       !bpf_map__set_max_entries(programs->maps.spaces, settings->spaces) &&
	       !bpf_map__set_max_entries(programs->maps.tracked, settings->blocks) &&
	       !bpf_map__set_max_entries(programs->maps.homes, settings->homes);
}

/* Leaves out the programs at functions (functions.bpf.h), or fits them to the kernel. */
static void choose_functions(const struct btf *kernel, const struct bpf_object *object, bool is_refused)
{
	bool has_split = btf__find_by_name_kind(kernel, SPLIT, BTF_KIND_FUNC) > 0;
	struct bpf_program *program;

	bpf_object__for_each_program(program, object) {
		const char *section = bpf_program__section_name(program);

		if (section[0] == 'f' && is_refused)
			bpf_program__set_autoload(program, false);
		else if (section[0] == 'f' && !has_split && strstr(section, SPLIT))
			bpf_program__set_attach_target(program, 0, FORMER_SPLIT);
	}
}

/* Loads and attaches the programs. */
static bool load(struct recorder *recorder, const struct thp_settings *settings, char *problem, size_t size)
{
	struct record_bpf *programs;
	struct btf *kernel;
	bool fits;

	if (!begin_messages())
		return false;
	kernel = btf__load_vmlinux_btf();
	programs = recorder->programs = kernel ? record_bpf__open() : NULL;
	fits = programs && configure(programs, settings, kernel);
	if (fits) {
		programs->rodata->is_traced = !recorder->refused;
		choose_functions(kernel, programs->obj, recorder->refused);
	}
	btf__free(kernel);	/* several MiB, and loading has a copy of its own */
	if (fits && !record_bpf__load(programs) && !record_bpf__attach(programs))
		recorder->ring = ring_buffer__new(bpf_map__fd(programs->maps.ring), take_one, recorder, NULL);
	end_messages(problem, size);
	return recorder->ring;
}

/* Begins a recording, without functions where the kernel lacks one or refuses to have them traced; NULL where it can't begin. */
struct recorder *thp_record_open(const struct thp_settings *settings, char *problem, size_t size)
{
	struct recorder *recorder = calloc(1, sizeof(*recorder));

	if (!recorder || load(recorder, settings, problem, size))
		return recorder;
	recorder->refused = errno;
	record_bpf__destroy(recorder->programs);
	recorder->programs = NULL;
	if (load(recorder, settings, problem, size))
		return recorder;
	thp_record_close(recorder);
	return NULL;
}

/* Writes the records that have come to the recording's file, which may grow by `room` bytes. Returns 0 or -errno; -EXFULL: there was no room for
 * all. *count are written. */
int thp_record_take(struct recorder *recorder, int file, size_t room, long *count)
{
	int taken;

	if (!recorder->file) {
		recorder->file = fdopen(dup(file), "w");
		if (!recorder->file)
			return -errno;
		setvbuf(recorder->file, NULL, _IOFBF, PIECE);
	}
	recorder->room = room;
	recorder->count = 0;
	taken = ring_buffer__consume(recorder->ring);
	*count = recorder->count;
	if (fflush(recorder->file))
		return -errno;
	return taken < 0 ? taken : 0;
}

/* At most how many runs no copy of a program made: of each program, the least that one of its copies was left out. */
static uint64_t count_left_out(const struct bpf_object *object)
{
	struct bpf_program *program;
	const char *last = NULL;
	uint64_t sum = 0, least = 0;

	bpf_object__for_each_program(program, object) {
		const char *section = bpf_program__section_name(program);
		struct bpf_prog_info info = {};
		__u32 size = sizeof(info);

		if (bpf_obj_get_info_by_fd(bpf_program__fd(program), &info, &size))
			continue;	/* it isn't loaded */
		if (!last || strcmp(last, section)) {
			sum += least;
			least = UINT64_MAX;
		}
		last = section;
		least = info.recursion_misses < least ? info.recursion_misses : least;
	}
	return sum + least;
}

void thp_record_counters(const struct recorder *recorder, struct thp_counters *counters)
{
	*counters = recorder->programs->bss->counters;
	counters->left_out = count_left_out(recorder->programs->obj);
	counters->refused = recorder->refused;
}

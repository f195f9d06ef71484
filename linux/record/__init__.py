"""Records the kernel's own deferred split queue as a journal, and has `thpcheck` check it.

    options          the command line
    recorder         a recording: a control group, BPF programs (linux/kernel/record.bpf.c), the commands that run
        commands     commands in the control group, from their start to their end
    scratch          temporary files without names: the journal's lines
    records          the kinds and fields of records, which are on disk and read back in passes
    calls            effects of system calls on mappings
    journal_builder  builds a journal from records: it is a TracedScans, which is a ScanEvents, and so on
        traced_scans     the same as function tracing observed it, with its times
        scans            pages that the shrinker took, split and put back, by copies of the queue
        queue_matcher    compares the kernel's queue with the journal's
        mappings         effects of calls, forks and ends of address spaces on pages
        state            pages and their mappings, the queue and the journal so far
        observed         what function tracing observes, compared with the journal
    queue_laws       what records prove by themselves
    reasons          everything that is counted and left out, with what to do
    report           the journal as a file, the output files, the verdict, and what is printed
    workload.c  threads that make, divide and drop huge pages
    __main__    the tool
"""

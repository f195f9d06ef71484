"""Runs scripts on the running kernel, and compares it with `thpsplit`, command by command.

    mappers, mapper.c   the processes that map a script's pages
    states              what is compared: the kernel's looks, known differences by letter, a node by its journal
    generator           random scripts that a kernel can run
    expected_answers    what `thpsplit` reports of a script, command by command
    bench               what a run of scripts begins and ends with: machine, lock, settings, control groups
    pages               the commands, run by the mapping processes
    comparison          what the kernel should show, with the known differences worked out
    runner              one script: command, look, comparison
    shrinking           a script that differs, made small by further runs
    letters             the scripts of linux/letters: how this kernel does each known difference
    options             the command line of thpreplay
    __main__            what is printed: text, JSON; the outputs kept
"""

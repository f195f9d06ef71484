"""Runs a command on another kernel, in a virtual machine of qemu.

    kernels          the kernel's image: of a file, a folder, or a Debian package
    guest_files      what the guest's file system contains: Python, the tools, helpers, the command
    init             the guest's first process; needs nothing of this package
    guest_run        qemu, and one run: the boot, the command, limits of time
    __main__         the command line thpvm
"""

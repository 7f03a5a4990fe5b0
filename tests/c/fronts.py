"""Prints what a program prints for every beginning of captures, and its status: `fronts.py PROGRAM WORD FILE..`.

The program reads each beginning as its standard input. The script makes a beginning of the one before it by one more byte in the same file,
so that it starts one process for each.
"""

import os
import sys
import tempfile


def main():
    program, word, *paths = sys.argv[1:]
    nowhere = os.open(os.devnull, os.O_WRONLY)
    for path in paths:
        with open(path, "rb") as file, tempfile.TemporaryFile(buffering=0) as front:
            data = file.read()
            taken = [(os.POSIX_SPAWN_DUP2, front.fileno(), 0), (os.POSIX_SPAWN_DUP2, nowhere, 2)]
            for end in range(len(data) + 1):
                front.seek(0)
                run = os.posix_spawn(program, [program, word], os.environ, file_actions=taken)
                status = os.waitstatus_to_exitcode(os.waitpid(run, 0)[1])
                os.write(1, f"status {status}\n".encode())
                os.pwrite(front.fileno(), data[end : end + 1], end)


main()

#!/usr/bin/env python3
"""Types a script at a terminal, and prints each answer as it comes, and the status.

usage: type_script.py PROGRAM SECONDS
The program ends with its terminal, and each wait after as many seconds.
"""
import os
import pty
import select
import sys
import termios


def answer(terminal, patience):
    """Returns the next line that comes, or says that none did."""
    line = b""
    while not line.endswith(b"\n"):
        if not select.select([terminal], [], [], patience)[0]:
            return "no answer"
        line += os.read(terminal, 1)
    return line.decode().strip()


def main():
    program, patience = sys.argv[1], float(sys.argv[2])
    child, terminal = pty.fork()
    if child == 0:
        # What is typed isn't to come back.
        flags = termios.tcgetattr(0)
        flags[3] &= ~termios.ECHO
        termios.tcsetattr(0, termios.TCSANOW, flags)
        os.write(1, b"ready\n")
        os.execv(program, [program])
    if answer(terminal, patience) != "ready":
        sys.exit("the terminal isn't ready")
    os.write(terminal, b"memory 512\n")
    for number in (1, 2):
        os.write(terminal, b"print %d\n" % number)
        print(answer(terminal, patience))
    # The end of the input, as it is typed.
    os.write(terminal, b"\x04")
    print("status", os.waitstatus_to_exitcode(os.waitpid(child, 0)[1]))


main()

#!/usr/bin/env python3
"""Plays the longest script that the program takes, of 2^32 bytes, and one that is a byte longer.

    tools/play_longest_script.py [PROGRAM]

PROGRAM is crates/iox_run/out/iox_run if left out, which `rt run` and `rt ci` build. The gate does not run this script:
it sends 8 GiB through the program. The first script has to be played to its end, with status 0. Of the longer one the
lines that ended within the first 2^32 bytes have to be answered, and the status is 1. The answers are compared as they
come. Told are the status, the time, and the most memory that the program had. Exit 1 if an answer or a status is
another, or if the program had more than 16 MiB; 2 if there is no program.

A script is made of 2^16 blocks of 2^16 bytes. The first block creates a service with a node and a client. A block's other
lines are refused or say no command, so that the state stays as it is, and one of them is nearly as long as a line may be.
"""
import os
import pathlib
import re
import subprocess
import sys
import threading
import time

TOP = pathlib.Path(__file__).resolve().parent.parent
BLOCK = 1 << 16
BLOCKS = 1 << 16
MOST_MEMORY = 16 << 20
# The lines that make what stays, with their answers.
FIRST = (
    (b"set request-overflow 0", b"ok"),
    (b"set response-overflow 0", b"ok"),
    (b"create 612f62 1 0 0 0", b"node 0"),
    (b"client 0 1", b"client 0"),
)
# Lines of each block, with their answers; None stands for that of a line that says no command.
REFUSED = (
    (b"create 612f62 2 0 0 0", b"refused ServiceExists"),
    (b"open 1 0 0 0", b"refused NodeIdInUse"),
    (b"nothing of this kind", None),
    (b"receive 7 0", b"refused UnknownNode"),
)


def filled(lines):
    """The lines, and one with as many zeros before its number that all fill a block. It is the last, and has no line feed."""
    begin, end = b"read 0 ", b"77"
    room = BLOCK - sum(len(line) + 1 for line, _ in lines) - len(begin) - len(end) - 1
    return (*lines, (begin + b"0" * room + end, b"refused UnknownNumber"))


def text_of(block):
    """The bytes of a block but for its last line feed."""
    return b"\n".join(line for line, _ in block)


def answers_of(block, number):
    """The answers to a block whose first line has that number."""
    return b"".join(
        (answer or b"bad line %d: unknown command" % line) + b"\n" for line, (_, answer) in enumerate(block, number)
    )


FIRST_BLOCK = filled((*FIRST, *REFUSED))
BLOCK_OF_ALL = filled(REFUSED)


class Sender(threading.Thread):
    """Sends the script, and a byte more if it has to be too long. The last line has a byte in place of its line feed."""

    def __init__(self, running, too_long):
        super().__init__()
        self.running, self.too_long = running, too_long
        self.most_memory = 0

    def run(self):
        file = self.running.stdin
        rest = text_of(BLOCK_OF_ALL)
        try:
            file.write(text_of(FIRST_BLOCK) + b"\n")
            for block in range(1, BLOCKS - 1):
                file.write(rest + b"\n")
                if block % 1024 == 0:
                    self.look()
            file.write(rest + b"7" + (b"7" if self.too_long else b""))
            file.flush()
            self.look()
            file.close()
        except BrokenPipeError:
            print("the program stopped reading early")

    def look(self):
        """Looks how much memory the program had at the most. It may have ended."""
        try:
            status = pathlib.Path(f"/proc/{self.running.pid}/status").read_text()
        except OSError:
            return
        found = re.search(r"^VmHWM:\s*(\d+) kB$", status, re.M)
        self.most_memory = max(self.most_memory, int(found[1]) << 10 if found else 0)


def wanted(too_long):
    """The answers, block by block."""
    yield answers_of(FIRST_BLOCK, 1)
    number = 1 + len(FIRST_BLOCK)
    for block in range(1, BLOCKS):
        # Of the longer script the last line does not end within what is played.
        lines = BLOCK_OF_ALL[:-1] if too_long and block == BLOCKS - 1 else BLOCK_OF_ALL
        yield answers_of(lines, number)
        number += len(BLOCK_OF_ALL)


def fault_of_answers(file, too_long):
    """What is wrong with the answers, or None."""
    for block, answers in enumerate(wanted(too_long)):
        if file.read(len(answers)) != answers:
            return f"the answers to block {block} of {BLOCKS} differ"
    return "there are more answers than lines" if file.read(1) else None


def fault_of(program, too_long):
    """Plays a script, tells how it went, and says what is wrong, or None."""
    began = time.monotonic()
    running = subprocess.Popen([program], stdin=subprocess.PIPE, stdout=subprocess.PIPE)
    sender = Sender(running, too_long)
    sender.start()
    fault = fault_of_answers(running.stdout, too_long)
    running.stdout.close()
    _, ended, used = os.wait4(running.pid, 0)
    running.returncode = os.waitstatus_to_exitcode(ended)
    sender.join()
    print(
        f"{BLOCKS * BLOCK + too_long} bytes: status {running.returncode}, {sender.most_memory >> 10} KiB of memory,"
        f" {used.ru_utime + used.ru_stime:.0f} seconds of a processor, {time.monotonic() - began:.0f} seconds in all"
    )
    if fault is None and running.returncode != int(too_long):
        fault = f"exit status {running.returncode}, wanted {int(too_long)}"
    if fault is None and not 0 < sender.most_memory <= MOST_MEMORY:
        fault = f"it is not seen that it had at most {MOST_MEMORY >> 20} MiB of memory"
    return fault


def main():
    program = pathlib.Path(sys.argv[1]) if len(sys.argv) > 1 else TOP / "crates/iox_run/out/iox_run"
    if not program.is_file():
        print(f"play_longest_script: there is no {program}", file=sys.stderr)
        return 2
    faults = [fault_of(program, too_long) for too_long in (False, True)]
    for name, fault in zip(("the longest script", "a byte more"), faults):
        print(f"{name}: {fault or 'as it should be'}")
    return 1 if any(faults) else 0


if __name__ == "__main__":
    sys.exit(main())

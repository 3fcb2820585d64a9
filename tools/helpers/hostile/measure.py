"""Runs a program and tells what it took: `measure.py SECONDS MEMORY SOURCE REPORT SAID PROGRAM [WORD..]`.

It prints the status, the processor time in seconds and the greatest memory in bytes. It is a process of its own, since a program's
greatest memory counts what the process held that started it.
"""
import os
import resource
import subprocess
import sys


def main():
    seconds, memory = int(sys.argv[1]), int(sys.argv[2])

    def bound():
        resource.setrlimit(resource.RLIMIT_CPU, (seconds, seconds + 1))
        resource.setrlimit(resource.RLIMIT_AS, (memory, memory))

    with open(sys.argv[3], "rb") as source, open(sys.argv[4], "wb") as report, open(sys.argv[5], "wb") as said:
        ran = subprocess.Popen(sys.argv[6:], stdin=source, stdout=report, stderr=said, preexec_fn=bound)
        _, status, used = os.wait4(ran.pid, 0)
    ran.returncode = os.waitstatus_to_exitcode(status)
    print(ran.returncode, used.ru_utime + used.ru_stime, used.ru_maxrss * 1024)


if __name__ == "__main__":
    main()

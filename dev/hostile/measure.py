"""Runs a program for at most so many seconds of processor time, with what it writes in two files, and prints how it ended, the seconds of
processor time that it took, and its most kilobytes of memory. It is a process of its own, since the memory of a program that is started
counts that of the one that starts it."""
import os
import resource
import subprocess
import sys


def main(most, out, err, words):
    """Runs the words."""
    with open(out, "wb") as output, open(err, "wb") as error:
        child = subprocess.Popen(
            words,
            stdin=subprocess.DEVNULL,
            stdout=output,
            stderr=error,
            preexec_fn=lambda: resource.setrlimit(resource.RLIMIT_CPU, (most, most)),
        )
        _, status, used = os.wait4(child.pid, 0)
    child.returncode = os.waitstatus_to_exitcode(status)
    print(child.returncode, used.ru_utime + used.ru_stime, used.ru_maxrss)


if __name__ == "__main__":
    main(int(sys.argv[1]), sys.argv[2], sys.argv[3], sys.argv[4:])

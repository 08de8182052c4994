"""Running a command and measuring it."""
import hashlib
import os
import subprocess
import sys
import tempfile
import time

BENCH = os.path.dirname(os.path.abspath(__file__))
PROGRAM = os.path.join(BENCH, "..", "crates", "pgas", "out", "pgas")


def measure(command, text):
    """The seconds, the greatest memory in KiB, a digest of the output and its size of one run on the text, a file's name.

    The memory is no less than this process's own when it starts the command, which therefore has to be small.
    """
    with open(text, "rb") as source, tempfile.TemporaryFile() as out:
        begin = time.perf_counter()
        child = subprocess.Popen(command, stdin=source, stdout=out)
        _, status, used = os.wait4(child.pid, 0)
        seconds = time.perf_counter() - begin
        child.returncode = os.waitstatus_to_exitcode(status)
        if child.returncode != 0:
            sys.exit(f"{command[0]} ended with status {child.returncode}")
        size = out.seek(0, os.SEEK_END)
        out.seek(0)
        return seconds, used.ru_maxrss, hashlib.file_digest(out, "sha256").digest(), size

#!/usr/bin/env python3
"""Formats HTML files with the built program and with another one of the same command line: processor time, memory, and whether both
write the same bytes and the same line.

    bench/manuals.py crates/bookfmt/out/bookfmt OTHER FILE.."""
import hashlib
import os
import sys
import tempfile

TOP = os.path.dirname(os.path.dirname(os.path.abspath(__file__)))
RUNS = 5


def run(program, words, work):
    """The processor time of one run in seconds, its memory in megabytes, and what it wrote."""
    child = os.posix_spawn(program, [program, *words], os.environ, file_actions=[
        (os.POSIX_SPAWN_OPEN, number, f"{work}/{number}", os.O_WRONLY | os.O_CREAT | os.O_TRUNC, 0o600) for number in (1, 2)])
    _, status, used = os.wait4(child, 0)
    written = hashlib.sha256()
    for number in (1, 2):
        with open(f"{work}/{number}", "rb") as stream:
            # (what this program holds counts as the child's memory)
            while part := stream.read(65536):
                written.update(part)
            written.update(b"\0")
    return used.ru_utime + used.ru_stime, used.ru_maxrss / 1024, (status, written.digest())


def least(program, words, work):
    """The run that took the least time."""
    return min((run(program, words, work) for _ in range(RUNS)), key=lambda it: it[0])


def main(program, other, files):
    with tempfile.TemporaryDirectory() as work:
        with open(f"{work}/sheet", "w", encoding="utf-8"):
            pass
        for file in files:
            words = ["format", f"{TOP}/examples/plain/metrics.txt", file, f"{work}/sheet"]
            time, memory, written = least(program, words, work)
            other_time, other_memory, other_written = least(other, words, work)
            print(f"{os.path.getsize(file) / 1e6:.1f} MB {file}: {time * 1000:.0f} ms, {memory:.0f} MB; "
                  f"{time / max(other_time, 0.001):.2f} and {memory / other_memory:.2f} times the other program; "
                  f"{'the same' if written == other_written else 'DIFFERENT'}", flush=True)


if __name__ == "__main__":
    if len(sys.argv) < 4:
        sys.exit(__doc__)
    main(sys.argv[1], sys.argv[2], sys.argv[3:])

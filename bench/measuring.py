"""Runs a program some times and tells the least processor seconds, and the peak memory in bytes."""

import os
import subprocess
import sys
import tempfile

RUNS = 15


def peak_of(words, source):
    """The peak memory of one run with this file as input. A program that this one starts itself counts what this one holds into its own
    peak, and so GNU time starts it, which holds little."""
    with tempfile.NamedTemporaryFile("r") as told, open(source, "rb") as given:
        ran = subprocess.run(["time", "-f", "%M", "-o", told.name, *words], stdin=given, stdout=subprocess.DEVNULL, stderr=subprocess.DEVNULL, check=False)
        if ran.returncode != 0:
            sys.exit(f"{words} ended with {ran.returncode}")
        return int(told.read().split()[-1]) * 1024


def measured(words, source):
    """Of runs of these words with this file as input, whose output isn't kept."""
    seconds = None
    for _ in range(RUNS):
        with open(os.devnull, "wb") as out:
            pid = os.posix_spawnp(
                words[0],
                words,
                os.environ,
                file_actions=[
                    (os.POSIX_SPAWN_OPEN, 0, source, os.O_RDONLY, 0),
                    (os.POSIX_SPAWN_DUP2, out.fileno(), 1),
                    (os.POSIX_SPAWN_DUP2, out.fileno(), 2),
                ],
            )
            _, status, usage = os.wait4(pid, 0)
        if status != 0:
            sys.exit(f"{words} ended with {status}")
        spent = usage.ru_utime + usage.ru_stime
        seconds = spent if seconds is None else min(seconds, spent)
    return seconds, peak_of(words, source)

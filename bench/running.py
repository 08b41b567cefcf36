"""Runs of a program on a file: its status, and what the run took."""

import os
import re
import subprocess
import threading
import time


def peak_of(process):
    """The peak memory of a process so far, or 0 where it is gone."""
    try:
        with open("/proc/%s/status" % process) as lines:
            for line in lines:
                if line.startswith("VmHWM:"):
                    return int(line.split()[1]) * 1024
    except OSError:
        pass
    return 0


class Watch(threading.Thread):
    """Looks now and then at the peak memory of a child."""

    def __init__(self, process):
        super().__init__(daemon=True)
        self.process = process
        self.peak = 0
        self.over = threading.Event()

    def run(self):
        while not self.over.wait(0.002):
            self.peak = max(self.peak, peak_of(self.process))


class Run:
    """One run of a program on a file."""

    def __init__(self, words, source, target=os.devnull):
        with open(source, "rb") as given, open(target, "wb") as taken:
            began = time.monotonic()
            child = subprocess.Popen(words, stdin=given, stdout=taken, stderr=subprocess.PIPE)
            watch = Watch(child.pid)
            watch.start()
            errors = child.stderr.read()
            _, status, usage = os.wait4(child.pid, 0)
            self.seconds = time.monotonic() - began
            watch.over.set()
            watch.join()
        child.stderr.close()
        child.returncode = os.waitstatus_to_exitcode(status)
        self.status = child.returncode
        self.errors = errors.decode("utf-8", "replace")
        self.processor = usage.ru_utime + usage.ru_stime
        # A child begins as a copy of this script, so that its use of resources tells its own peak only
        # where it is clearly the larger one: the system counts pages in batches.
        self.peak = max(usage.ru_maxrss * 1024, watch.peak)
        if self.peak <= 1.05 * peak_of("self") and watch.peak > 0:
            self.peak = watch.peak

    def trouble(self):
        """What to say of a run that ended with another status than it should."""
        return "status %d, %s" % (self.status, self.errors.strip()[-300:])


def counted(words, source, profile):
    """A run under valgrind, and the instructions that it executed, or None where they are not told."""
    run = Run(["valgrind", "--tool=callgrind", "--callgrind-out-file=" + profile, *words], source)
    found = re.search(r"Collected\s*:\s*(\d+)", run.errors)
    return run, int(found.group(1)) if found else None


def dominant(profile, most):
    """The functions that execute the most instructions: the count, the share and the name of each."""
    made = subprocess.run(["callgrind_annotate", "--auto=no", profile], capture_output=True, text=True)
    rows = re.findall(r"^\s*([\d,]+) \(\s*([\d.]+)%\)\s+(.*)$", made.stdout, re.MULTILINE)
    rows = [row for row in rows if "PROGRAM TOTALS" not in row[2]]
    return [(int(count.replace(",", "")), share, name) for count, share, name in rows[:most]]

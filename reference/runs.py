"""Runs of a built program beside the reference: what the scripts run_*.py share."""
import contextlib
import os
import subprocess
import time

# Every run gets at most 32 MiB of address space.
LIMITED = ["sh", "-c", 'ulimit -v 32768 && exec "$0"']


class Runs:
    """A program, what the reference says that it writes for an input, and how its runs went."""

    def __init__(self, program, reference):
        self.program, self.reference, self.passed = program, reference, []
        self.name = os.path.basename(program)

    def note(self, passed, what):
        """One run more; what was wrong with it is printed."""
        self.passed.append(passed)
        if not passed:
            print(f"{self.name}: {what}")

    def compare(self, what, octets, status, text):
        """The whole text that the reference computes, and status 0."""
        expected = self.reference(octets).encode()
        if status == 0 and text == expected:
            return self.note(True, what)
        at = next((i for i, (a, b) in enumerate(zip(text, expected)) if a != b), min(len(text), len(expected)))
        return self.note(False, f"{what}: status {status}, differs from the reference at octet {at} of its output")

    def at_once(self, what, octets):
        run = subprocess.run(LIMITED + [self.program], input=octets, capture_output=True)
        self.compare(what, octets, run.returncode, run.stdout)

    def in_pieces(self, what, octets):
        """From a pipe that brings a few octets at a time."""
        child = subprocess.Popen(LIMITED + [self.program], stdin=subprocess.PIPE, stdout=subprocess.PIPE)
        with contextlib.suppress(BrokenPipeError):
            for start in range(0, len(octets), 30):
                child.stdin.write(octets[start:start + 30])
                child.stdin.flush()
                time.sleep(0.05)
        text, _ = child.communicate()
        self.compare(what, octets, child.returncode, text)

    def fails(self, what, **streams):
        """Reading or writing fails: status 1, and a reason on standard error."""
        run = subprocess.run([self.program], stderr=subprocess.PIPE, **streams)
        said = f"{what}: status {run.returncode}, and on standard error {run.stderr!r}"
        self.note(run.returncode == 1 and run.stderr != b"", said)

    def failing_streams(self):
        """A directory cannot be read, and /dev/full takes nothing."""
        folder = os.open("/", os.O_RDONLY)
        self.fails("a directory as input", stdin=folder, stdout=subprocess.DEVNULL)
        os.close(folder)
        with open("/dev/full", "wb") as full:
            self.fails("no space for the output", stdin=subprocess.DEVNULL, stdout=full)

    def report(self):
        """The last line, and the status to exit with."""
        print(f"{self.name}: {sum(self.passed)} of {len(self.passed)} runs as they should be")
        return 0 if all(self.passed) else 1

"""Runs of one program, each compared with the second implementation."""
import re
import signal
import subprocess
from pathlib import Path

from rules import listing

PATIENCE = 20  # seconds after which a run counts as hanging


class Comparison:
    """Runs of one program, what they were compared with and what was wrong."""

    def __init__(self, program, folder):
        self.program, self.folder = program, Path(folder)
        self.runs = self.datagrams = 0
        self.faults = []
        self.name = self.process = None
        signal.signal(signal.SIGALRM, self.hangs)

    def hangs(self, *_):
        """Ends the run under way, so that whoever waits for it goes on."""
        if self.process.poll() is None:
            self.fault(f"{self.name}: does not end")
            self.process.kill()

    def fault(self, text):
        self.faults.append(text)
        if len(self.faults) <= 20:
            print(f"listing: {text}")

    def start(self, name, data=None, **how):
        """The program on the bytes as a file, or on how["stdin"]."""
        if data is not None:
            (self.folder / "input").write_bytes(data)
            how["stdin"] = open(self.folder / "input", "rb")
        self.name, self.process = name, subprocess.Popen([self.program], **how)
        if data is not None:
            how["stdin"].close()
        signal.alarm(PATIENCE)
        return self.process

    def judge(self, name, got, wanted):
        self.runs += 1
        self.datagrams += sum(int(count) for count in re.findall(rb"^handed (\d+)", wanted, re.M))
        if got == wanted:
            return
        ours, theirs = wanted.split(b"\n"), got.split(b"\n")
        at = next((i for i, (a, b) in enumerate(zip(ours, theirs)) if a != b), min(len(ours), len(theirs)))
        self.fault(f"{name}: line {at + 1} is {theirs[at:at + 1]}, wanted {ours[at:at + 1]}")

    def run(self, name, data):
        """The program's text for the bytes, compared with the second implementation's."""
        process = self.start(name, data, stdout=subprocess.PIPE, stderr=subprocess.DEVNULL)
        got = process.communicate()[0]
        if process.returncode < 0:
            self.fault(f"{name}: ended by signal {-process.returncode}")
        self.judge(name, got, listing(data))
        return name, data, got

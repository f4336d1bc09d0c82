"""Runs a program on what a case gives it, under a limit of memory and a clock, and says what is wrong with how it ends."""
import os
import resource
import shutil
import signal
import subprocess

# What a run may have of addresses, in bytes; of seconds of a processor, and of those for each MiB of its keys; and how many
# times as long it may take by the clock on the wall, beside other work.
MOST_MEMORY = 128 << 20
SECONDS = 60
SECONDS_A_MIB = 120
BESIDE_OTHERS = 20
# How much of a screen is looked at.
MOST_SCREEN = 16 << 20
# The statuses that docs/REFERENCE.md lists. Under the limit memory is never wanting, so that 6 (3 of lamps) may not come.
STATUSES = {
    "exec20": (0, 1, 2, 3, 4, 5, 7, 8, 9), "spool20": (0, 1, 2, 3, 5, 8, 9), "batch20": (0, 1, 2, 3, 5, 8, 9, 10),
    "mm20": (0, 1, 2, 3, 4, 5, 7, 8, 9), "lamps": (0, 1, 2), "tt_program": (0, 4, 5, 7),
}
# With these words each program reads the image OUT, does nothing, and writes it to BACK.
READ_BACK = {
    "exec20": (["OUT", "BACK"], 0), "spool20": (["OUT", "BACK"], 0), "batch20": (["OUT", "BACK", "NO-SUCH.FILE"], 10),
    "mm20": (["OUT", "BACK"], 0),
}
WRITES = (0, 4, 5, 7, 10)


class Case:
    """One run: the program and its words, its keys, the files that are there, and what must come of it."""

    def __init__(self, name, program, words, keys=b"", files=None, statuses=None, screen=None, out=None):
        self.name, self.program, self.keys = name, program, keys
        self.words = [os.fsencode(word) for word in words]
        self.files, self.statuses, self.screen, self.out = files or {}, statuses, screen, out

    def target(self):
        """The name of the file that the program writes, where it takes the words."""
        place = -1 if self.program == "exec20" else 1
        return os.fsdecode(self.words[place]) if len(self.words) > 1 else ""


def limited(seconds):
    """Sets the limits of a program that is about to begin."""
    resource.setrlimit(resource.RLIMIT_AS, (MOST_MEMORY, MOST_MEMORY))
    resource.setrlimit(resource.RLIMIT_CPU, (seconds, seconds + 1))
    resource.setrlimit(resource.RLIMIT_CORE, (0, 0))
    signal.signal(signal.SIGPIPE, signal.SIG_IGN)


class Runner:
    """Runs the programs in a folder of its own."""

    def __init__(self, programs, folder):
        self.programs, self.folder = programs, folder

    def path(self, name):
        return os.path.join(self.folder, name)

    def read(self, name):
        """The bytes of a file, or None where there is none."""
        try:
            with open(self.path(name), "rb") as file:
                return file.read()
        except OSError:
            return None

    def write(self, name, held):
        with open(self.path(name), "wb") as file:
            file.write(held)

    def empty(self):
        """Takes away what the case before left."""
        shutil.rmtree(self.folder, ignore_errors=True)
        os.makedirs(self.path("FOLDER"))

    def start(self, program, words, keys, screen="screen"):
        """The status of a run, or None where the clock ran out."""
        self.write("keys", keys)
        seconds = SECONDS + SECONDS_A_MIB * len(keys) // (1 << 20)
        with open(self.path("keys"), "rb") as given, open(self.path(screen), "wb") as shown, \
                open(self.path("log"), "wb") as log:
            child = subprocess.Popen([self.programs[program], *words], stdin=given, stdout=shown, stderr=log,
                                     cwd=self.folder, env={}, preexec_fn=lambda: limited(seconds))
            try:
                ended = child.wait(BESIDE_OTHERS * seconds)
                return None if ended == -signal.SIGXCPU else ended
            except subprocess.TimeoutExpired:
                child.kill()
                child.wait()
                return None

    def faults(self, case):
        """Runs a case, and gives each thing that is wrong with it."""
        self.empty()
        for name, held in case.files.items():
            self.write(name, held)
        quiet = len(case.keys) > MOST_SCREEN // 64
        status = self.start(case.program, case.words, case.keys, os.devnull if quiet else "screen")
        wrong = [told for told in (self.wrong_status(case, status),) if told]
        if wrong:
            return wrong
        if case.screen is not None and self.read("screen") != case.screen:
            wrong.append(f"shows {self.read('screen')[:200]!r}, and not {case.screen[:200]!r}")
        if case.program == "exec20" and case.words[:1] == [b"-w"] and status == 0:
            wrong += self.wrong_log(case.keys)
        return wrong + self.wrong_files(case, status)

    def wrong_status(self, case, status):
        """What is wrong with a status."""
        if status is None:
            return "is not done when the clock ends"
        if status < 0:
            return f"ends by signal {-status}"
        if status not in STATUSES[case.program]:
            return f"ends with {status}, which is not documented" if status != 6 else "passes the limit of memory"
        if case.statuses is not None and status not in case.statuses:
            return f"ends with {status}, and not with {' or '.join(map(str, case.statuses))}"
        return None

    def wrong_files(self, case, status):
        """What is wrong with OUT, and with the files that were there."""
        target = case.target()
        wrong = [f"changes {name}" for name, held in case.files.items() if name != target and self.read(name) != held]
        if case.program not in READ_BACK or target != "OUT" or case.words[:1] == [b"-g"]:
            return wrong
        out = self.read("OUT")
        if status not in WRITES:
            return wrong + (["writes OUT"] if out != case.files.get("OUT") else [])
        if out is None:
            return [*wrong, "writes no OUT"]
        if case.out is not None and out != case.out:
            wrong.append("writes another OUT than it must")
        words, wanted = READ_BACK[case.program]
        got = self.start(case.program, words, b"", "again")
        if got != wanted:
            wrong.append(f"ends with {got} where it reads its OUT back")
        if self.read("BACK") != out:
            wrong.append("writes other bytes where it reads its OUT back")
        return wrong

    def wrong_log(self, keys):
        """What is wrong with a log: each key that was taken has a line that begins with it."""
        told = bytes(int(line[:2], 16) for line in self.read("log").splitlines())
        ended = self.read("screen").endswith(b"Logged out\r\n")
        return [] if (keys.startswith(told) if ended else told == keys) else ["logs other keys than it was given"]

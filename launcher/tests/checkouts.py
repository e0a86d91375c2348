"""Small checkouts for the tests of the launcher, with a stand-in for the kit."""

import os
import pathlib
import shutil
import signal
import subprocess
import tempfile
import time

HERE = pathlib.Path(__file__).resolve().parent
TOP = HERE.parent.parent

# Two libraries over a lower one, one of them with a longer chain, and a crate that the program is not made of.
CRATES = """# The crates of a test.
low:
left: low
right: low
above: right low
pc_cli: left above
other: low
"""

SECONDS_TO_WAIT = 60

NOBODY = 65534


class Ran:
    """What a call gave."""

    def __init__(self, ended):
        self.status = ended.returncode
        self.out = ended.stdout
        self.err = ended.stderr


class Checkout:
    """A checkout in a folder of its own, which goes at the end."""

    def __init__(self, name="checkout"):
        self.room = pathlib.Path(tempfile.mkdtemp(prefix="launcher-test-"))
        self.room.chmod(0o755)
        self.top = self.room / name
        self.work = self.room / "work"
        self.stand_in = self.room / "stand-in"
        self.temporary = self.room / "temporary"
        for folder in (self.top, self.work, self.stand_in, self.temporary, self.room / "bin"):
            folder.mkdir()
        self.stand_in.chmod(0o777)
        shutil.copy(HERE / "stand_in_rt", self.room / "bin" / "rt")
        self.copy_launcher()
        self.write_sources()

    def copy_launcher(self):
        shutil.copy(TOP / "rcap", self.top / "rcap")
        shutil.copytree(TOP / "launcher", self.top / "launcher", ignore=shutil.ignore_patterns("tests", "__pycache__"))

    def write_sources(self):
        (self.top / "HANDLES").write_text("Handles allowed: none.\n")
        (self.top / "crates.txt").write_text(CRATES)
        for line in CRATES.splitlines()[1:]:
            self.source(line.partition(":")[0]).parent.mkdir(parents=True)
            self.source(line.partition(":")[0]).write_text(f"the text of {line}\n")

    def source(self, crate):
        return self.top / "crates" / crate / "src" / ("main.rt" if crate == "pc_cli" else "lib.rt")

    def environment(self, **more):
        environment = {
            "PATH": f"{self.room / 'bin'}:{os.environ['PATH']}",
            "HOME": str(self.room / "home"),
            "STAND_IN": str(self.stand_in),
            "TMPDIR": str(self.temporary),
        }
        return environment | more

    def start(self, *words, launcher=None, environment=None, **how):
        streams = {"stdin": subprocess.DEVNULL, "stdout": subprocess.PIPE, "stderr": subprocess.PIPE}
        how = streams | {"cwd": self.work, "env": environment or self.environment(), "start_new_session": True} | how
        return subprocess.Popen([launcher or self.top / "rcap", *words], **how)

    def call(self, *words, data=None, **how):
        if data is not None:
            how["stdin"] = subprocess.PIPE
        command = self.start(*words, **how)
        out, err = command.communicate(data, timeout=SECONDS_TO_WAIT)
        return Ran(subprocess.CompletedProcess(command.args, command.returncode, out, err))

    def calls(self, verb):
        """The crates for which the stand-in was called so, in order."""
        file = self.stand_in / "calls"
        lines = file.read_text().splitlines() if file.exists() else []
        return [line.split()[1] for line in lines if line.split()[0] == verb]

    def words_of(self, verb):
        """The words of each call of the stand-in after the verb and the crate, in order."""
        return [line.split()[2:] for line in (self.stand_in / "calls").read_text().splitlines() if line.split()[0] == verb]

    def tell(self, name, text=""):
        """Puts a file where the stand-in looks for it."""
        (self.stand_in / name).write_text(text)

    def take_back(self, name):
        """Takes such a file away."""
        (self.stand_in / name).unlink()

    def forget_calls(self):
        (self.stand_in / "calls").unlink(missing_ok=True)

    def wait_for_call(self, verb, crate=None):
        """Waits until the stand-in was called so, for this crate or for any."""
        end = time.monotonic() + SECONDS_TO_WAIT
        while not any(crate in (None, it) for it in self.calls(verb)):
            assert time.monotonic() < end, f"rt {verb} was not called for {crate or 'any crate'}"
            time.sleep(0.02)

    def processes(self):
        """The processes that were started for this checkout, by what is in their environment."""
        mark = os.fsencode(f"STAND_IN={self.stand_in}")
        found = []
        for folder in pathlib.Path("/proc").iterdir():
            if folder.name.isdigit():
                try:
                    if mark in (folder / "environ").read_bytes():
                        found.append(int(folder.name))
                except OSError:
                    pass
        return found

    def end(self):
        """Ends what was started here, and removes the folder."""
        for number in self.processes():
            try:
                os.kill(number, signal.SIGKILL)
            except ProcessLookupError:
                pass
        subprocess.run(["chmod", "-R", "u+w", self.room], check=False)
        shutil.rmtree(self.room)

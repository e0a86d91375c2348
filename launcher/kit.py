"""The kit of Rattle, called by its command `rt`."""

import os
import signal
import subprocess

from report import CannotAnswer, why

# How long a stopped command has to remove what it made.
SECONDS_TO_END = 5


def start(words, folder, log, temporary):
    """Starts a command of the kit in a folder, with what it says in an open file and its own files below `temporary`."""
    how = {"stdin": subprocess.DEVNULL, "stdout": log, "stderr": log}
    environment = {**os.environ, "TMPDIR": str(temporary)}
    if not os.path.isdir(folder):
        raise CannotAnswer(f"{folder} is not there: this is no whole checkout")
    try:
        return subprocess.Popen(["rt", *words], cwd=folder, env=environment, start_new_session=True, **how)
    except OSError as error:
        raise CannotAnswer(f"rt does not start ({error.strerror}): the kit of Rattle is not on the path") from error


def stop(command):
    """Ends a command that was started, with all that it started."""
    for number in (signal.SIGTERM, signal.SIGKILL):
        try:
            os.killpg(command.pid, number)
            command.wait(SECONDS_TO_END)
            return
        except ProcessLookupError:
            return
        except subprocess.TimeoutExpired:
            pass


def identity():
    """The kit's line about itself."""
    try:
        said = subprocess.run(["rt", "version"], stdin=subprocess.DEVNULL, capture_output=True, check=False)
    except OSError as error:
        raise CannotAnswer(f"rt does not start ({why(error)}): the kit of Rattle is not on the path") from error
    return " ".join(said.stdout.decode(errors="replace").split()) or "of no name"

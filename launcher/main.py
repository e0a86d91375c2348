"""The part of the launcher that is more than finding what is kept: main.py TOP find|prove|version.

`find` writes the path of the program that is to answer. The status is 0, 125 if the launcher cannot answer, 10 if standard
output fails, and 128 and the number of a signal that ended it."""

import os
import pathlib
import signal
import sys

# The interpreter is started apart from its surroundings, and so from this folder too.
sys.path.insert(0, os.path.dirname(os.path.realpath(__file__)))

from report import CANNOT_ANSWER, OUTPUT_FAILED, CannotAnswer, Stopped, say, why  # noqa: E402

STOPPING_SIGNALS = (signal.SIGINT, signal.SIGTERM, signal.SIGHUP)


def stop(number, _):
    """Has a signal that asks for the end raise, so that what was started is ended first."""
    for it in STOPPING_SIGNALS:
        signal.signal(it, signal.SIG_IGN)
    raise Stopped(number)


def write(text):
    """Writes to standard output, and returns the status."""
    try:
        sys.stdout.buffer.write(os.fsencode(text))
        sys.stdout.flush()
    except (AttributeError, OSError):
        # What could not be written is not tried again at the end.
        sys.stdout = None
        return OUTPUT_FAILED
    return 0


def do(command, top):
    """Does what the launcher was called for, and returns the status."""
    if command == "prove":
        import prove

        prove.prove(top)
        return 0
    if command == "version":
        import version

        return write(version.lines(top))
    import unproved

    return write(f"{unproved.find(top)}\n")


def main():
    """Ends with a status in any case."""
    for number in STOPPING_SIGNALS:
        if signal.getsignal(number) != signal.SIG_IGN:
            signal.signal(number, stop)
    try:
        return do(sys.argv[2], pathlib.Path(sys.argv[1]))
    except CannotAnswer as failed:
        say(*failed.args)
    except OSError as error:
        say(f"the system refused: {why(error)}")
    except Stopped as stopped:
        return 128 + stopped.args[0]
    except Exception as error:  # noqa: BLE001
        say(f"a fault of the launcher: {type(error).__name__}: {error}")
    return CANNOT_ANSWER


sys.exit(main())

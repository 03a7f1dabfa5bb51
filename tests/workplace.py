"""What each script begins with: the word for the program, and a folder that doesn't stay."""
import argparse
import contextlib
import os
import signal
import tempfile


def parser(text):
    """The parser of a script's words; the text is what `--help` says first."""
    made = argparse.ArgumentParser(description=text,
                                   formatter_class=argparse.RawDescriptionHelpFormatter)
    made.add_argument("rescue", metavar="RESCUE", type=program, help="the built program")
    return made


def program(path):
    """The whole path of a program that can be run."""
    if not os.path.isfile(path) or not os.access(path, os.X_OK):
        raise argparse.ArgumentTypeError(f"{path} is no program")
    return os.path.abspath(path)


def stop(number, _frame):
    """What a signal does that stops a script: it leaves all folders by their own ways."""
    raise SystemExit(128 + number)


@contextlib.contextmanager
def workplace(within=None):
    """A new folder, which the script works in. It goes, also where the script is stopped."""
    for number in (signal.SIGTERM, signal.SIGHUP):
        signal.signal(number, stop)
    with tempfile.TemporaryDirectory(dir=within, ignore_cleanup_errors=True) as here:
        os.chdir(here)
        try:
            yield here
        finally:
            os.chdir("/")

"""The beginning of each recipe in Python, before it imports any package. Sets the place of the package rice121, for this process and those
that it starts, and the messages for wrong use and for a missing package."""
import os
import sys

# `make python` leaves it there. A virtual environment that has the wheel needs neither.
FOLDER = os.path.realpath(os.environ.get("RICE_PYTHON", os.path.join(os.path.dirname(os.path.abspath(__file__)), "../out/python")))
if os.path.isdir(FOLDER):
    os.environ["PYTHONPATH"] = FOLDER
    sys.path.insert(0, FOLDER)


def usage():
    """Ends the program with the usage that its first lines state."""
    print("usage:" + sys.modules["__main__"].__doc__.partition("usage:")[2].rstrip(), file=sys.stderr)
    sys.exit(2)


def name_what_is_missing(kind, error, trace):
    """Prints which package this Python lacks, not a trace."""
    if not issubclass(kind, ModuleNotFoundError):
        sys.__excepthook__(kind, error, trace)
        return
    print(f"{sys.executable} has no package {error.name}: docs/COOKBOOK.md says what to install", file=sys.stderr)


sys.excepthook = name_what_is_missing

"""What the tests of the Python module and of the command line share: the repository's folder, and what is expected, counted."""
import os

ROOT = os.path.dirname(os.path.dirname(os.path.abspath(__file__)))
passed = failed = 0


def expect(name, right):
    global passed, failed
    passed, failed = passed + bool(right), failed + (not right)
    if not right:
        print(f"FAILED {name}")


def ended():
    """The closing line, and the exit status."""
    print(f"{passed} passed, {failed} failed")
    return failed != 0

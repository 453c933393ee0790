"""What a play of hd ended with, the files that it found and left, and the count of what was tried."""
import argparse
import collections
import os
import tempfile

Done = collections.namedtuple("Done", "status out err")


def read(name):
    """The bytes of a file; None where there is none."""
    try:
        with open(name, "rb") as file:
            return file.read()
    except FileNotFoundError:
        return None


def write(name, data):
    with open(name, "wb") as file:
        file.write(data)


class Count:
    """How many cases were tried, and how many of them were wrong."""

    def __init__(self):
        self.tried = self.wrong = 0

    def expect(self, what, is_right, told=""):
        """Counts a case, and tells of one that is wrong."""
        self.tried += 1
        if not is_right:
            self.wrong += 1
            print(f"WRONG {what}: {told}")

    def status(self):
        """Says how many there were; the status with which a test ends."""
        print(f"{self.tried} cases, {self.wrong} wrong")
        return 1 if self.wrong else 0


def try_cases(tester_of, told):
    """Plays random cases as the words of the command line ask for, in a folder of their own; `told` says what else is told of the tester. The status with which
    the test ends."""
    parser = argparse.ArgumentParser()
    parser.add_argument("hd")
    parser.add_argument("--cases", type=int, default=300)
    parser.add_argument("--seed", type=int, default=1)
    given = parser.parse_args()
    tester = tester_of(given.hd, given.seed)
    with tempfile.TemporaryDirectory(prefix="hd-cases-") as folder:
        os.chdir(folder)
        tester.play(given.cases)
    print(told(tester))
    print(f"{tester.cases} cases, {tester.wrong} wrong")
    return 1 if tester.wrong else 0

"""What crates/printing_cases has to write, as Python prints the same values, a truth value in small letters.

    printing.py FOLDER    writes FOLDER/stdout; the values stand in the program, which reads nothing
"""

import sys
from pathlib import Path


def refused(number):
    """Whether no u64 holds it."""
    return str(not 0 <= number < 2**64).lower()


LINES = [
    (2**64 - 1, 2**128 - 1, -(2**63), "text"),
    (2**64, 0, -1, 0, 1, "a", "", "b"),
    (2**64 - 1, 0, 9, 10, 100, refused(2**64), refused(-1)),
]


def main():
    told = ["".join(f"{value} " for value in line) for line in LINES]
    (Path(sys.argv[1]) / "stdout").write_text("\n".join(told) + "\n")


if __name__ == "__main__":
    main()

"""The words of a script of bench/ or compare/: its help, and the program that it runs."""
import os
import subprocess
import sys

TOP = os.path.dirname(os.path.dirname(os.path.abspath(__file__)))


def or_help(text, least=0):
    """Prints the script's text and ends where help is asked for, or where there are fewer words than it needs."""
    words = sys.argv[1:]
    if words[:1] in (["-h"], ["--help"]):
        print(text.strip())
        sys.exit(0)
    if len(words) < least:
        print(text.strip(), file=sys.stderr)
        sys.exit(2)


def program(text):
    """The program that the first word names, or else the one that the launcher of this repository runs."""
    or_help(text)
    if sys.argv[1:]:
        return os.path.abspath(sys.argv[1])
    return subprocess.run([os.path.join(TOP, "imagen"), "--program"], stdout=subprocess.PIPE, text=True, check=True).stdout.rstrip("\n")


if __name__ == "__main__":
    print(__doc__)

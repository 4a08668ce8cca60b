"""Where the built program is."""
import os
import sys

TOP = os.path.dirname(os.path.dirname(os.path.abspath(__file__)))


def find_program():
    """The program of the first word, or else the one that is built. Where it is not there, says how to build it."""
    program = sys.argv[1] if len(sys.argv) > 1 else os.path.join(TOP, "crates", "swharc", "out", "swharc")
    program = os.path.abspath(program)
    if not os.access(program, os.X_OK) or os.path.isdir(program):
        print("%s is not there. The program is built by" % program)
        print("    (cd %s && rt run -- init \"$(mktemp -d)/A\")" % os.path.join(TOP, "crates", "swharc"))
        sys.exit(2)
    return program

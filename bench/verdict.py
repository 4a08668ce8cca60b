"""Figures beside their bounds, a line each in one form: what was measured, the figure, its bound, and `met` or `SHORT`."""
import sys

MET, SHORT = "met", "SHORT"


def written(number):
    """With at most three decimals, and none that says nothing."""
    return ("%.3f" % number).rstrip("0").rstrip(".")


class Verdict:
    """Whether all figures of a script are within their bounds."""

    def __init__(self):
        self.is_short = False

    def say(self, what, figure, bound, is_met):
        print("%-60s %10s  %-16s %s" % (what, figure, bound, MET if is_met else SHORT), flush=True)
        self.is_short = self.is_short or not is_met

    def at_most(self, what, figure, bound):
        self.say(what, written(figure), "at most " + written(bound), figure <= bound)

    def at_least(self, what, figure, bound):
        self.say(what, written(figure), "at least " + written(bound), figure >= bound)

    def below(self, what, figure, bound):
        self.say(what, written(figure), "below " + written(bound), figure < bound)

    def as_told(self, what, wrong=None):
        """Of what may go in one way alone. Where it went in another, `wrong` says how."""
        if wrong is not None:
            print("%s: %s" % (what, wrong))
        self.say(what, "as told" if wrong is None else "otherwise", "as told", wrong is None)

    def end(self):
        """Ends the script, with status 1 where a figure falls short."""
        sys.exit(1 if self.is_short else 0)

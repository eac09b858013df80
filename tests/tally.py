"""Cases counted by kind: how many were right and how many wrong."""
from collections import Counter

SHOWN = 2  # wrong cases of a kind that are printed


class Tally:
    def __init__(self):
        self.right, self.wrong = Counter(), Counter()

    def note(self, kind, same, asked, due, got):
        """Counts a case. The first wrong ones of its kind are printed."""
        self.right[kind] += same
        self.wrong[kind] += not same
        if not same and self.wrong[kind] <= SHOWN:
            print("  wrong: %s: %s\n    due %.400s\n    got %.400s" % (kind, asked, due, got))

    def show(self):
        for kind in sorted(self.right):
            print("  %-36s %5d same, %d other" % (kind, self.right[kind], self.wrong[kind]))

    def write(self, counts):
        """The numbers of right and wrong cases, into the file that the command line names for them."""
        with open(counts, "w") as file:
            file.write("%d %d\n" % (sum(self.right.values()), sum(self.wrong.values())))

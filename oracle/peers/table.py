"""The table of DIR/ours beside DIR/r and DIR/scikit-bio, where these are: python3 table.py DIR."""
import math
import sys
from pathlib import Path

WHAT = {"location": "F", "dispersion": "dispersion F", "values": "8 values"}


def read(file):
    """(lot, what) -> seconds (None where they are told elsewhere), values."""
    found = {}
    for line in file.read_text().splitlines():
        lot, what, seconds, *values = line.split()
        found[lot, what] = (None if seconds == "-" else float(seconds), [float(x) for x in values])
    return found


def milliseconds(results):
    """The least of the lots."""
    times = [seconds for seconds, _ in results if seconds is not None]
    if not times:
        return "with F"
    least = 1e3 * min(times)
    return f"{least:,.0f}" if least >= 100 else f"{least:.2g}"


def difference(ours, theirs):
    """The largest relative difference."""
    pairs = [pair for (_, a), (_, b) in zip(ours, theirs) for pair in zip(a, b, strict=True)]
    all_of_them = [abs(b - a) / abs(a) for a, b in pairs]
    # a NaN is never the largest
    return f"{max(all_of_them):.0e}" if all(map(math.isfinite, all_of_them)) else "not finite"


def main(to):
    ours = read(to / "ours")
    others = [(name, read(to / file)) for name, file in [("R", "r"), ("scikit-bio", "scikit-bio")] if (to / file).exists()]
    head = ["lots", "what", "ours, ms"] + [f"{name}, {of}" for name, _ in others for of in ["difference", "ms"]]
    print("| " + " | ".join(head) + " |")
    print("|---" * len(head) + "|")
    # kind and size, in the order of the file
    for lots in dict.fromkeys(lot.rsplit("-", 1)[0] for lot, _ in ours):
        for what, name in WHAT.items():
            keys = [key for key in ours if key[1] == what and key[0].rsplit("-", 1)[0] == lots]
            here = [ours[key] for key in keys]
            row = [lots.replace("-", ", n = "), name, milliseconds(here)]
            for _, other in others:
                there = [other[key] for key in keys]
                row += [difference(here, there), milliseconds(there)]
            print("| " + " | ".join(row) + " |")


main(Path(sys.argv[1]))

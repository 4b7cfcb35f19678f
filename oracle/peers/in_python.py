"""Each lot by scikit-bio (permanova, permdisp about centroids, pcoa): DIR/scikit-bio, in the form of DIR/ours."""
import sys
import time
import warnings
from pathlib import Path

import numpy as np
from skbio import DistanceMatrix
from skbio.stats.distance import permanova, permdisp
from skbio.stats.ordination import pcoa

warnings.simplefilter("ignore")


def seconds(call):
    """Processor seconds of a call: as many calls as fill half a second, one at least."""
    start, calls = time.process_time(), 0
    while calls < 1 or time.process_time() - start < 0.5:
        call()
        calls += 1
    return (time.process_time() - start) / calls


def main(to):
    lines = []
    for lot in sorted(path for path in to.iterdir() if path.is_dir()):
        d = DistanceMatrix(np.loadtxt(lot / "distances"))
        labels = (lot / "labels").read_text().split()
        calls = {
            "location": lambda: [permanova(d, labels, permutations=999)["test statistic"]],
            "dispersion": lambda: [permdisp(d, labels, test="centroid", permutations=999)["test statistic"]],
            "values": lambda: pcoa(d).eigvals[:8],
        }
        for what, call in calls.items():
            lines.append(" ".join([lot.name, what, repr(seconds(call)), *(repr(float(x)) for x in call())]))
    (to / "scikit-bio").write_text("\n".join(lines) + "\n")


main(Path(sys.argv[1]))

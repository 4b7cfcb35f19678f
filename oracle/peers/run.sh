#!/bin/sh
# The port beside vegan, ape and scikit-bio on the same lots: one table, on standard output. README.md says what it needs.
#   run.sh ORACLE [DIR]    ORACLE: the oracle, built with the feature `port`; DIR: where the lots and the answers stay
set -eu
here=$(dirname "$0")
oracle=$1
to=${2:-$(mktemp -d)}
[ $# -gt 1 ] || trap 'rm -rf "$to"' EXIT
export OMP_NUM_THREADS=1 OPENBLAS_NUM_THREADS=1
rm -f "$to/r" "$to/scikit-bio"
"$oracle" peers "$to"
Rscript "$here/in_r.R" "$to" || echo "no column for R: r-cran-vegan and r-cran-ape are wanted" >&2
/usr/bin/python3 "$here/in_python.py" "$to" || echo "no column for scikit-bio: python3-skbio is wanted" >&2
/usr/bin/python3 "$here/table.py" "$to"

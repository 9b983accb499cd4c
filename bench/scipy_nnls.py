#!/usr/bin/env python3
"""Times SciPy's nnls on the problems that `bench nnls FILE` wrote, and holds its answers to ours.

    bench/scipy_nnls.py FILE

SciPy is called as its users call it: the time includes its wrapper in Python and its copies.
"""
import statistics
import sys
import time

import numpy
import scipy
from scipy.optimize import nnls

RUNS = 101


def read(path):
    """The problems as (a, b, our x)."""
    data = open(path, "rb").read()
    count, m, n = numpy.frombuffer(data, "<u8", 3)
    rows = numpy.frombuffer(data, "<f8", offset=24).reshape(int(count), int(m * n + m + n))
    for row in rows:
        # Fortran's order and a copy of its own, so that SciPy need not turn the matrix.
        yield numpy.asfortranarray(row[:m * n].reshape(m, n)), row[m * n:m * n + m].copy(), row[m * n + m:]


def seconds(problems):
    start = time.thread_time()
    for a, b, _ in problems:
        nnls(a, b)
    return time.thread_time() - start


def main():
    problems = list(read(sys.argv[1]))
    seconds(problems)
    median = statistics.median(seconds(problems) for _ in range(RUNS)) / len(problems) * 1e6
    # x is not unique where the residual is zero, so residuals are compared.
    apart = max(abs(nnls(a, b)[1] - numpy.linalg.norm(a @ x - b)) for a, b, x in problems)
    print(f"SciPy {scipy.__version__}, nnls 18x66: {median:.1f} us a call, residuals within {apart:.0e} of ours")


main()

#!/usr/bin/env python3
"""Solves the problem of examples/valves.c by SciPy's SLSQP and by NLopt's, as their users call them.

    /usr/bin/python3 bench/valves.py

SciPy and NLopt's Python module come from the system (Debian: python3-scipy, python3-nlopt); one that
is missing is left out. Slopes are given; SciPy is asked for its own differences too. Printed are the answer, what it cost and how far it is from
the root of the three conditions that hold there, worked out here with 60 digits.
"""
import math
from decimal import Decimal, getcontext

SIZE, SUPPLY, LEAST = (900.0, 700.0), (8.0, 7.2), (150.0, 190.0)
DEMAND, SET_POINT, RANGE = 520.0, (0.60, 0.55, 6.0), 50.0
LOWER, UPPER = (0.05, 0.05, 5.5), (1.0, 1.0, 6.5)
TOLERANCE = 1e-9


def flow(valve, x):
    return SIZE[valve] * RANGE ** (x[valve] - 1.0) * math.sqrt(SUPPLY[valve] - x[2])


def flow_slopes(valve, x):
    slopes = [0.0, 0.0, -0.5 / (SUPPLY[valve] - x[2])]
    slopes[valve] = math.log(RANGE)
    return [flow(valve, x) * slope for slope in slopes]


def objective(x):
    return sum((x[i] - SET_POINT[i]) ** 2 for i in range(3))


def gradient(x):
    return [2.0 * (x[i] - SET_POINT[i]) for i in range(3)]


def balance(x):
    return flow(0, x) + flow(1, x) - DEMAND


def balance_slopes(x):
    return [a + b for a, b in zip(flow_slopes(0, x), flow_slopes(1, x))]


def answer():
    """The openings of which the flows are DEMAND - LEAST[1] and LEAST[1] at a pressure, and the
    pressure at which the objective is least: its derivative's root, by Newton's method."""
    getcontext().prec = 60
    want = [Decimal(DEMAND) - Decimal(LEAST[1]), Decimal(LEAST[1])]
    spread, goal = Decimal(RANGE).ln(), [Decimal(value) for value in SET_POINT]
    size, supply = [Decimal(v) for v in SIZE], [Decimal(v) for v in SUPPLY]

    def opening(i, p):
        return 1 + (want[i] / (size[i] * (supply[i] - p).sqrt())).ln() / spread

    def derivative(p):
        moved = sum((opening(i, p) - goal[i]) / (2 * spread * (supply[i] - p)) for i in range(2))
        return moved + p - goal[2]

    p, step = goal[2], Decimal(10) ** -25
    for _ in range(30):
        p -= derivative(p) * step / (derivative(p + step) - derivative(p))
    return [float(opening(0, p)), float(opening(1, p)), float(p)]


def show(name, x, cost):
    away = max(abs(found - exact) for found, exact in zip(x, answer()))
    openings = f"{x[0]:.4f} and {x[1]:.4f}, header at {x[2]:.4f} bar"
    print(f"{name:<21} {cost} evaluations, objective {objective(x):.9f}, {openings}; away by {away:.1e}")


def by_scipy():
    import scipy
    from scipy.optimize import minimize
    constraints = [{"type": "eq", "fun": balance, "jac": balance_slopes}]
    for i in range(2):
        constraints.append({"type": "ineq", "fun": lambda x, i=i: flow(i, x) - LEAST[i],
                            "jac": lambda x, i=i: flow_slopes(i, x)})
    bare = [{"type": one["type"], "fun": one["fun"]} for one in constraints]
    for slopes, held in (gradient, constraints), ("2-point", bare), ("3-point", bare):
        found = minimize(objective, SET_POINT, jac=slopes, method="SLSQP", constraints=held,
                         bounds=list(zip(LOWER, UPPER)), options={"ftol": TOLERANCE})
        how = f", {slopes}" if isinstance(slopes, str) else ""
        show(f"SciPy {scipy.__version__}{how}", found.x, found.nfev)


def by_nlopt():
    import nlopt
    calls = []

    def told(value, slopes, sign=1.0):
        def function(x, out):
            if out.size:
                out[:] = [sign * slope for slope in slopes(x)]
            return sign * value(x)
        return function

    def counted(x, out):
        calls.append(1)
        return told(objective, gradient)(x, out)

    opt = nlopt.opt(nlopt.LD_SLSQP, 3)
    opt.set_min_objective(counted)
    opt.add_equality_constraint(told(balance, balance_slopes), TOLERANCE)
    for i in range(2):
        floor = told(lambda x, i=i: flow(i, x) - LEAST[i], lambda x, i=i: flow_slopes(i, x), -1.0)
        opt.add_inequality_constraint(floor, TOLERANCE)
    opt.set_lower_bounds(LOWER)
    opt.set_upper_bounds(UPPER)
    opt.set_ftol_abs(TOLERANCE)
    x = opt.optimize(SET_POINT)
    version = f"{nlopt.version_major()}.{nlopt.version_minor()}.{nlopt.version_bugfix()}"
    show(f"NLopt {version}", x, len(calls))


def main():
    print("exact                 openings {:.12f} and {:.12f}, header at {:.12f} bar".format(*answer()))
    for peer in by_scipy, by_nlopt:
        try:
            peer()
        except ImportError as missing:
            print(f"{peer.__name__[3:]}: {missing}")


main()

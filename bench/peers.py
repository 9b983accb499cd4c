"""A day's volumes by NLopt's SLSQP and by SciPy's, as their users would ask for them.

Half the sum of ((x - value) / spread)² is made least, with each balance as an equality and each limit as an inequality, all with their
slopes, from the measured values. The half is for their sake: both begin with B = I, which is then right where a spread is 1. NLopt
(Debian: libnlopt0) stops at a relative change of the sum by 1e-15, and takes what passes a constraint by 0.001, the tolerance of the settled
volumes, for feasible; SciPy's ftol is 1e-15. Each may take 1,000 evaluations or iterations.
"""
import ctypes
import math
import sys

STOP, FEASIBLE, MOST = 1e-15, 1e-3, 1000
NUMBER, POINTER, NUMBERS = ctypes.c_double, ctypes.c_void_p, ctypes.POINTER(ctypes.c_double)
FUNCTION = ctypes.CFUNCTYPE(NUMBER, ctypes.c_uint, NUMBERS, NUMBERS, POINTER)


def rows(flat, n):
    return [flat[k:k + n] for k in range(0, len(flat), n)]


def total(d, x):
    return 0.5 * sum(((u - v) / s) ** 2 for u, v, s in zip(x, d.values, d.spreads))


def slopes(d, x):
    return [(u - v) / s ** 2 for u, v, s in zip(x, d.values, d.spreads)]


def sum_of(row, x):
    return sum(c * u for c, u in zip(row, x))


class Scaled:
    """The same day with each meter counted in its spreads."""

    def __init__(self, d):
        times = lambda flat: [v * d.spreads[k % d.n] for k, v in enumerate(flat)]
        self.n, self.spreads, self.least = d.n, [1.0] * d.n, d.least
        self.values = [v / s for v, s in zip(d.values, d.spreads)]
        self.balances, self.limits = times(d.balances), times(d.limits)


class Bounded:
    """The same day with its limits, each of which is of one meter, as bounds."""

    def __init__(self, d):
        self.n, self.values, self.spreads, self.balances, self.limits, self.least = d.n, d.values, d.spreads, d.balances, [], []
        self.bounds = [-math.inf] * d.n, [math.inf] * d.n
        for row, least in zip(rows(d.limits, d.n), d.least):
            i = next(i for i, c in enumerate(row) if c)
            self.bounds[row[i] < 0][i] = least / row[i]


def start(d):
    """The measured values, moved into the bounds where there are any: NLopt begins nowhere else."""
    lower, upper = getattr(d, "bounds", (d.values, d.values))
    return [min(max(v, low), high) for v, low, high in zip(d.values, lower, upper)]


class NLopt:
    def __init__(self):
        self.wrong, self.made = None, ctypes.CDLL("libnlopt.so.0")
        made = self.made
        made.nlopt_create.restype, made.nlopt_create.argtypes = POINTER, [ctypes.c_int, ctypes.c_uint]
        made.nlopt_destroy.argtypes, made.nlopt_set_maxeval.argtypes = [POINTER], [POINTER, ctypes.c_int]
        made.nlopt_set_min_objective.argtypes, made.nlopt_set_ftol_rel.argtypes = [POINTER, FUNCTION, POINTER], [POINTER, NUMBER]
        for kind in "equality", "inequality":
            getattr(made, f"nlopt_add_{kind}_constraint").argtypes = [POINTER, FUNCTION, POINTER, NUMBER]
        for name in "optimize", "set_lower_bounds", "set_upper_bounds":
            getattr(made, f"nlopt_{name}").argtypes = [POINTER, NUMBERS] + [NUMBERS] * (name == "optimize")
        version = [ctypes.c_int() for _ in range(3)]
        made.nlopt_version(*map(ctypes.byref, version))
        self.name = "NLopt " + ".".join(str(part.value) for part in version)

    def told(self, value, slope):
        def function(n, x, out, _):
            try:
                for i, each in enumerate(slope(x[:n]) if out else ()):
                    out[i] = each
                return value(x[:n])
            except Exception as error:  # what is raised here would be printed and go on
                self.wrong = error
                return float("nan")
        return FUNCTION(function)

    def constrained(self, opt, d):
        """Adds the constraints, and answers what must be kept while they are asked."""
        kept = []
        if hasattr(d, "bounds"):
            self.made.nlopt_set_lower_bounds(opt, (NUMBER * d.n)(*d.bounds[0]))
            self.made.nlopt_set_upper_bounds(opt, (NUMBER * d.n)(*d.bounds[1]))
        for row in rows(d.balances, d.n):
            kept.append(self.told(lambda x, row=row: sum_of(row, x), lambda x, row=row: row))
            self.made.nlopt_add_equality_constraint(opt, kept[-1], None, FEASIBLE)
        for row, least in zip(rows(d.limits, d.n), d.least):
            kept.append(self.told(lambda x, row=row, least=least: least - sum_of(row, x), lambda x, row=row: [-c for c in row]))
            self.made.nlopt_add_inequality_constraint(opt, kept[-1], None, FEASIBLE)
        return kept

    def __call__(self, d):
        opt = self.made.nlopt_create(self.made.nlopt_algorithm_from_string(b"LD_SLSQP"), d.n)
        aim = self.told(lambda x: total(d, x), lambda x: slopes(d, x))
        self.made.nlopt_set_min_objective(opt, aim, None)
        kept = self.constrained(opt, d)
        self.made.nlopt_set_ftol_rel(opt, STOP)
        self.made.nlopt_set_maxeval(opt, MOST)
        x, least = (NUMBER * d.n)(*start(d)), NUMBER()
        status = self.made.nlopt_optimize(opt, x, ctypes.byref(least))
        self.made.nlopt_destroy(opt)
        del kept
        if self.wrong:
            raise self.wrong
        return list(x), status > 0 and status != 5, status  # 5: its evaluations were used up


class SciPy:
    def __init__(self):
        import scipy
        from scipy.optimize import minimize
        self.name, self.minimize = "SciPy " + scipy.__version__, minimize

    def __call__(self, d):
        held = [{"type": "eq", "fun": lambda x, row=row: sum_of(row, x), "jac": lambda x, row=row: row} for row in rows(d.balances, d.n)]
        held += [{"type": "ineq", "fun": lambda x, row=row, least=least: sum_of(row, x) - least, "jac": lambda x, row=row: row}
                 for row, least in zip(rows(d.limits, d.n), d.least)]
        bounds = list(zip(*d.bounds)) if hasattr(d, "bounds") else None
        found = self.minimize(lambda x: total(d, x), start(d), jac=lambda x: slopes(d, x), method="SLSQP", constraints=held, bounds=bounds,
                              options={"ftol": STOP, "maxiter": MOST})
        return [float(u) for u in found.x], bool(found.success), found.status


def at_hand():
    """NLopt and SciPy, or None in the place of one that is not there, which is said."""
    found = []
    for kind in NLopt, SciPy:
        try:
            found.append(kind())
        except (ImportError, OSError) as missing:
            print(f"{kind.__name__} is left out: {missing}", file=sys.stderr)
            found.append(None)
    return found


def as_stated(peer, d):
    return peer(d)


def in_spreads(peer, d):
    x, said, status = peer(Scaled(d))
    return [u * s for u, s in zip(x, d.spreads)], said, status


def by_bounds(peer, d):
    return peer(Bounded(d))


WAYS = ("", as_stated), (", in spreads", in_spreads), (", limits as bounds", by_bounds)

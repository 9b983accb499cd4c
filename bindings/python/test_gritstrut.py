"""What the docstrings of gritstrut.py do not show: the kinds of arrays, threads, refusals, the stored reports, and the search of
examples/valves.c."""
import array
import base64
import doctest
import math
import os
import shutil
import subprocess
import sys
import tempfile
import threading
import types
import unittest

sys.path.insert(0, os.environ.get("GRITSTRUT_PYTHON", os.path.dirname(os.path.abspath(__file__))))
import gritstrut  # noqa: E402

VALUES, SPREADS, BALANCES = [1200.0, 790.0, 1310.0, 700.0], [10.0, 10.0, 20.0, 5.0], [[1.0, 1.0, -1.0, -1.0]]


class Stored(list):
    """Stands in for NumPy's array where NumPy is not there: it is not a list of numbers to whoever asks, but has tolist()."""

    __module__ = "numpy"

    def tolist(self):
        return [each.tolist() if hasattr(each, "tolist") else each for each in self]


def numpy_or_stand_in():
    try:
        import numpy
        return numpy
    except ImportError:
        stand_in = types.ModuleType("numpy")
        stand_in.array = lambda numbers: Stored(Stored(each) if isinstance(each, list) else each for each in numbers)
        return stand_in


class Arrays(unittest.TestCase):
    def test_kinds_of_arrays_are_alike(self):
        plain = gritstrut.settle(VALUES, SPREADS, BALANCES)
        flat = array.array("d", VALUES)
        self.assertEqual(gritstrut.settle(flat, tuple(SPREADS), BALANCES), plain)
        self.assertEqual(gritstrut.settle(memoryview(flat), SPREADS, [array.array("d", BALANCES[0])]), plain)
        self.assertEqual(gritstrut.settle([1200, 790, 1310, 700], [10, 10, 20, 5], BALANCES[0]), plain)

    def test_numpy_goes_in_and_comes_out(self):
        numpy = numpy_or_stand_in()
        before = sys.modules.get("numpy")
        sys.modules["numpy"] = numpy
        try:
            given = numpy.array(VALUES)
            settled = gritstrut.settle(given, numpy.array(SPREADS), numpy.array(BALANCES))
            self.assertIs(type(settled.volumes), type(given))
            self.assertEqual(list(settled.volumes), gritstrut.settle(VALUES, SPREADS, BALANCES).volumes)
            found = gritstrut.search(lambda x: (x[0] - 1) ** 2, numpy.array([3.0]))
            self.assertIs(type(found.x), type(given))
        finally:
            if before is None:
                del sys.modules["numpy"]
        if isinstance(numpy, types.ModuleType) and not hasattr(numpy, "ndarray"):
            print("NumPy is not there: a stand-in was tried in its place")

    def test_every_call_takes_numpy(self):
        try:
            import numpy
        except ImportError:
            self.skipTest("NumPy is not there")
        row = numpy.array(BALANCES[0])
        plain = gritstrut.settle(VALUES, SPREADS, BALANCES)
        for kind in "f8", "f4", "i8", "u2", ">f8", "O":
            self.assertEqual(gritstrut.settle(numpy.array(VALUES, kind), SPREADS, BALANCES).volumes.tolist(), plain.volumes)
        for given in numpy.repeat(VALUES, 2)[::2], numpy.reshape(VALUES, (4, 1)), numpy.ma.array(VALUES):
            self.assertEqual(gritstrut.settle(given, SPREADS, BALANCES).volumes.tolist(), plain.volumes)
        for given in row, list(row), row[None], numpy.asfortranarray(row[None]), [row]:
            self.assertEqual(list(gritstrut.settle(VALUES, SPREADS, given).volumes), plain.volumes)
        for limits in [-row], -row, list(-row), (-row)[None]:
            settled = gritstrut.settle(VALUES, SPREADS, numpy.zeros((0, 4)), limits, numpy.array([5.0]))
            self.assertEqual(list(settled.volumes), gritstrut.settle(VALUES, SPREADS, [], [(-row).tolist()], [5.0]).volumes)
        flags = numpy.array([False, False, True, False])
        meters = gritstrut.Problem([1, 1, 0.5, 2], lower=numpy.full(4, -1.0), constraints=[gritstrut.equality(row, numpy.float64(-2.6))])
        answers = [gritstrut.settle(VALUES, numpy.array(SPREADS), BALANCES).volumes, gritstrut.settle(VALUES, SPREADS, row).volumes,
                   gritstrut.reconcile(numpy.arange(4), numpy.array(VALUES, int), SPREADS, row).volumes,
                   gritstrut.suspect(VALUES, SPREADS, row, flags).shares, gritstrut.nnls(numpy.eye(2), [3, -4]).x,
                   gritstrut.lsei(numpy.ones((1, 2)), [2], [[1, 0], [0, 1]], [3, 0]).x, gritstrut.step(meters).d,
                   gritstrut.Hessian(numpy.int64(2)).times(numpy.ones(2))]
        for answer in answers:
            self.assertIs(type(answer), numpy.ndarray)
            self.assertEqual(answer.dtype, numpy.float64)
        step = gritstrut.step(meters)
        self.assertTrue(gritstrut.check(meters, step.d, step.multipliers).yes)
        settled = gritstrut.settle(numpy.array(VALUES), SPREADS, row)
        self.assertEqual(gritstrut.certify(VALUES, SPREADS, row, settled.volumes, settled.balance_multipliers), plain.bound)

    def test_a_search_in_numpy(self):
        try:
            import numpy
        except ImportError:
            self.skipTest("NumPy is not there")
        goal, rows = numpy.array([1, 2.5]), numpy.array([[1.0, -2.0], [-1.0, -2.0]])
        slopes, within = lambda x: 2 * (x - goal), {"type": "ineq", "fun": lambda x: rows @ x + [2, 6], "jac": lambda x: rows}
        one = types.SimpleNamespace(lb=numpy.zeros(1), ub=numpy.full(1, math.inf))  # as SciPy's Bounds(0, inf)
        for bounds in None, numpy.array([[0, math.inf]] * 2), [(numpy.float64(0), None)] * 2, one:
            for jac in None, "3-point", slopes:
                found = gritstrut.search(lambda x: ((x - goal) ** 2).sum(), numpy.array([2, 0]), jac=jac, bounds=bounds, constraints=within)
                self.assertEqual(found.message, "converged")
                self.assertLess(abs(found.x - [1.4, 1.7]).max(), 1e-6)

    def test_text_is_no_number(self):
        self.assertRaises(TypeError, gritstrut.settle, "1234", SPREADS, BALANCES)

    def test_threads_have_workspaces_of_their_own(self):
        plain, answers = gritstrut.settle(VALUES, SPREADS, BALANCES), []
        work = lambda: answers.extend(gritstrut.settle(VALUES, SPREADS, BALANCES) for _ in range(50))  # noqa: E731
        threads = [threading.Thread(target=work) for _ in range(4)]
        for each in threads:
            each.start()
        for each in threads:
            each.join()
        self.assertEqual(answers, [plain] * 200)


class ByHand(unittest.TestCase):
    def near(self, found, owed, within=1e-9):
        self.assertEqual(len(found), len(owed))
        for one, two in zip(found, owed):
            self.assertLess(abs(one - two), within, (found, owed))

    def test_volumes_that_zero_holds(self):
        given = dict(values=[3, 10], spreads=[1, 1], balances=[[1, 1]], nonnegative=True)
        day = gritstrut.settle(**given)
        self.near(day.volumes, [0, 0], 1e-3)
        self.assertEqual((len(day.balance_multipliers), len(day.limit_multipliers)), (1, 2))
        bound = gritstrut.certify(**given, volumes=day.volumes, balance_multipliers=day.balance_multipliers,
                                  limit_multipliers=day.limit_multipliers)
        self.assertEqual(bound, day.bound)
        self.near(gritstrut.settle([3, 10], [1, 1], [[1, 1]]).volumes, [-3.5, 3.5])

    def test_what_meters_show(self):
        found = gritstrut.suspect(VALUES, SPREADS, BALANCES)
        self.near(found.shares, [0.16, 0.16, 0.64, 0.04])
        self.near(found.spreads, [spread * math.sqrt(1 - share) for spread, share in zip(SPREADS, found.shares)])
        self.near(found.tests, [0.8, 0.8, -0.8, -0.8])
        self.near([found.misfit], [0.64])
        self.assertEqual((found.freedom, found.agree, found.groups), (1, True, [0, 0, 0, 0]))
        self.assertEqual(gritstrut.suspect(VALUES, SPREADS, BALANCES, still=[True, False, False, False]).shares[0], 0.0)

    def test_sides_of_checked_steps(self):
        sum_of_two = [gritstrut.equality([1, 1], -2)]
        for problem, owed in [(gritstrut.Problem([1.0], [-2.0], upper=[1.5]), [1.5]),
                              (gritstrut.Problem([1.0], [2.0], lower=[-1.5]), [-1.5]),
                              (gritstrut.Problem([1, 1], constraints=sum_of_two, upper=[0.5, math.inf]), [0.5, 1.5]),
                              (gritstrut.Problem([1, 1], constraints=sum_of_two, lower=[1.5, -math.inf]), [1.5, 0.5])]:
            step = gritstrut.step(problem)
            self.near(step.d, owed)
            self.assertEqual(gritstrut.check(problem, step.d, step.multipliers), gritstrut.Verdict(True))

    def test_multipliers_of_a_search(self):
        found = gritstrut.search(lambda x: 5 + (x[0] - 1) ** 2 + (x[1] - 2.5) ** 2, [2, 0], tol=1e-12,
                                 constraints={"type": "ineq", "fun": lambda x: x[0] - 2 * x[1] + 2})
        self.near(found.multipliers, [0.8], 1e-5)


class Refusals(unittest.TestCase):
    def refused(self, number, place, call, *words, **named):
        with self.assertRaises(gritstrut.Refused) as caught:
            call(*words, **named)
        self.assertEqual((caught.exception.number, caught.exception.place), (number, place))

    def test_each_with_its_place(self):
        self.refused(2, None, gritstrut.settle, VALUES, SPREADS[:3], BALANCES)
        self.refused(2, None, gritstrut.settle, VALUES, SPREADS, [[1, 1]])
        self.refused(10, None, gritstrut.settle, VALUES, SPREADS, BALANCES, tolerance=-1)
        self.refused(12, 1, gritstrut.settle, [1, math.nan, 1, 1], SPREADS, BALANCES)
        self.refused(13, 2, gritstrut.settle, VALUES, [1, 1, 0, 1], BALANCES)
        self.refused(15, 0, gritstrut.settle, VALUES, SPREADS, BALANCES, limits=BALANCES, least=[math.inf])
        self.refused(1, None, gritstrut.settle, [1] * 17, [1] * 17, [])
        self.refused(12, 0, gritstrut.reconcile, [0.5], [1], [1], [])
        self.refused(12, 0, gritstrut.reconcile, [-1], [1], [1], [])
        self.refused(12, 0, gritstrut.reconcile, [0], [1000000], [1], [])
        self.refused(15, 0, gritstrut.step, gritstrut.Problem([1.0], lower=[math.nan]))
        self.refused(14, None, gritstrut.step, gritstrut.Problem([1.0], constraints=[gritstrut.band([1], 0, -1)]))
        self.refused(16, None, gritstrut.search, lambda x: x[0], [0], bounds=[(1, 0)])
        self.refused(15, 0, gritstrut.search, lambda x: x[0], [0], bounds=[(math.nan, 1)])
        self.refused(1, None, gritstrut.nnls, [[1.0] * 67], [1.0])
        self.refused(8, None, self.without_factor)
        self.refused(1, None, gritstrut.Hessian, 17)

    @staticmethod
    def without_factor():
        hessian = gritstrut.Hessian(1)
        hessian.b[0] = -1.0
        hessian.cholesky()

    def test_library_that_is_not_there(self):
        words = [sys.executable, "-c", "import sys; sys.path.insert(0, %r); import gritstrut" % os.path.dirname(gritstrut.__file__)]
        ended = subprocess.run(words, env=dict(os.environ, GRITSTRUT_LIBRARY="/nowhere.so"), capture_output=True, text=True)
        self.assertNotEqual(ended.returncode, 0)
        self.assertIn("libgritstrut.so is not found", ended.stderr)


EXAMPLES = os.path.join(os.path.dirname(os.path.abspath(__file__)), "..", "..", "examples")


def stored(name):
    with open(os.path.join(EXAMPLES, name), "rb") as source:
        return source.read()


class Reports(unittest.TestCase):
    def test_stored_reports(self):
        names = sorted(name[:-len(".sheet")] for name in os.listdir(EXAMPLES) if name.endswith(".sheet"))
        self.assertGreaterEqual(len(names), 6)
        for name in names:
            sheet, owed = stored(name + ".sheet"), stored(name + ".report")
            report = gritstrut.day(sheet)
            self.assertEqual(report.bytes, owed, name)
            self.assertEqual((report, hash(report)), (gritstrut.day(sheet.decode()), hash(gritstrut.Report(owed.decode()))))
            self.assertEqual(report.sheet.encode(), sheet)
            self.told_again(report)

    def told_again(self, report):
        """Every number that was read stands in the report."""
        lines = report.text.split("\n")
        told = lambda number, cell: cell in ("<0.001", ">-0.001") or f"{number:.3f}" == cell  # noqa: E731
        for rows, heading, words in ((report.meters, "name ", 2), (report.balances, "balance ", 1), (report.limits, "limit ", 2)):
            at = next((k for k, line in enumerate(lines) if line.startswith(heading)), None)
            self.assertEqual(at is None, not rows)
            for k, row in enumerate(rows):
                cells = lines[at + 1 + k].split()
                self.assertEqual(list(row[:words]), cells[:words])
                for number, cell in zip(row[words:], cells[words:]):
                    self.assertTrue(number == cell if isinstance(number, str) else number == (cell == "yes") if isinstance(number, bool)
                                    else isinstance(number, list) or told(number, cell), (row, cell))
            self.assertEqual(lines[at + 1 + len(rows)] if rows else "", "")
        self.assertIn(f"title {report.title}", lines)
        self.assertIn(f"misfit {report.misfit:.3f}, usual up to {report.usual:.3f}", lines)
        self.assertIn(f"gritstrut {report.version}", lines)

    def test_what_the_plant_says(self):
        plant = gritstrut.day(stored("plant.sheet"))
        self.assertEqual((plant.verdict, plant.status, plant.look_at, plant.doubts), ("closes", 0, [], []))
        self.assertEqual((plant.certainty, plant.misfit, plant.usual, plant.tolerance), (1e-5, 1.337, 9.488, 0.001))
        self.assertEqual(plant.meters[8], ("reactor-1", "meter", "998930", "000765", 1835.0, 1826.686, 15.738, -8.314, -0.462, -0.849, ["rolled"]))
        self.assertEqual((plant.meters[12].kind, plant.meters[12].old, plant.meters[13].kind), ("line", "-", "stock"))
        self.assertEqual(plant.balances[1], ("north", 11.0, -0.0, True))
        self.assertEqual(plant.limits[1], ("compressors", "ceiling", 7680.0, 7680.0, 0.0, True))
        stuck = gritstrut.day(stored("plant-stuck.sheet"))
        self.assertEqual((stuck.verdict, stuck.status, stuck.look_at), ("closes, but the meters disagree", 1, ["dryer", "packing"]))
        self.assertEqual([meter.name for meter in stuck.meters if "look here" in meter.marks], stuck.look_at)
        self.assertEqual((gritstrut.day(stored("twice.sheet")).verdict, gritstrut.day(stored("twice.sheet")).status), ("not certain", 1))

    def test_days_of_other_kinds(self):
        lone = gritstrut.day("title t\ndoubt one\ndoubt two: #2\nmeter a 5 5 1\nmeter b 3 3 1\nbalance h a = b\ntolerance 1\n# \xfc \r\n")
        self.assertEqual((lone.verdict, lone.misfit, lone.usual, lone.doubts), ("closes, but no meter is checked", None, None, ["one", "two: #2"]))
        self.assertTrue(lone.sheet.endswith("# \xfc \r\n"))
        latin = gritstrut.day(lone.bytes[-len(_utf8(lone.sheet)):].replace(b"\xc3\xbc", b"\xfc"))
        self.assertEqual(gritstrut.day(latin.sheet), latin)
        self.assertIn("\ufffd", str(latin))
        sharp = gritstrut.day(stored("header.sheet").replace(b"tolerance 0.001", b"tolerance 0.0000001"))
        self.assertEqual((sharp.verdict, sharp.tolerance), ("closes", 0.0))
        for refused, number in ((gritstrut.day(""), 9), (gritstrut.day(b"#" * 65537), 9),
                                (gritstrut.day("title t\nmeter a 0 9 1\nmeter b 0 9 1\nbalance h a = b\nbalance k a = b\ntolerance 1\n"), 11)):
            self.assertEqual((refused.verdict, refused.number, refused.status, refused.meters, refused.sheet), ("refused", number, 2, [], None))

    def test_drawn_days(self):
        """Sheets of every kind that the second reading of the rules draws (oracle/day): each report is read and drawn."""
        sys.path.append(os.path.join(EXAMPLES, "..", "oracle", "day"))
        import draws
        seen = set()
        for index in range(600):
            sheet = draws.drawn(7, index)[1]
            report = gritstrut.day(sheet)
            seen.add(report.verdict)
            if report.verdict != "refused":
                self.assertEqual(report.sheet.encode("utf-8", "surrogateescape"), sheet)
                rows = report.text.split("\n\n")[2].split("\n")[1:]
                self.assertEqual([row.split()[:4] for row in rows], [list(meter[:4]) for meter in report.meters])
            self.assertTrue(report.svg().startswith("<svg "))
        self.assertEqual(len(seen), 6)

    def test_what_is_no_report(self):
        report = stored("twice.report")
        for end in range(len(report)):
            self.assertRaises(ValueError, gritstrut.Report, report[:end])
        self.assertRaises(ValueError, gritstrut.Report, report + b" ")
        self.assertRaises(ValueError, gritstrut.Report, "refused: KEPT is there already\n")

    def test_pictures(self):
        for name in ("plant.sheet", "plant-stuck.sheet"):
            report = gritstrut.day(stored(name))
            picture = report._repr_svg_()
            self.assertTrue(picture.startswith("<svg ") and report.title in picture)
            self.assertIn(base64.b64encode(picture.encode()).decode(), report._repr_html_())
        with open(os.path.join(EXAMPLES, "..", "docs", "day.svg"), encoding="utf-8") as owed:
            self.assertEqual(gritstrut.day(stored("plant.sheet")).svg(), owed.read())
        self.assertIn("refused 9", gritstrut.day("")._repr_svg_())

    def test_without_the_drawing(self):
        drawing = gritstrut._drawing
        gritstrut._drawing = lambda: None
        try:
            report = gritstrut.day(stored("header.sheet").replace(b"header-1", b"h<b>"))
            self.assertIsNone(report._repr_svg_())
            self.assertTrue(report._repr_html_().startswith("<pre>closes\n") and "h&lt;b&gt;" in report._repr_html_())
        finally:
            gritstrut._drawing = drawing

    def test_another_file_of_that_name(self):
        with tempfile.TemporaryDirectory() as folder:
            shutil.copy(gritstrut.__file__, folder)
            with open(os.path.join(folder, "draw.py"), "w") as other:
                other.write("raise SystemExit('this was run')\n")
            words = [sys.executable, "-c", "import sys; sys.path.insert(0, %r); import gritstrut; print(gritstrut._drawing())" % folder]
            ended = subprocess.run(words, env=dict(os.environ, GRITSTRUT_LIBRARY=gritstrut._library._name), capture_output=True, text=True)
            self.assertEqual((ended.returncode, ended.stdout), (0, "None\n"), ended.stderr)


def _utf8(text):
    return text.encode("utf-8")


SET_POINTS, SIZES, SUPPLIES, LEAST = (0.60, 0.55, 6.0), (900.0, 700.0), (8.0, 7.2), (150.0, 190.0)
EXACT = (0.6541058292025478, 0.6419612970802866, 5.9868761104890575)


def flow(valve, x):
    return SIZES[valve] * 50.0 ** (x[valve] - 1.0) * math.sqrt(SUPPLIES[valve] - x[2])


def flow_slopes(valve, x):
    slopes = [0.0, 0.0, -0.5 / (SUPPLIES[valve] - x[2])]
    slopes[valve] = math.log(50.0)
    return [slope * flow(valve, x) for slope in slopes]


class Valves(unittest.TestCase):
    def find(self, within, jac, told, **more):
        slopes = (lambda x: [a + b for a, b in zip(flow_slopes(0, x), flow_slopes(1, x))]) if told else None
        spare = (lambda x: [flow_slopes(0, x), flow_slopes(1, x)]) if told else None
        constraints = [{"type": "eq", "fun": lambda x: flow(0, x) + flow(1, x) - 520.0, "jac": slopes},
                       {"type": "ineq", "fun": lambda x: [flow(i, x) - LEAST[i] for i in range(2)], "jac": spare}]
        found = gritstrut.search(lambda x: sum((x[i] - SET_POINTS[i]) ** 2 for i in range(3)), SET_POINTS, jac=jac,
                                 bounds=[(0.05, 1), (0.05, 1), (5.5, 6.5)], constraints=constraints, tol=1e-9, maxfev=200, **more)
        self.assertLess(max(abs(a - b) for a, b in zip(found.x, EXACT)), within)
        self.assertTrue(found.success)
        return found

    def test_all_schemes(self):
        seen = []
        told = self.find(1e-12, lambda x: [2.0 * (x[i] - SET_POINTS[i]) for i in range(3)], True, callback=seen.append)
        self.assertEqual(told.nfev, 8)
        self.assertEqual((len(seen), list(seen[-1])), (told.nit, list(told.x)))
        self.assertEqual(self.find(1e-6, None, False).nfev, 29)
        self.assertEqual(self.find(1e-9, "3-point", False).nfev, 50)

    def test_callback_ends_it(self):
        def stop(x):
            raise StopIteration

        found = gritstrut.search(lambda x: (x[0] - 1) ** 4, [5.0], callback=stop)
        self.assertEqual((found.nit, found.success, found.message), (1, False, "stopped by the callback"))

    def test_nonfinite_is_an_end(self):
        found = gritstrut.search(lambda x: math.nan, [1.0])
        self.assertEqual((found.success, found.message), (False, "a number that is not finite"))

    def test_value_and_slopes_together(self):
        found = gritstrut.search(lambda x: ((x[0] - 1) ** 2, [2 * (x[0] - 1)]), [5.0], jac=True, tol=1e-12)
        self.assertTrue(found.success and abs(found.x[0] - 1) < 1e-6)


def load_tests(loader, tests, pattern):
    tests.addTests(doctest.DocTestSuite(gritstrut))
    return tests


if __name__ == "__main__":
    unittest.main()

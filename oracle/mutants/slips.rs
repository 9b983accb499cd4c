/// One slip in the Rust files: the file, what is changed there, and, where the comparison cannot
/// tell it, why.
pub struct Slip {
    pub name: &'static str,
    pub file: &'static str,
    /// What is found, which of its places (from 1), and what is put there.
    pub changes: &'static [(&'static str, usize, &'static str)],
    pub unseen: Option<&'static str>,
}

/// One slip in the stand-in's norm, put into the operation and, apart from it, below the Rust files:
/// what is changed, and why either cannot be told.
pub struct NormSlip {
    pub name: &'static str,
    pub changes: &'static [(&'static str, usize, &'static str)],
    pub unseen: Option<&'static str>,
    pub unseen_below: Option<&'static str>,
}

const fn norm(
    name: &'static str,
    changes: &'static [(&'static str, usize, &'static str)],
    unseen: Option<&'static str>,
    unseen_below: Option<&'static str>,
) -> NormSlip {
    NormSlip { name, changes, unseen, unseen_below }
}

const fn told(
    file: &'static str,
    name: &'static str,
    changes: &'static [(&'static str, usize, &'static str)],
) -> Slip {
    Slip { name, file, changes, unseen: None }
}

const fn unseen(
    file: &'static str,
    name: &'static str,
    changes: &'static [(&'static str, usize, &'static str)],
    why: &'static str,
) -> Slip {
    Slip { name, file, changes, unseen: Some(why) }
}

const QR: &str = "householder";
const NNLS: &str = "nnls";
const LSEI: &str = "lsei";
const HESSIAN: &str = "hessian";
const STEP: &str = "subproblem";
const LOOP: &str = "mod";
const DIFFERENCE: &str = "finite_difference";

/// A sum that starts at +0.
const FROM_ZERO: &str = ".fold(0.0, |sum: f64, term: f64| sum + term)";

pub const SLIPS: &[Slip] = &[
    told(QR, "last of equal pivots", &[("next.1 > best.1", 1, "next.1 >= best.1")]),
    told(QR, "a NaN norm wins", &[("next.1 > best.1", 1, "!(next.1 <= best.1)")]),
    told(QR, "tolerance by the shorter side", &[("m.max(n)", 1, "m.min(n)")]),
    told(QR, "goes on at the tolerance", &[("largest <= tol", 1, "largest < tol")]),
    told(QR, "tolerance of every step", &[("k == 0", 1, "k < m")]),
    told(QR, "a zero head taken as above zero", &[("head > 0.0", 1, "head >= 0.0")]),
    told(QR, "a zero dot reflects", &[("dot == 0.0", 1, "false")]),
    told(QR, "reflection with one rounding too few", &[(
        "v[offset + i * stride] += scale * u",
        1,
        "v[offset + i * stride] = scale.mul_add(*u, v[offset + i * stride])",
    )]),
    told(QR, "product with the inverse of b", &[("dot / self.b", 1, "dot * (1.0 / self.b)")]),
    told(QR, "below the pivot not cleared but multiplied", &[("k] = 0.0", 1, "k] *= 0.0")]),
    told(QR, "columns swapped from the pivot row on", &[("in 0..m {", 1, "in k..m {")]),
    unseen(QR, "reflection's sum from +0", &[(".sum()", 1, FROM_ZERO)],
        "the sum's sign shows only where it is zero, and then the reflector leaves its vector"),
    told(QR, "triangle's sum from +0", &[(".sum()", 2, FROM_ZERO)]),
    told(QR, "transposed triangle's sum from +0", &[(".sum()", 3, FROM_ZERO)]),
    told(QR, "the column after the swap named", &[(
        "self.perm[self.rank()]",
        1,
        "{ let (k, n) = (self.rank(), self.cols); let m = self.r.len() / n; \
         let left = (k..n).map(|j| (j, norm((k..m).map(|i| self.r[i * n + j])))); \
         let best = left.fold((k, -1.0), |best, next| if next.1 > best.1 { next } else { best }); \
         self.perm[best.0] }",
    )]),
    told(QR, "the rank itself named", &[("self.perm[self.rank()]", 1, "self.rank()")]),
    told(QR, "the last column standing named", &[
        ("self.perm[self.rank()]", 1, "self.perm[self.cols - 1]"),
    ]),
    told(QR, "the last column taken named", &[
        ("self.perm[self.rank()]", 1, "self.perm[self.rank().saturating_sub(1)]"),
    ]),
    told(QR, "a factoring of no columns not counted", &[
        ("reference::tally::factoring()", 1, "if a.cols > 0 { reference::tally::factoring() }"),
    ]),
    told(NNLS, "a refused round counted", &[
        ("reference::tally::refused(7)", 1, "reference::tally::round(); reference::tally::refused(7)"),
    ]),
    told(NNLS, "first of equal duals", &[(".max_by(", 1, ".rev().max_by(")]),
    told(NNLS, "marks cleared inside a pass", &[(
        "rejected[t] = true",
        1,
        "rejected.fill(false); rejected[t] = true",
    )]),
    told(NNLS, "marks kept into the next pass", &[
        ("let mut rejected = vec![false; n];", 1, ""),
        ("iterations = 0;", 1, "iterations = 0; let mut rejected = vec![false; n];"),
    ]),
    told(NNLS, "kept without full rank", &[("full_rank && ", 1, "")]),
    told(NNLS, "a zero trial value kept", &[("z[t] > 0.0", 1, "z[t] >= 0.0")]),
    told(NNLS, "a NaN trial value kept", &[("z[t] > 0.0", 1, "!(z[t] <= 0.0)")]),
    told(NNLS, "a zero dual tried", &[("w[j] > 0.0", 1, "w[j] >= 0.0")]),
    told(NNLS, "last of equal ratios", &[(".min_by(", 1, ".rev().min_by(")]),
    told(NNLS, "a zero trial value does not block", &[("z[j] <= 0.0", 1, "z[j] < 0.0")]),
    told(NNLS, "only the blocking column leaves", &[("j == q || x[j] <= 0.0", 1, "j == q")]),
    told(NNLS, "a NaN ratio before every number", &[
        ("reference::tally::ratio", 1, "reference::tally::ratio).map(|p| (p.0, if p.1.is_nan() { -p.1 } else { p.1 })"),
    ]),
    told(NNLS, "last of 3n rounds refused", &[("iterations > 3", 1, "iterations >= 3")]),
    told(NNLS, "residual summed right to left", &[("(0..a.cols).map(", 1, "(0..a.cols).rev().map(")]),
    unseen(NNLS, "ratio at no gap", &[("gap > 0.0", 1, "gap >= 0.0")],
        "a passive value is above zero or NaN whenever it can block, so no gap is zero"),
    unseen(NNLS, "what leaves multiplied by zero", &[("x[j] = 0.0", 1, "x[j] *= 0.0")],
        "the trial takes the place of the whole list at the round's end, +0 outside"),
    unseen(NNLS, "residual's sum from +0", &[(".sum::<f64>()", 1, FROM_ZERO)],
        "it shows only as the sign of a zero residual, and from there of a zero dual, which is not tried"),
    unseen(NNLS, "dual's sum from +0", &[(".sum()", 1, FROM_ZERO)],
        "it shows only as the sign of a zero dual, which is not tried"),
    told(LSEI, "a NaN denominator refused", &[("denominator <= INF", 1, "!(denominator > INFEASIBILITY) || denominator <= INF")]),
    told(LSEI, "admits the infeasibility itself", &[("denominator <= INF", 1, "denominator < INF")]),
    told(LSEI, "infeasibility ten times smaller", &[("1e3 *", 1, "1e2 *")]),
    unseen(LSEI, "denominator as one minus the sum", &[(
        "-r[n]",
        1,
        "1.0 - (0..m).map(|i| dual.at(n, i) * u[i]).sum::<f64>()",
    )], "the two differ only as zeros of other sign, which are refused"),
    told(LSEI, "LDP's sum from +0", &[(".sum::<f64>()", 1, FROM_ZERO)]),
    told(LSEI, "E x summed from +0", &[(".sum::<f64>()", 2, FROM_ZERO)]),
    told(LSEI, "E' r summed from +0", &[(".sum::<f64>()", 3, FROM_ZERO)]),
    told(LSEI, "G' lambda summed from +0", &[(".sum::<f64>()", 4, FROM_ZERO)]),
    told(LSEI, "shift's sum from +0", &[(".sum()", 1, FROM_ZERO)]),
    told(LSEI, "right-hand sides not permuted", &[(".map(|&i| d[i])", 1, ".enumerate().map(|(i, _)| d[i])")]),
    told(LSEI, "equality multipliers not put back", &[("multipliers[i] = v", 1, "multipliers[k] = v")]),
    told(LSEI, "solution not put back", &[("x[j] = z[k]", 1, "x[k] = z[k]")]),
    told(LSEI, "E's rank not tested", &[("qr.rank() < n", 1, "false")]),
    told(LSEI, "C's rank not tested", &[("qr.rank() < mc", 1, "n < mc")]),
    told(LSEI, "5 for equalities", &[("Matrix::Equalities", 1, "Matrix::E")]),
    told(LSEI, "11 for E", &[("Matrix::E,", 1, "Matrix::Equalities,")]),
    told(HESSIAN, "r taken as y when theta is 1", &[(
        "theta * y +",
        1,
        "if theta == 1.0 { *y } else { theta * y + (1.0 - theta) * bs } + 0.0 *",
    ), ("0.0 * (1.0 - theta) * bs", 1, "-0.0")]),
    told(HESSIAN, "a NaN s'Bs leaves B", &[("sbs <= 0.0", 1, "!(sbs > 0.0)")]),
    told(HESSIAN, "a zero s'Bs updates", &[("sbs <= 0.0", 1, "sbs < 0.0")]),
    told(HESSIAN, "damped at the share itself", &[("sy >= D", 1, "sy > D")]),
    unseen(HESSIAN, "0.8 for the rest of 0.2", &[("(1.0 - DAMPING)", 1, "0.8")],
        "1 - 0.2 rounds to the number that 0.8 is"),
    told(HESSIAN, "first quotient before the product", &[("* r[j] / sr", 1, "/ sr * r[j]")]),
    told(HESSIAN, "second quotient before the product", &[("* bs[j] / sbs", 1, "/ sbs * bs[j]")]),
    told(HESSIAN, "two roundings into B", &[("/ sr - bs[i]", 1, "/ sr; self.b[i * n + j] -= bs[i]")]),
    told(HESSIAN, "Cholesky of the upper triangle", &[("self.b[i * n + j] - dot", 1, "self.b[j * n + i] - dot")]),
    told(HESSIAN, "an infinite pivot taken", &[(" && entry.is_finite()", 1, "")]),
    told(HESSIAN, "product's sum from +0", &[(".sum()", 1, FROM_ZERO)]),
    told(HESSIAN, "Cholesky's sum from +0", &[(".sum()", 2, FROM_ZERO)]),
    told(HESSIAN, "dot's sum from +0", &[(".sum()", 3, FROM_ZERO)]),
    told(STEP, "exact problem without the upper triangle", &[(
        "l[(k % n) * n + k / n]",
        1,
        "if k % n < k / n { 0.0 } else { l[(k % n) * n + k / n] }",
    )]),
    told(STEP, "relaxed problem with the upper triangle", &[("in i..n", 1, "in 0..n")]),
    told(STEP, "an infinite lower bound closed", &[("lower.is_finite()", 1, "!lower.is_nan()")]),
    told(STEP, "a NaN upper bound closed", &[("upper.is_finite()", 1, "!upper.is_infinite()")]),
    told(STEP, "upper rows before lower", &[
        ("lower.is_finite()", 1, "upper.is_finite()"),
        ("upper.is_finite()", 2, "lower.is_finite()"),
        ("unit(i, 1.0), lower", 1, "unit(i, -1.0), -upper"),
        ("unit(i, -1.0), -upper", 2, "unit(i, 1.0), lower"),
    ]),
    told(STEP, "every inequality in the last column", &[("if c < 0.0 { -c } else { 0.0 }", 1, "-c")]),
    told(STEP, "second minus first", &[("lambda[0] - lambda[1]", 1, "lambda[1] - lambda[0]")]),
    told(STEP, "a NaN relaxation clamped", &[(".clamp(0.0, 1.0)", 1, ".max(0.0).min(1.0)")]),
    told(STEP, "relaxation not clamped", &[(".clamp(0.0, 1.0)", 1, "")]),
    told(STEP, "only infeasibility relaxes", &[(
        "|_| relaxed(l, &f, model)",
        1,
        "|why| if why == Failure::Infeasible { relaxed(l, &f, model) } else { Err(why) }",
    )]),
    told(STEP, "the exact failure returned", &[(
        "|_| relaxed(l, &f, model)",
        1,
        "|why| relaxed(l, &f, model).map_err(|_| why)",
    )]),
    told(STEP, "relaxation above 1 admitted", &[("g.push(unit(n, -1.0), -1.0);", 1, "")]),
    told(STEP, "weight instead of its root", &[("WEIGHT.sqrt()", 1, "WEIGHT")]),
    told(STEP, "whole rows in the solve for f", &[("i * n + i], &w[..i]", 1, "i * n + n], &w")]),
    told(STEP, "inequality multipliers from the first", &[("(0, equalities.rhs.len())", 1, "(0, 0)")]),
];

/// Why a rounding of scaled entries does not show.
const VANISHES: &str = "an entry that scaling rounds becomes subnormal, and its square vanishes";

/// Why the sum's start does not show.
const ABOVE: &str = "one square at least is above zero";

pub const NORM_SLIPS: &[NormSlip] = &[
    norm("entries not scaled", &[("exponent(largest)", 1, "0")], None, None),
    norm("entries scaled twice", &[
        ("scaled(value, -power)", 1, "scaled(scaled(value, -power), -power)"),
    ], None, None),
    norm("entries scaled with two roundings", &[
        ("scaled(value, -power)", 1, "scaled(value, -power - 1) * 2.0"),
    ], Some(VANISHES), Some(VANISHES)),
    norm("squares before scaling", &[(
        "|value| scaled(value, -power)).map(|value| value * value)",
        1,
        "|value| scaled(scaled(value * value, -power), -power))",
    )], None, None),
    norm("largest brought to 1/2 and below 1", &[("exponent(largest)", 1, "exponent(largest) + 1")],
        None,
        Some("it shows only in a square rounded below 2^-1020, each further entry carries that up by 54 places at most, and a column has 18")),
    norm("largest of the entries, not of the magnitudes", &[(".map(f64::abs)", 1, "")], None, None),
    norm("infinity before NaN", &[
        ("f64::is_nan", 1, "f64::is_infinite"),
        ("return f64::NAN", 1, "return f64::INFINITY"),
        ("f64::is_infinite", 2, "f64::is_nan"),
        ("return f64::INFINITY", 2, "return f64::NAN"),
    ], None, None),
    norm("-0 for zeros", &[(
        "return 0.0",
        1,
        "return if values.count() == 0 { 0.0 } else { -0.0 }",
    )], None, Some("a zero norm is only compared, and its sign does not count")),
    norm("-0 for the empty list", &[(
        "return 0.0",
        1,
        "return if values.count() == 0 { -0.0 } else { 0.0 }",
    )], None, Some("no column whose norm is taken is empty")),
    norm("sum from +0", &[(".sum()", 1, FROM_ZERO)], Some(ABOVE), Some(ABOVE)),
    norm("sum right to left", &[(
        "f64 = values.map",
        1,
        "f64 = values.collect::<Vec<_>>().into_iter().rev().map",
    )], None, None),
    norm("scaled back with two roundings", &[(
        "scaled(sum.sqrt(), power)",
        1,
        "if power < -1000 { scaled(sum.sqrt(), power + 1) * 0.5 } else { scaled(sum.sqrt(), power) }",
    )], None, None),
    norm("scaled back before the root", &[
        ("scaled(sum.sqrt(), power)", 1, "scaled(scaled(sum, power), power).sqrt()"),
    ], None, None),
];

/// The loop that raises the penalties, and the same before the test for standing still.
const PENALTIES: &str = "        for (penalty, lambda) in penalty.iter_mut().zip(&lambda) {
            *penalty = lambda.abs().max((*penalty + lambda.abs()) / 2.0);
        }
";
const PENALTIES_FIRST: &str = "for (penalty, lambda) in penalty.iter_mut().zip(&lambda) {
            *penalty = lambda.abs().max((*penalty + lambda.abs()) / 2.0);
        }
        if dot(&g, &step.d).abs()";

/// Slips in the Rust's loop and in its differences, told by the questions that it asks and by its end.
pub const SEARCH_SLIPS: &[Slip] = &[
    told(LOOP, "the start not clipped", &[(".clamp(lower[i], upper[i])", 1, "")]),
    told(LOOP, "trials not clipped", &[(".clamp(setup.lower[i], setup.upper[i])", 1, "")]),
    told(LOOP, "bounds as they are in the step", &[("|(l, x)| l - x", 1, "|(l, _)| *l")]),
    told(LOOP, "a B that has no factor ends the run", &[(
        "continue;",
        2,
        "return Ok(Termination::Infeasible);",
    )]),
    told(LOOP, "a B that has no factor not fresh", &[("fresh = true;", 2, "")]),
    told(LOOP, "a relaxation of 1 alone is all", &[("1.0 - 1e-8", 1, "1.0")]),
    told(LOOP, "a relaxation of 1/2 is all", &[("1.0 - 1e-8", 1, "0.5")]),
    told(LOOP, "multipliers kept from the step before", &[(
        "Some(lambda.clone())",
        1,
        "state.multipliers.take().or(Some(lambda.clone()))",
    )]),
    told(LOOP, "multipliers after the test for standing still", &[
        ("state.multipliers = Some(lambda.clone());", 1, ""),
        (
            "for (penalty, lambda) in penalty",
            1,
            "state.multipliers = Some(lambda.clone());\nfor (penalty, lambda) in penalty",
        ),
    ]),
    unseen(LOOP, "penalties before the test for standing still", &[
        (PENALTIES, 1, ""),
        ("if dot(&g, &step.d).abs()", 1, PENALTIES_FIRST),
    ], "a run that ends there reports no penalties, and its machine is emptied of them"),
    told(LOOP, "stands still without its multipliers", &[(" + complementarity", 1, " + 0.0 * complementarity")]),
    told(LOOP, "products not by magnitude", &[("(l * c).abs()", 1, "l * c")]),
    told(LOOP, "predicted change not by magnitude", &[("dot(&g, &step.d).abs()", 1, "dot(&g, &step.d)")]),
    told(LOOP, "stands still at the tolerance", &[("complementarity < setup.ftol", 1, "complementarity <= setup.ftol")]),
    told(LOOP, "stands still whatever the violation", &[(" && violation < setup.ftol", 1, "")]),
    told(LOOP, "no test for standing still", &[("complementarity < setup.ftol", 1, "complementarity < 0.0")]),
    told(LOOP, "penalties by the mean alone", &[(
        "lambda.abs().max((*penalty + lambda.abs()) / 2.0)",
        1,
        "(*penalty + lambda.abs()) / 2.0",
    )]),
    told(LOOP, "penalties by the multipliers alone", &[(
        "lambda.abs().max((*penalty + lambda.abs()) / 2.0)",
        1,
        "lambda.abs()",
    )]),
    told(LOOP, "penalties never smaller", &[("(*penalty + lambda.abs()) / 2.0", 1, "*penalty")]),
    told(LOOP, "signed multipliers as penalties", &[("lambda.abs().max(", 1, "lambda.max(")]),
    told(LOOP, "the merit at x with the penalties before", &[
        (
            "for (penalty, lambda) in penalty",
            1,
            "let before = penalty.clone();\nfor (penalty, lambda) in penalty",
        ),
        ("merit(kinds, &penalty, state.f", 1, "merit(kinds, &before, state.f"),
    ]),
    told(LOOP, "violation of a floor by magnitude", &[("(-c).max(0.0)", 1, "c.abs()")]),
    told(LOOP, "violation of an equality by its negative part", &[("c.abs(),", 1, "(-c).max(0.0),")]),
    told(LOOP, "merit without penalties", &[("f + dot(", 1, "f + 0.0 * dot(")]),
    told(LOOP, "slope without the violation", &[("- (1.0 - step.relaxation)", 1, "- 0.0")]),
    told(LOOP, "slope without the relaxation", &[("(1.0 - step.relaxation)", 1, "1.0")]),
    told(LOOP, "a decrease of a fifth", &[("DECREASE: f64 = 0.1", 1, "DECREASE: f64 = 0.2")]),
    told(LOOP, "any decrease", &[("DECREASE: f64 = 0.1", 1, "DECREASE: f64 = 0.0")]),
    told(LOOP, "the magnitude of the slope", &[("slope.min(0.0)", 1, "slope.abs()")]),
    told(LOOP, "the slope also above zero", &[("slope.min(0.0)", 1, "slope")]),
    told(LOOP, "refused at the decrease itself", &[("phi <= phi0", 1, "phi < phi0")]),
    told(LOOP, "ten trials", &[("BACKTRACKS: usize = 10", 1, "BACKTRACKS: usize = 9")]),
    told(LOOP, "twelve trials", &[("BACKTRACKS: usize = 10", 1, "BACKTRACKS: usize = 11")]),
    told(LOOP, "alpha not clipped", &[("minimizer.clamp(0.1 * alpha, 0.5 * alpha)", 1, "minimizer")]),
    told(LOOP, "alpha at least a fifth", &[("clamp(0.1 * alpha", 1, "clamp(0.2 * alpha")]),
    told(LOOP, "alpha at most three quarters", &[("0.5 * alpha)", 1, "0.75 * alpha)")]),
    told(LOOP, "a tenth of alpha where the parabola has no least", &[("0.5 * alpha\n", 1, "0.1 * alpha\n")]),
    told(LOOP, "alpha always halved", &[("minimizer.is_finite()", 1, "false")]),
    told(LOOP, "curvature over alpha", &[("(alpha * alpha)", 1, "alpha")]),
    told(LOOP, "curvature without the slope", &[("phi - phi0 - slope * alpha", 1, "phi - phi0")]),
    told(LOOP, "the parabola's root for its least", &[("(2.0 * curvature)", 1, "curvature")]),
    told(LOOP, "the last trial taken on a used B", &[("if !accepted && !fresh", 1, "if false && !fresh")]),
    told(LOOP, "B reset though it is fresh", &[("if !accepted && !fresh", 1, "if !accepted")]),
    told(LOOP, "a reset that clears the penalties", &[(
        "hessian = Hessian::identity(n);",
        3,
        "hessian = Hessian::identity(n);\npenalty = vec![0.0; m];",
    )]),
    told(LOOP, "a reset that leaves B", &[("hessian = Hessian::identity(n);", 3, "")]),
    told(LOOP, "a reset that is not fresh", &[("fresh = true;", 3, "")]),
    told(LOOP, "B fresh after an update", &[("fresh = false;", 1, "")]),
    told(LOOP, "no update", &[("hessian.update(&s, &y);", 1, "")]),
    told(LOOP, "the old Lagrangian without multipliers", &[("lagrangian(&g, &a, &lambda)", 1, "g.clone()")]),
    told(LOOP, "the new Lagrangian without multipliers", &[("lagrangian(&g_new, &a_new, &lambda)", 1, "g_new.clone()")]),
    told(LOOP, "the Lagrangian with the other sign", &[("*out -= lambda * a", 1, "*out += lambda * a")]),
    told(LOOP, "the change of g alone", &[
        ("lagrangian(&g_new, &a_new, &lambda)", 1, "g_new.clone()"),
        ("lagrangian(&g, &a, &lambda)", 1, "g.clone()"),
    ]),
    told(LOOP, "a relative change of the objective", &[("(f - state.f).abs()", 1, "((f - state.f) / f).abs()")]),
    told(LOOP, "settled at the tolerance", &[("if change < setup.ftol", 1, "if change <= setup.ftol")]),
    told(LOOP, "settled whatever the violation", &[(" && max_violation(kinds, &state.c) < setup.ftol", 1, "")]),
    told(LOOP, "settled only where a trial was accepted", &[("if change < setup.ftol", 1, "if accepted && change < setup.ftol")]),
    told(LOOP, "constraints not looked at", &[(
        "finite(objective.constraint(j, x).map_err(failed)?)",
        1,
        "objective.constraint(j, x).map_err(failed)",
    )]),
    told(LOOP, "the Jacobian not looked at", &[("a.iter().try_for_each(|&entry| finite(entry).map(drop))?;", 1, "")]),
    told(LOOP, "a constraint's move not by its coordinate", &[("xi.abs().max(1.0);", 1, "1.0;")]),
    told(LOOP, "a constraint's difference over its move", &[("(point[i] - xi)", 1, "(f64::EPSILON.sqrt() * xi.abs().max(1.0))")]),
    told(LOOP, "moves of a constraint that add up", &[("point[i] = xi;", 1, "")]),
    told(DIFFERENCE, "the objective's move not by its coordinate", &[("xi.abs().max(1.0));", 1, "1.0);")]),
    told(DIFFERENCE, "the objective's difference over its move", &[("(f_plus - fx) / (plus - xi)", 1, "(f_plus - fx) / h")]),
    told(DIFFERENCE, "moves of the objective that add up", &[("point[i] = xi;", 1, "")]),
    told(DIFFERENCE, "the gradient not looked at", &[("if out.iter().all(", 1, "if true || out.iter().all(")]),
    told(DIFFERENCE, "a move of the cube root", &[("f64::EPSILON.sqrt()", 1, "f64::EPSILON.cbrt()")]),
];

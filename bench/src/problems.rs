//! The inputs, made from a seed.

/// The data of a step: see include/gritstrut.h.
#[derive(Clone)]
pub struct Step {
    pub factor: Vec<f64>,
    pub gradient: Vec<f64>,
    pub kinds: Vec<u8>,
    pub values: Vec<f64>,
    pub jacobian: Vec<f64>,
    pub lower: Vec<f64>,
    pub upper: Vec<f64>,
}

/// A matrix and a right side.
#[derive(Clone)]
pub struct Matrix {
    pub m: usize,
    pub n: usize,
    pub a: Vec<f64>,
    pub b: Vec<f64>,
}

/// Valves that meet demands with openings from 0 to 1, nearest to their set points. A valve passes
/// its size times the square of its opening; a demand is of some valves' flows together, the first an
/// equality and the others floors.
#[derive(Clone)]
pub struct Valves {
    pub sizes: Vec<f64>,
    pub set_points: Vec<f64>,
    pub shares: Vec<Vec<f64>>,
    pub demands: Vec<f64>,
}

impl Valves {
    pub fn sizes(&self) -> (usize, usize) {
        (self.sizes.len(), self.demands.len())
    }

    /// Function 0 is the objective, 1 + j demand j.
    pub fn value(&self, function: usize, x: &[f64]) -> f64 {
        if function == 0 {
            return x.iter().zip(&self.set_points).map(|(x, set)| (x - set) * (x - set)).sum();
        }
        let shares = &self.shares[function - 1];
        let flows = shares.iter().zip(&self.sizes).zip(x).map(|((share, size), x)| share * size * x * x);
        flows.sum::<f64>() - self.demands[function - 1]
    }

    pub fn slope(&self, function: usize, variable: usize, x: &[f64]) -> f64 {
        let x = x[variable];
        match function {
            0 => 2.0 * (x - self.set_points[variable]),
            _ => 2.0 * self.shares[function - 1][variable] * self.sizes[variable] * x,
        }
    }
}

#[derive(Clone, Copy, PartialEq)]
pub enum Bounds {
    None,
    /// A floor and a ceiling around zero.
    All,
    /// Every floor above its ceiling, so that neither the exact problem nor the relaxed one has
    /// a feasible point.
    Crossed,
}

/// A small generator: xorshift with a multiplier.
struct Drawn(u64);

impl Drawn {
    fn bits(&mut self) -> u64 {
        self.0 ^= self.0 << 13;
        self.0 ^= self.0 >> 7;
        self.0 ^= self.0 << 17;
        self.0.wrapping_mul(2685821657736338717)
    }

    /// From -1 to 1.
    fn unit(&mut self) -> f64 {
        (self.bits() >> 11) as f64 / (1u64 << 52) as f64 - 1.0
    }

    /// From 0 to 1.
    fn share(&mut self) -> f64 {
        self.unit().abs()
    }

    fn list(&mut self, n: usize) -> Vec<f64> {
        (0..n).map(|_| self.unit()).collect()
    }
}

/// A lower triangle that is well conditioned.
fn triangle(drawn: &mut Drawn, n: usize) -> Vec<f64> {
    let mut l = vec![0.0; n * n];
    for i in 0..n {
        for j in 0..i {
            l[i * n + j] = 0.3 * drawn.unit();
        }
        l[i * n + i] = 1.0 + 0.5 * drawn.unit();
    }
    l
}

fn bounds(drawn: &mut Drawn, n: usize, of: Bounds) -> (Vec<f64>, Vec<f64>) {
    let floor: Vec<f64> = drawn.list(n).iter().map(|v| -0.2 - 0.2 * v.abs()).collect();
    let ceiling: Vec<f64> = drawn.list(n).iter().map(|v| 0.2 + 0.2 * v.abs()).collect();
    match of {
        Bounds::None => (vec![f64::NEG_INFINITY; n], vec![f64::INFINITY; n]),
        Bounds::All => (floor, ceiling),
        Bounds::Crossed => (ceiling, floor),
    }
}

fn product(row: &[f64], x: &[f64]) -> f64 {
    row.iter().zip(x).map(|(a, x)| a * x).sum()
}

/// Steps of n variables and m constraints, the first of every four an equality, near a feasible
/// point.
pub fn steps(count: usize, n: usize, m: usize, of: Bounds) -> Vec<Step> {
    let mut drawn = Drawn(88172645463325252);
    (0..count)
        .map(|_| {
            let jacobian = drawn.list(m * n);
            let near: Vec<f64> = drawn.list(n).iter().map(|v| 0.1 * v).collect();
            let kinds: Vec<u8> = (0..m).map(|j| u8::from(j % 4 != 0)).collect();
            let values = (0..m)
                .map(|j| {
                    let at = product(&jacobian[j * n..(j + 1) * n], &near);
                    if kinds[j] == 0 { -at } else { 0.05 * drawn.share() - at }
                })
                .collect();
            let (lower, upper) = bounds(&mut drawn, n, of);
            let factor = triangle(&mut drawn, n);
            Step { factor, gradient: drawn.list(n), kinds, values, jacobian, lower, upper }
        })
        .collect()
}

/// The steps of 16 variables, 16 constraints and crossed bounds that take the Rust the most
/// factorings, among the first 3,000 drawn: from 1,539 to 2,023 in one step.
pub fn hard() -> Vec<Step> {
    let drawn = steps(2490, 16, 16, Bounds::Crossed);
    [955, 1309, 2489, 2316, 394, 427, 1360, 736].map(|index: usize| drawn[index].clone()).to_vec()
}

/// The headers that each of 12 meters leaves and enters; 4 is the world outside.
const METERS: [(usize, usize); 12] = [
    (4, 0),
    (4, 0),
    (3, 0),
    (0, 1),
    (0, 2),
    (1, 2),
    (1, 3),
    (1, 4),
    (2, 3),
    (2, 4),
    (3, 4),
    (3, 4),
];

/// Flows that balance at all four headers; a branch whose valve is shut carries nothing.
fn flows(drawn: &mut Drawn) -> Vec<f64> {
    let mut flow = vec![0.0; 12];
    (flow[0], flow[1]) = (50.0 + 50.0 * drawn.share(), 50.0 * drawn.share());
    let shares: Vec<f64> =
        (0..12).map(|_| if drawn.share() < 0.35 { 0.0 } else { 0.1 + drawn.share() }).collect();
    // The meter that leads back from header 3 to header 0 closes a loop: go round until it settles.
    for _ in 0..60 {
        for header in 0..4 {
            let into: f64 = (0..12).filter(|&i| METERS[i].1 == header).map(|i| flow[i]).sum();
            let out: Vec<usize> = (0..12).filter(|&i| METERS[i].0 == header).collect();
            let whole: f64 = out.iter().map(|&i| shares[i]).sum();
            for &i in &out {
                flow[i] =
                    if whole > 0.0 { into * shares[i] / whole } else { into / out.len() as f64 };
            }
        }
    }
    flow
}

/// One day of 12 meters and 4 headers: readings with errors, balances as equalities, each error
/// weighed by the meter's spread, and no corrected flow below zero, so that a floor is the
/// reading with its sign turned.
fn day(drawn: &mut Drawn) -> Step {
    let flow = flows(drawn);
    let spread: Vec<f64> = flow.iter().map(|f| 0.5 + 0.02 * f).collect();
    let reading: Vec<f64> =
        flow.iter().zip(&spread).map(|(f, s)| (f + 2.0 * s * drawn.unit()).max(0.0)).collect();
    let mut jacobian = vec![0.0; 4 * 12];
    let mut factor = vec![0.0; 12 * 12];
    for (i, &(from, to)) in METERS.iter().enumerate() {
        if from < 4 {
            jacobian[from * 12 + i] = -1.0;
        }
        if to < 4 {
            jacobian[to * 12 + i] = 1.0;
        }
        factor[i * 12 + i] = 1.0 / spread[i];
    }
    let values = (0..4).map(|j| product(&jacobian[j * 12..(j + 1) * 12], &reading)).collect();
    let lower = reading.iter().map(|r| -r).collect();
    let (gradient, upper) = (vec![0.0; 12], vec![f64::INFINITY; 12]);
    Step { factor, gradient, kinds: vec![0; 4], values, jacobian, lower, upper }
}

/// Days of 12 meters and 4 balances with floors at zero flow.
pub fn days(count: usize) -> Vec<Step> {
    let mut drawn = Drawn(2463534242);
    (0..count).map(|_| day(&mut drawn)).collect()
}

/// Steps whose second constraint, an inequality, rules out what the first, an equality, asks, so
/// that the relaxed problem answers.
pub fn incompatible(count: usize, n: usize, m: usize) -> Vec<Step> {
    let mut all = steps(count, n, m, Bounds::All);
    for step in &mut all {
        for i in 0..n {
            step.jacobian[n + i] = -step.jacobian[i];
        }
        step.values[1] = -step.values[0] - 0.1;
    }
    all
}

/// Steps of 16 variables, 16 inequalities and all bounds, whose solution has just `active` rows
/// active. They are made backwards from the solution: a multiplier above zero for each active
/// row, room for each other, and the gradient that these make stationary.
pub fn active(count: usize, active: usize) -> Vec<Step> {
    let mut drawn = Drawn(521288629 + active as u64);
    (0..count).map(|_| with_active(&mut drawn, active)).collect()
}

fn with_active(drawn: &mut Drawn, active: usize) -> Step {
    let n = 16;
    let (jacobian, factor) = (drawn.list(n * n), triangle(drawn, n));
    let solution: Vec<f64> = drawn.list(n).iter().map(|v| 0.5 * v).collect();
    let row = |j: usize| &jacobian[j * n..(j + 1) * n];
    let mut values: Vec<f64> = (0..n).map(|j| -product(row(j), &solution)).collect();
    let mut gradient = vec![0.0; n];
    for j in 0..n {
        // L' d, entry j, goes back through column j of L.
        let stretched: f64 = (j..n).map(|i| factor[i * n + j] * solution[i]).sum();
        for i in j..n {
            gradient[i] -= factor[i * n + j] * stretched;
        }
        // Every other row first, so that active rows stand among inactive ones.
        if (j * 7) % n < active {
            let multiplier = 0.5 + drawn.share();
            for i in 0..n {
                gradient[i] += multiplier * row(j)[i];
            }
        } else {
            values[j] += 0.5 + drawn.share();
        }
    }
    let (lower, upper) = (vec![-2.0; n], vec![2.0; n]);
    Step { factor, gradient, kinds: vec![1; n], values, jacobian, lower, upper }
}

pub fn matrices(count: usize, m: usize, n: usize) -> Vec<Matrix> {
    let mut drawn = Drawn(362436069362436069);
    (0..count).map(|_| Matrix { m, n, a: drawn.list(m * n), b: drawn.list(m) }).collect()
}

/// Numbers above zero of many magnitudes.
pub fn numbers(count: usize) -> Vec<f64> {
    let mut drawn = Drawn(1181783497276652981);
    (0..count)
        .map(|_| (1.0 + drawn.share()) * 2f64.powi((drawn.bits() % 201) as i32 - 100))
        .collect()
}

/// Valves whose demands can be met, though not at their set points.
pub fn valves(count: usize, n: usize, m: usize) -> Vec<Valves> {
    let mut drawn = Drawn(0x5eed_0012 + (64 * n + m) as u64);
    let one = |drawn: &mut Drawn| {
        let sizes: Vec<f64> = (0..n).map(|_| 1.0 + drawn.share()).collect();
        let met: Vec<f64> = (0..n).map(|_| 0.3 + 0.5 * drawn.share()).collect();
        let shares: Vec<Vec<f64>> = (0..m).map(|_| (0..n).map(|_| drawn.share()).collect()).collect();
        let set_points = met.iter().map(|x| x - 0.2 * drawn.share()).collect();
        let mut valves = Valves { sizes, set_points, shares, demands: vec![0.0; m] };
        valves.demands = (1..=m).map(|function| valves.value(function, &met)).collect();
        valves
    };
    (0..count).map(|_| one(&mut drawn)).collect()
}

//! Slips around the Rust files: in part 1, in the tests, in the round limit, in what is cleared, in
//! places and reports, in the reading of a day, of the check, of the tests of
//! meters and of settled volumes.

use peer::{Library, library};
use reference::Rust;
use reference::call::{Call, Edge, Sound, WIDTHS, passes};
use reference::certain;
use reference::check::{Slip, TOLERANCE, VERDICT};
use reference::settle;
use reference::shape::{Op, REPORT, WORKSPACES};
use reference::suspect;
use reference::tally::{NOWHERE, Tally};

/// Whether a call passes a test with a report of the right length.
fn passes_reported(call: &Call, test: u32) -> bool {
    let words = if call.op.is_step() { REPORT } else { call.words };
    passes(&Call { words, ..call.clone() }, test)
}

/// Whether a call passes a test with another test of the widths of one kind of constraint.
fn passes_widths(call: &Call, test: u32, kind: u8, good: impl Fn(f64) -> bool) -> bool {
    let widths = call.inputs.get(WIDTHS).into_iter().flatten();
    let mut these = call.kinds.iter().zip(widths).filter(|pair| *pair.0 == kind);
    match test {
        14 => (kind == 2 || passes(call, 14)) && these.all(|pair| good(*pair.1)),
        _ => passes(call, test),
    }
}

/// Whether a call passes a test with another test of the tolerance.
fn passes_tolerance(call: &Call, test: u32, good: impl Fn(f64) -> bool) -> bool {
    match test {
        10 if call.op == Op::Check => good(call.inputs[TOLERANCE][0]),
        _ => passes(call, test),
    }
}

/// The rules' report, with a change to it.
fn changed(tally: &Tally, change: impl Fn(&mut Tally)) -> [u32; REPORT] {
    let mut tally = *tally;
    change(&mut tally);
    Sound::report(&tally)
}

/// Declares edges, each with its slip, and lists them.
macro_rules! edges {
    ($($name:ident $what:literal { $($slip:tt)* })*) => {
        $(struct $name;
        impl Edge for $name { $($slip)* })*

        /// What each slip is, and the library that has it.
        pub fn libraries() -> Vec<(&'static str, Library)> {
            vec![$(($what, library::<Rust, $name>())),*]
        }
    };
}

edges! {
    SumFromZero "sum from +0" {
        fn sum(x: &[f64]) -> f64 { x.iter().fold(0.0, |sum, term| sum + term) }
    }
    SumBackwards "sum right to left" {
        fn sum(x: &[f64]) -> f64 { x.iter().rev().sum() }
    }
    NormByHypot "norm by hypot" {
        fn norm(x: &[f64]) -> f64 { x.iter().fold(0.0, |sum: f64, term| sum.hypot(*term)) }
    }
    RootOfMinusZero "root of -0 taken as +0" {
        fn sqrt(x: f64) -> f64 { x.sqrt() + 0.0 }
    }
    RootTruncated "root rounded down" {
        fn sqrt(x: f64) -> f64 {
            let root = x.sqrt();
            let above = root.mul_add(root, -x) > 0.0;
            if above && root > 0.0 && x.is_finite() { root.next_down() } else { root }
        }
    }
    LengthsFirst "lengths before sizes" { const TESTS: [u32; 7] = [2, 1, 3, 4, 14, 15, 10]; }
    WorkspacesFirst "workspaces before lengths" { const TESTS: [u32; 7] = [1, 3, 2, 4, 14, 15, 10]; }
    KindsBefore "kinds before workspaces" { const TESTS: [u32; 7] = [1, 2, 4, 3, 14, 15, 10]; }
    KindThree "kind 3 taken" {
        fn passes(call: &Call, test: u32) -> bool {
            if test == 4 { call.kinds.iter().all(|&kind| kind <= 3) } else { passes(call, test) }
        }
    }
    KindTwo "kind 2 refused" {
        fn passes(call: &Call, test: u32) -> bool {
            if test == 4 { call.kinds.iter().all(|&kind| kind <= 1) } else { passes(call, test) }
        }
    }
    WidthsBeforeKinds "widths before kinds" { const TESTS: [u32; 7] = [1, 2, 3, 14, 4, 15, 10]; }
    WidthsBeforeRoom "widths before workspaces" { const TESTS: [u32; 7] = [1, 2, 14, 3, 4, 15, 10]; }
    WidthsBeforeLengths "widths before lengths" { const TESTS: [u32; 7] = [1, 14, 2, 3, 4, 15, 10]; }
    WidthOfFloor "a width tested for a floor" {
        fn passes(call: &Call, test: u32) -> bool { passes_widths(call, test, 1, |w| w >= 0.0 && w < f64::INFINITY) }
    }
    WidthOfEquality "a width tested for an equality" {
        fn passes(call: &Call, test: u32) -> bool { passes_widths(call, test, 0, |w| w >= 0.0 && w < f64::INFINITY) }
    }
    InfiniteWidth "an infinite width taken" {
        fn passes(call: &Call, test: u32) -> bool { passes_widths(call, test, 2, |w| w >= 0.0) }
    }
    NanWidth "a NaN width taken" {
        fn passes(call: &Call, test: u32) -> bool { passes_widths(call, test, 2, |w| !(w < 0.0 || w == f64::INFINITY)) }
    }
    NegativeWidth "a width below zero taken" {
        fn passes(call: &Call, test: u32) -> bool { passes_widths(call, test, 2, |w| w.abs() < f64::INFINITY) }
    }
    MinusZeroWidth "a width of -0 refused" {
        fn passes(call: &Call, test: u32) -> bool {
            passes_widths(call, test, 2, |w| w >= 0.0 && w < f64::INFINITY && w.is_sign_positive())
        }
    }
    ZeroWidth "a width of zero refused" {
        fn passes(call: &Call, test: u32) -> bool { passes_widths(call, test, 2, |w| w > 0.0 && w < f64::INFINITY) }
    }
    CeilingSign "a band's second row not opposed" { fn opposed(entry: f64) -> f64 { entry } }
    CeilingValue "w + c for w - c" {
        fn ceiling(value: f64, width: f64) -> f64 { width + value }
    }
    CeilingAlone "w for w - c" { fn ceiling(_: f64, width: f64) -> f64 { width } }
    CeilingTurned "c - w for w - c" {
        fn ceiling(value: f64, width: f64) -> f64 { value - width }
    }
    MultipliersAdded "a band's second multiplier added" {
        fn together(first: f64, second: f64) -> f64 { first + second }
    }
    MultipliersTurned "a band's multiplier second less first" {
        fn together(first: f64, second: f64) -> f64 { second - first }
    }
    MultiplierOfFloor "a band's multiplier that of its floor" {
        fn together(first: f64, _: f64) -> f64 { first }
    }
    MultiplierNegated "a band's multiplier turned twice" {
        fn together(first: f64, second: f64) -> f64 { -(second - first) }
    }
    ShortWorkspace "a workspace one short taken" {
        fn passes(call: &Call, test: u32) -> bool {
            let long = call.work[0] + 1 >= WORKSPACES[0] && call.work[1] >= WORKSPACES[1];
            if test == 3 { long } else { passes(call, test) }
        }
    }
    ShortIndices "an index workspace one short taken" {
        fn passes(call: &Call, test: u32) -> bool {
            let long = call.work[0] >= WORKSPACES[0] && call.work[1] + 1 >= WORKSPACES[1];
            if test == 3 { long } else { passes(call, test) }
        }
    }
    AnyLimit "a round limit past 3n taken" {
        fn passes(call: &Call, test: u32) -> bool {
            let mut call = call.clone();
            if call.op == Op::Nnls {
                call.sizes[2] = 0;
            }
            passes(&call, test)
        }
    }
    EarlyLimit "refused at the round limit" {
        fn within(rounds: usize, limit: usize) -> bool { rounds < limit || rounds == 0 }
    }
    NoLimit "the round limit not kept" {
        fn within(_: usize, _: usize) -> bool { true }
    }
    Uncleared "not cleared after 5 to 8" {
        fn clears(number: u32) -> bool { number == 0 }
    }
    WidthCleared "cleared after 14" {
        fn clears(number: u32) -> bool { number == 14 || Sound::clears(number) }
    }
    Overcleared "cleared after 1 to 4" {
        fn clears(_: u32) -> bool { true }
    }
    ClearedShort "one f64 not cleared" { const CLEARED: [usize; 2] = [8191, 512]; }
    IndicesShort "one u32 not cleared" { const CLEARED: [usize; 2] = [8192, 511]; }
    ClearedLong "f64 cleared past 8,192" { const CLEARED: [usize; 2] = [8193, 512]; }
    IndicesLong "u32 cleared past 512" { const CLEARED: [usize; 2] = [8192, 513]; }
    NothingCleared "workspaces never cleared" { const CLEARED: [usize; 2] = [0, 0]; }
    ElevenUncleared "not cleared after 11" {
        fn clears(number: u32) -> bool { number != 11 && Sound::clears(number) }
    }
    PlaceAlways "nowhere stored with 6 and 7" {
        fn places(number: u32) -> bool { number >= 5 }
    }
    PlaceDone "nowhere stored with 0" {
        fn places(number: u32) -> bool { number == 0 || Sound::places(number) }
    }
    PlaceOfEqualities "no place stored with 5" {
        fn places(number: u32) -> bool { number == 11 }
    }
    PlaceOfE "no place stored with 11" {
        fn places(number: u32) -> bool { number == 5 }
    }
    RelaxedPlace "place of the relaxed stage told for the exact one" {
        fn report(tally: &Tally) -> [u32; REPORT] {
            changed(tally, |tally| tally.stages[0].place = tally.stages[1].place)
        }
    }
    ExactPlace "place of the exact stage told for the relaxed one" {
        fn report(tally: &Tally) -> [u32; REPORT] {
            changed(tally, |tally| tally.stages[1].place = tally.stages[0].place)
        }
    }
    StagesExchanged "stages exchanged" {
        fn report(tally: &Tally) -> [u32; REPORT] { changed(tally, |tally| tally.stages.reverse()) }
    }
    OnlyFailed "stages told of a failed step alone" {
        fn report(tally: &Tally) -> [u32; REPORT] {
            changed(tally, |tally| {
                if tally.stages[1].number == 0 {
                    tally.stages = Default::default();
                }
            })
        }
    }
    FiveInReport "5 for equalities in the report" {
        fn report(tally: &Tally) -> [u32; REPORT] {
            changed(tally, |tally| {
                if tally.stages[0].number == 11 {
                    tally.stages[0].number = 5;
                }
            })
        }
    }
    ZeroForNowhere "0 for nowhere in the report" {
        fn report(tally: &Tally) -> [u32; REPORT] {
            Sound::report(tally).map(|word| if word == NOWHERE { 0 } else { word })
        }
    }
    ExactCounts "counts of the exact stage only" {
        fn report(tally: &Tally) -> [u32; REPORT] {
            changed(tally, |tally| tally.spent[1] = Default::default())
        }
    }
    RelaxedCounts "counts of the last stage only" {
        fn report(tally: &Tally) -> [u32; REPORT] {
            changed(tally, |tally| {
                if tally.relaxed > 0 {
                    tally.spent[0] = Default::default();
                }
            })
        }
    }
    CountsExchanged "rounds and factorings exchanged" {
        fn report(tally: &Tally) -> [u32; REPORT] {
            let mut report = Sound::report(tally);
            report.swap(4, 5);
            report
        }
    }
    WrappedTally "a count that passes the range starts again" {
        fn raised(tally: [u64; 2], spent: [u32; 2]) -> [u64; 2] {
            [0, 1].map(|i| tally[i].wrapping_add(u64::from(spent[i])))
        }
    }
    BothAtTheEnd "both counts at the end when one is" {
        fn raised(tally: [u64; 2], spent: [u32; 2]) -> [u64; 2] {
            let raised = Sound::raised(tally, spent);
            if raised.contains(&u64::MAX) { [u64::MAX; 2] } else { raised }
        }
    }
    TallyExchanged "the tally's counts exchanged" {
        fn raised(tally: [u64; 2], [rounds, factorings]: [u32; 2]) -> [u64; 2] {
            Sound::raised(tally, [factorings, rounds])
        }
    }
    TallySet "the tally set, not raised" {
        fn raised(_: [u64; 2], spent: [u32; 2]) -> [u64; 2] { spent.map(u64::from) }
    }
    TallyOfDone "a refused step raises nothing" {
        fn spent(number: u32, tally: &Tally) -> Option<[u32; 2]> {
            if number == 0 { Sound::spent(number, tally) } else { None }
        }
    }
    TallyOfExact "the tally raised by the exact stage alone" {
        fn spent(number: u32, tally: &Tally) -> Option<[u32; 2]> {
            let mut tally = *tally;
            tally.spent[1] = Default::default();
            Sound::spent(number, &tally)
        }
    }
    TallyByRefusedRound "a round refused by 7 counted" {
        fn spent(number: u32, tally: &Tally) -> Option<[u32; 2]> {
            let [rounds, factorings] = Sound::spent(number, tally)?;
            Some([rounds + u32::from(number == 7), factorings])
        }
    }
    ReportedEarly "report written on 4" {
        fn reports(number: u32) -> bool { number == 4 || Sound::reports(number) }
    }
    ReportedWidth "report written on 14" {
        fn reports(number: u32) -> bool { number == 14 || Sound::reports(number) }
    }
    ReportedDone "report written on 0 alone" {
        fn reports(number: u32) -> bool { number == 0 }
    }
    ReportedFailed "report not written on 0" {
        fn reports(number: u32) -> bool { number != 0 && Sound::reports(number) }
    }
    AnyReport "a report of any length taken" {
        fn passes(call: &Call, test: u32) -> bool { passes_reported(call, test) }
    }
    LongReport "a longer report taken" {
        fn passes(call: &Call, test: u32) -> bool {
            if call.words > REPORT { passes_reported(call, test) } else { passes(call, test) }
        }
    }
    ReportFirst "the report's length before the sizes" {
        const TESTS: [u32; 7] = [2, 1, 3, 4, 14, 15, 10];
        fn passes(call: &Call, test: u32) -> bool {
            let reported = !call.op.is_step() || call.words == REPORT;
            if test == 2 && !passes(call, 1) { reported } else { passes(call, test) }
        }
    }
    ReportLate "the report's length after the workspaces" {
        fn passes(call: &Call, test: u32) -> bool {
            if passes(call, 3) { passes(call, test) } else { passes_reported(call, test) }
        }
    }
    RolloverLost "a day's rollover not added" {
        fn volume(old: u32, new: u32) -> f64 { f64::from(new) - f64::from(old) }
    }
    FullTurn "a day's equal readings a full turn" {
        fn volume(old: u32, new: u32) -> f64 {
            if old == new { 1e6 } else { Sound::volume(old, new) }
        }
    }
    NotInverted "a day's E of spreads" {
        fn scale(spread: f64) -> f64 { spread }
    }
    TwiceRounded "a day's f rounded twice" {
        fn target(volume: f64, spread: f64) -> f64 { volume * (1.0 / spread) }
    }
    SpreadFirst "a day's 13 before 12" {
        fn fault(old: u32, new: u32, spread: f64) -> Option<u32> {
            Sound::fault(0, 0, spread).or(Sound::fault(old, new, spread))
        }
    }
    LargestRefused "a day's reading of 999,999 refused" {
        fn fault(old: u32, new: u32, spread: f64) -> Option<u32> {
            Sound::fault(old.saturating_add(1), new.saturating_add(1), spread)
        }
    }
    InfiniteSpread "a day's infinite spread taken" {
        fn fault(old: u32, new: u32, spread: f64) -> Option<u32> {
            Sound::fault(old, new, spread.min(f64::MAX))
        }
    }
    Clipped "a day's negative volume clipped" {
        fn told(volume: f64) -> f64 { if volume < 0.0 { 0.0 } else { volume } }
    }
    ZeroNamed "a day's -0 named" {
        fn is_named(volume: f64) -> bool { volume.is_sign_negative() || volume.is_nan() }
    }
    NanNotNamed "a day's NaN not named" {
        fn is_named(volume: f64) -> bool { volume < 0.0 }
    }
    DayCleared "workspaces of a day cleared after 12 and 13" {
        fn clears(number: u32) -> bool { number >= 12 || Sound::clears(number) }
    }
    BoundsBeforeWidths "bounds before widths" { const TESTS: [u32; 7] = [1, 2, 3, 4, 15, 14, 10]; }
    BoundsBeforeKinds "bounds before kinds" { const TESTS: [u32; 7] = [1, 2, 3, 15, 4, 14, 10]; }
    HighestVariable "the highest variable with a wrong bound named" {
        fn variable(wrong: &[usize]) -> usize { wrong[wrong.len() - 1] }
    }
    UpperInfinity "an upper +infinity refused" {
        fn bounded(lower: f64, upper: f64) -> bool { Sound::bounded(lower, upper) && upper < f64::INFINITY }
    }
    LowerInfinity "a lower -infinity refused" {
        fn bounded(lower: f64, upper: f64) -> bool { Sound::bounded(lower, upper) && lower > f64::NEG_INFINITY }
    }
    NanLower "a NaN as a lower bound taken" {
        fn bounded(lower: f64, upper: f64) -> bool { Sound::bounded(if lower.is_nan() { 0.0 } else { lower }, upper) }
    }
    NanUpper "a NaN as an upper bound taken" {
        fn bounded(lower: f64, upper: f64) -> bool { Sound::bounded(lower, if upper.is_nan() { 0.0 } else { upper }) }
    }
    OpenBelow "a lower +infinity taken" {
        fn bounded(lower: f64, upper: f64) -> bool { Sound::bounded(lower.min(f64::MAX), upper) || lower == f64::INFINITY }
    }
    OpenAbove "an upper -infinity taken" {
        fn bounded(lower: f64, upper: f64) -> bool { Sound::bounded(lower, upper.max(f64::MIN)) || upper == f64::NEG_INFINITY }
    }
    BoundCleared "cleared after 15" {
        fn clears(number: u32) -> bool { number == 15 || Sound::clears(number) }
    }
    CheckUpperColumns "check: whole columns of the factor" { const CHECK: Slip = Slip::UpperColumns; }
    CheckUpperRows "check: whole rows of the factor" { const CHECK: Slip = Slip::UpperRows; }
    CheckOwnValueRefused "check: the tolerance's own value refused" { const CHECK: Slip = Slip::OwnValueRefused; }
    CheckNanPasses "check: a NaN passes" { const CHECK: Slip = Slip::NanPasses; }
    CheckLastRow "check: the last failed row named" { const CHECK: Slip = Slip::LastRow; }
    CheckOpenProducts "check: a product of an open side" { const CHECK: Slip = Slip::OpenProducts; }
    CheckOpenSlopes "check: an open side in stationarity" { const CHECK: Slip = Slip::OpenSlopes; }
    CheckLenientSigns "check: signs by the tolerance" { const CHECK: Slip = Slip::LenientSigns; }
    CheckSignedResiduals "check: residuals by value" { const CHECK: Slip = Slip::SignedResiduals; }
    CheckMagnitudes "check: violations by magnitude" { const CHECK: Slip = Slip::Magnitudes; }
    CheckSignedProducts "check: products by value" { const CHECK: Slip = Slip::SignedProducts; }
    CheckEqualitySigns "check: an equality's sign tested" { const CHECK: Slip = Slip::EqualitySigns; }
    CheckEqualityProducts "check: an equality's product tested" { const CHECK: Slip = Slip::EqualityProducts; }
    CheckCeilingOfFloor "check: a ceiling's margin w less its floor's" { const CHECK: Slip = Slip::CeilingOfFloor; }
    CheckWholeMultiplier "check: a band's floor with the whole multiplier" { const CHECK: Slip = Slip::WholeMultiplier; }
    CheckTurnedMultiplier "check: a band's ceiling with the whole multiplier" { const CHECK: Slip = Slip::TurnedMultiplier; }
    CheckCeilingUnnamed "check: a ceiling named as its constraint" { const CHECK: Slip = Slip::CeilingUnnamed; }
    CheckNoCeilings "check: a band as a floor" { const CHECK: Slip = Slip::NoCeilings; }
    CheckProductsFirst "check: products before signs" { const CHECK: Slip = Slip::ProductsFirst; }
    CheckSidesFirst "check: sides before constraints" { const CHECK: Slip = Slip::SidesFirst; }
    CheckUpperFirst "check: upper before lower" { const CHECK: Slip = Slip::UpperFirst; }
    CheckGradientLast "check: the gradient added last" { const CHECK: Slip = Slip::GradientLast; }
    CheckUpperMultiplierFirst "check: upper multiplier before lower" { const CHECK: Slip = Slip::UpperMultiplierFirst; }
    CheckSidesExchanged "check: signs of the sides' multipliers exchanged" { const CHECK: Slip = Slip::SidesExchanged; }
    CheckBackwards "check: sums right to left" { const CHECK: Slip = Slip::Backwards; }
    CheckEqualityCounted "check: an equality counted among equalities" { const CHECK: Slip = Slip::EqualityCounted; }
    CheckTwiceTheTolerance "check: twice the tolerance" { const CHECK: Slip = Slip::TwiceTheTolerance; }
    CheckNanTolerance "check: a NaN tolerance taken" {
        fn passes(call: &Call, test: u32) -> bool { passes_tolerance(call, test, |t| !(t < 0.0)) }
    }
    CheckNegativeTolerance "check: a tolerance below zero taken" {
        fn passes(call: &Call, test: u32) -> bool { passes_tolerance(call, test, |t| !t.is_nan()) }
    }
    CheckMinusZero "check: a tolerance of -0 refused" {
        fn passes(call: &Call, test: u32) -> bool {
            passes_tolerance(call, test, |t| t >= 0.0 && t.is_sign_positive())
        }
    }
    CheckEndless "check: an infinite tolerance refused" {
        fn passes(call: &Call, test: u32) -> bool {
            passes_tolerance(call, test, |t| t >= 0.0 && t.is_finite())
        }
    }
    CheckToleranceFirst "check: 10 before 14" { const TESTS: [u32; 7] = [1, 2, 3, 4, 10, 14, 15]; }
    CheckToleranceBeforeKinds "check: 10 before 4" { const TESTS: [u32; 7] = [1, 2, 3, 10, 4, 14, 15]; }
    CheckAnyVerdict "check: a verdict of any length taken" {
        fn passes(call: &Call, test: u32) -> bool {
            let words = if call.op == Op::Check { VERDICT } else { call.words };
            passes(&Call { words, ..call.clone() }, test)
        }
    }
    CheckCleared "check: workspaces cleared after 10" {
        fn clears(number: u32) -> bool { number == 10 || Sound::clears(number) }
    }
    SuspectCancelled "suspect: the new spread by 1 - share" { const SUSPECT: suspect::Slip = suspect::Slip::Cancelled; }
    SuspectInSpreads "suspect: the correction in spreads for the test" { const SUSPECT: suspect::Slip = suspect::Slip::InSpreads; }
    SuspectDegree "suspect: the limit of one degree too many" { const SUSPECT: suspect::Slip = suspect::Slip::Degree; }
    SuspectKept "suspect: a meter that stands still kept" { const SUSPECT: suspect::Slip = suspect::Slip::Kept; }
    SuspectLastOfTies "suspect: the last of equal tests first" { const SUSPECT: suspect::Slip = suspect::Slip::LastOfTies; }
    SuspectNanAgrees "suspect: a NaN agrees" { const SUSPECT: suspect::Slip = suspect::Slip::NanAgrees; }
    SuspectGapAgrees "suspect: a gap that is not finite agrees" { const SUSPECT: suspect::Slip = suspect::Slip::GapAgrees; }
    SuspectNoRule "suspect: the share of a meter in no balance by its sum" { const SUSPECT: suspect::Slip = suspect::Slip::NoRule; }
    SuspectUnchecked "suspect: a test of an unchecked meter" { const SUSPECT: suspect::Slip = suspect::Slip::Unchecked; }
    SuspectNearest "suspect: the nearest meter of a group" { const SUSPECT: suspect::Slip = suspect::Slip::Nearest; }
    SuspectMarksAgreed "suspect: marks where the meters agree" { const SUSPECT: suspect::Slip = suspect::Slip::MarksAgreed; }
    SuspectNarrow "suspect: suspects within 5" { const SUSPECT: suspect::Slip = suspect::Slip::Narrow; }
    SuspectSign "suspect: gaps with their own sign" { const SUSPECT: suspect::Slip = suspect::Slip::Sign; }
    SuspectOrder "suspect: gaps not permuted" { const SUSPECT: suspect::Slip = suspect::Slip::Order; }
    SuspectStrict "suspect: a test of 3 disagrees" { const SUSPECT: suspect::Slip = suspect::Slip::Strict; }
    SuspectSpreadFirst "suspect: 13 before 12" { const SUSPECT: suspect::Slip = suspect::Slip::SpreadFirst; }
    SuspectCleared "suspect: workspaces cleared after 12" {
        fn clears(number: u32) -> bool { number == 12 || Sound::clears(number) }
    }
    SettleBoundDown "settle: a sum of the bound rounded down" { const SETTLE: settle::Slip = settle::Slip::Bound(certain::Slip::RoundedDown); }
    SettleGapLeftOut "settle: the gap of a limit left out of the bound" { const SETTLE: settle::Slip = settle::Slip::Bound(certain::Slip::GapLeftOut); }
    SettleNotSquared "settle: a spread not squared" { const SETTLE: settle::Slip = settle::Slip::Bound(certain::Slip::NotSquared); }
    SettleWitnessBelow "settle: a witness below zero taken by the bound" { const SETTLE: settle::Slip = settle::Slip::Bound(certain::Slip::BelowZero); }
    SettleNanCertain "settle: a NaN that is certain" { const SETTLE: settle::Slip = settle::Slip::Bound(certain::Slip::NanCertain); }
    SettleOneMoved "settle: a product by 1 moved" { const SETTLE: settle::Slip = settle::Slip::Bound(certain::Slip::OneMoved); }
    SettleNothingMoved "settle: a sum with nothing moved" { const SETTLE: settle::Slip = settle::Slip::Bound(certain::Slip::NothingMoved); }
    SettleSpreadFirst "settle: 13 before 12" { const SETTLE: settle::Slip = settle::Slip::SpreadFirst; }
    SettleLimitFirst "settle: 15 before 12" { const SETTLE: settle::Slip = settle::Slip::LimitFirst; }
    SettleNoneLetGo "settle: no limit let go" { const SETTLE: settle::Slip = settle::Slip::NoneLetGo; }
    SettleFirstLetGo "settle: the first limit let go" { const SETTLE: settle::Slip = settle::Slip::FirstLetGo; }
    SettleBalanceLetGo "settle: a limit let go for a dependent balance" { const SETTLE: settle::Slip = settle::Slip::BalanceLetGo; }
    SettleFloorNotTaken "settle: a held floor not taken" { const SETTLE: settle::Slip = settle::Slip::FloorNotTaken; }
    SettleBelowZeroTaken "settle: a multiplier below zero taken" { const SETTLE: settle::Slip = settle::Slip::BelowZeroTaken; }
    SettleBoundAlone "settle: a limit broken for a smaller bound" { const SETTLE: settle::Slip = settle::Slip::BoundAlone; }
    SettleLargerBound "settle: the worse of two answers" { const SETTLE: settle::Slip = settle::Slip::LargerBound; }
    SettleNeedNotBeKept "settle: a certain answer that is not kept" { const SETTLE: settle::Slip = settle::Slip::NeedNotBeKept; }
    SettleWorkedAgain "settle: a certain answer worked again" { const SETTLE: settle::Slip = settle::Slip::WorkedAgain; }
    SettleFirstBound "settle: the bound of the first answer" { const SETTLE: settle::Slip = settle::Slip::FirstBound; }
    SettleCleared "settle: workspaces cleared after 15" {
        fn clears(number: u32) -> bool { number == 15 || Sound::clears(number) }
    }
}

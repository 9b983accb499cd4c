//! Wrong readings of the rules, to try the comparison with.

/// Lists the slips, each with what it is.
macro_rules! slips {
    ($($name:ident $what:literal;)*) => {
        /// A wrong reading, or none.
        #[derive(Debug, Clone, Copy, PartialEq, Eq)]
        pub enum Slip {
            None,
            $($name,)*
        }

        /// Every slip, and what it is.
        pub const SLIPS: &[(Slip, &str)] = &[$((Slip::$name, $what)),*];
    };
}

slips! {
    MultipliersOfInfeasible "multipliers of the step that relaxes all";
    ResetClearsMultipliers "a reset clears the multipliers";
    CentralMove "the central move by the cube root";
    DistanceNotRounded "differences over the move itself";
    ConstraintsCost "moved constraints cost";
    StartClippedFirst "the start looked at after it is clipped";
    BudgetBeforeStart "the budget before the start";
    BudgetBeforeMove "the budget before a moved coordinate";
    MovedUnseen "moved coordinates not looked at";
    JacobianUnseen "a told Jacobian not looked at";
    SlopesOneByOne "differences looked at one by one";
    RowsOneByOne "differences looked at row by row";
    GradientWithAll "the gradient looked at with the Jacobian";
    FirstValuesLost "values of a first answer that is not finite lost";
    TrialReported "a trial that is not finite reported";
    StartUnreported "nothing reported before the start's values are told";
    SlopesUnreported "the start's values not reported before its slopes are known";
    NotEmptied "an ended machine not emptied";
    PenaltiesNotEmptied "an ended machine with its penalties";
    BeginKeeps "workspaces kept by a beginning";
    StartKeeps "workspaces kept by the values at the start";
    TrialKeeps "workspaces kept by a trial";
    SlopesKeep "workspaces kept by slopes";
    DifferenceKeeps "workspaces kept by a difference";
    NonfiniteKeeps "workspaces kept with 17";
    NonfiniteDone "0 for 17";
    BandTaken "kind 2 taken";
    BudgetPastMost "a budget of 10,001 taken";
    AnyScheme "any scheme taken";
    NanTolerance "a NaN tolerance taken";
    ZeroTolerance "a tolerance of zero refused";
    InfiniteTolerance "an infinite tolerance refused";
    EqualBoundsCrossed "equal bounds refused";
    LastVariable "the last variable with 15";
    LengthsBeforeSizes "2 before 1";
    RoomBeforeLengths "3 before 2";
    KindsBeforeRoom "4 before 3";
    ToleranceBeforeKinds "10 before 4";
    BoundsBeforeTolerance "15 before 10";
    OrderBeforeBounds "16 before 15";
    RoomBeforeAnswer "3 before an answer's length";
}

//! Likely mistakes, to be planted one at a time: the comparison has to find each of them.

macro_rules! mistakes {
    ($($name:ident: $words:literal,)*) => {
        /// `None` in every normal run. Each other case is asked for in one small `if`.
        #[derive(Clone, Copy, PartialEq, Eq, Debug)]
        pub enum Mistake {
            None,
            $($name,)*
        }

        /// Every mistake, and what it does in plain words.
        pub const MISTAKES: &[(Mistake, &str)] = &[$((Mistake::$name, $words),)*];
    };
}

mistakes! {
    // The logic.
    EndTakesUndefinedForFalse: "end: undefined taken for false",
    EndNotAtFirstStep: "end never occurs at the first step",
    StartNotAtFirstStep: "start never occurs at the first step",
    StartNeedsFalseBefore: "start only where the condition was false before",
    PairFalseBeforeFirstStep: "a pair counts as false before the first step",
    PairOpensWhereBothOccur: "a pair opens where both events occur",
    PairStaysOpenWhereBothOccur: "a pair stays open where both events occur",
    SumWraps: "a sum outside the range wraps round",
    SumOneTooWide: "a sum of 2^47 is let pass",
    DifferenceTurnedRound: "difference: second less first",
    UpdateToUndefinedIgnored: "an update to undefined is ignored",
    ReadSeesLaterUpdate: "a read sees a later update of the same step",
    ConditionsBeforeUpdates: "all conditions before all updates",
    FirstUpdateWins: "of two updates in a step the first counts",
    UndefinedStartIsZero: "a variable that starts undefined starts as 0",
    TimeLeavesOutThisStep: "time of E leaves out this step",
    ValueRemembered: "a value is remembered from an earlier step",
    ValueWithoutSign: "a value below 0 loses its sign",
    NoValueIsZero: "an event without a value has the value 0",
    LessTakesUndefinedAsFalse: "less and equal with undefined are false",
    LessLetsEqualPass: "less lets equal numbers pass",
    EqualOfUndefinedIsTrue: "undefined equals undefined",
    ImpliesTakesUndefinedForFalse: "implies: undefined taken for false",
    UndefinedWinsInAnd: "undefined and false is undefined",
    DefinedOfUndefinedUndefined: "defined of undefined is undefined",
    WhenTakesUndefined: "when lets an undefined condition pass",
    ConditionForgottenAfterItsStep: "a condition is undefined where it is not reported",
    // Refused steps.
    RefusedStepLeavesReports: "a refused step changes the last reported value",
    RefusedStepForgetsReports: "a refused step forgets the reports",
    RefusedStepLeavesTime: "a refused step's time counts as the last",
    EqualTimePasses: "a time equal to the last one passes",
    TimeJudgedAfterCount: "22 is judged when the report count is there",
    ImportOrderNotJudged: "import order is not judged",
    StepPaddingNotJudged: "step padding is not judged",
    StepPaddingJudgedLast: "27 before 26",
    // Refused scripts.
    HeaderJudgedWhole: "3 and 4 are judged when the whole header is there",
    UndefinedStartNotJudged: "5 is not judged",
    OperandsJudgedTogether: "operands are judged when all of them are there",
    EightBeforeSeven: "8 before 7",
    ScriptPaddingNotJudged: "script padding is not judged",
    LongLabelThatIsCut: "a label over 32 that is cut off is 2",
    BadByteBeforeCutText: "a bad byte in a text that is cut off is 10",
    // The stream and its lines.
    LongScriptBeforeCut: "a length over 4,096 is refused though the script is cut",
    CutRecordCounted: "a record that is cut counts as refused",
    EmptyRecordEndsStream: "a record of no bytes ends the stream",
    LabelOfWrongEntry: "the label of another entry",
    EmptyLabelLosesSpace: "an empty label loses the space before it",
    ViolatedForUndefined: "violated for undefined too",
    // The reach.
    ReachOfEarlierUpdatesOnly: "reach follows only earlier updates",
    ReachWithoutClockOfTime: "reach without the clock of kind 21",
    ReachLeavesOutValueImport: "reach without the import of kind 20",
    ReachOfEverything: "reach marks every earlier entry",
}

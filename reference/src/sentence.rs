//! An answer in one short plain sentence.

use crate::verdict::*;

/// The word for each verdict, by its number.
const WORDS: [&str; 29] = [
    "accepted",
    "short table",
    "overlong",
    "overlong",
    "instance form",
    "instance range",
    "code clash",
    "plan form",
    "plan range",
    "not once",
    "plant",
    "product",
    "supplier",
    "day",
    "dock",
    "mixed",
    "docks",
    "second pair",
    "turned",
    "top heavy",
    "too many",
    "dense",
    "outside",
    "overlap",
    "unbraced",
    "order",
    "overload",
    "middle axle",
    "rear axle",
];

/// What a stack that is outside exceeds its truck by, for the second places 1 to 3.
const SIDES: [&str; 3] = ["length", "width", "height"];

/// Number and word of the verdict, then its places or the cost; without a line end.
pub fn sentence(answer: &Answer) -> String {
    let number = answer.number;
    format!("{number} {}: {}", WORDS[number as usize], told(answer))
}

fn told(answer: &Answer) -> String {
    let (first, second, third) = (answer.first, answer.second, answer.third);
    match answer.number {
        ACCEPTED => format!("cost {} thousandths, used trucks {}", answer.cost, answer.trucks),
        SHORT_TABLE => "under 8,976 words".to_string(),
        OVERLONG_INSTANCE => "instance above 65,535 bytes".to_string(),
        OVERLONG_PLAN => "plan above 65,535 bytes".to_string(),
        INSTANCE_FORM | INSTANCE_RANGE | PLAN_FORM | PLAN_RANGE => format!("line {first}"),
        CODE_CLASH => format!("item {first} differs in length or width from item {second} of its code"),
        NOT_ONCE => format!("item {first} is loaded {second} times"),
        PLANT | PRODUCT | SUPPLIER | DAY => format!("stack {first}, item {second} is unfit for the truck"),
        DOCK => format!("stack {first}, item {second} has a supplier dock or plant dock that is not listed"),
        MIXED => format!("stack {first}, item {second} does not match the bottom item"),
        DOCKS => format!("stack {first} has {second} plant docks"),
        SECOND_PAIR => format!("stacks {first} and {second} have two docks each, one code, one used truck"),
        TURNED => format!("stack {first}, item {second} is against its forced orientation"),
        TOP_HEAVY => format!("stack {first} has weight {second} above its bottom item"),
        TOO_MANY => format!("stack {first} has {second} items"),
        DENSE => format!("stack {first} has weight {second}, too much for its footprint"),
        OUTSIDE => format!("stack {first}, by its {}", SIDES[second as usize - 1]),
        OVERLAP => format!("stacks {first} and {second}"),
        UNBRACED => format!(
            "stack {first}, held by no edge of 100 mm, or of its whole width, or of the whole width of a stack in front of it"
        ),
        ORDER => format!("stack {first} must not stand behind stack {second}"),
        OVERLOAD => format!("truck {first}, copy {second}"),
        MIDDLE | REAR => format!("truck {first}, copy {second}, at departure {third}"),
        _ => unreachable!("the verdicts end with {REAR}"),
    }
}

//! The three values of a condition: table 4.2 of source document 000.

use crate::mistake::Mistake;

#[derive(Clone, Copy, PartialEq, Eq, Debug)]
pub enum Truth {
    False,
    True,
    Undefined,
}

use Truth::*;

pub fn known(is_true: bool) -> Truth {
    if is_true {
        True
    } else {
        False
    }
}

/// [negation]: true if false, undefined if undefined, false if true.
pub fn not(a: Truth) -> Truth {
    match a {
        False => True,
        Undefined => Undefined,
        True => False,
    }
}

/// [disjunction]: true if one of them is; false if both are; undefined otherwise.
pub fn or(a: Truth, b: Truth) -> Truth {
    if a == True || b == True {
        True
    } else if a == False && b == False {
        False
    } else {
        Undefined
    }
}

/// `"a and b" is not (not a or not b)`
pub fn and(a: Truth, b: Truth, mistake: Mistake) -> Truth {
    if mistake == Mistake::UndefinedWinsInAnd && (a == Undefined || b == Undefined) {
        return Undefined;
    }
    not(or(not(a), not(b)))
}

/// `"a implies b" is (not a) or b`
pub fn implies(a: Truth, b: Truth, mistake: Mistake) -> Truth {
    if mistake == Mistake::ImpliesTakesUndefinedForFalse {
        return known(a != True || b == True);
    }
    or(not(a), b)
}

/// [defined]: true if not undefined, false otherwise.
pub fn defined(a: Truth, mistake: Mistake) -> Truth {
    if mistake == Mistake::DefinedOfUndefinedUndefined && a == Undefined {
        return Undefined;
    }
    known(a != Undefined)
}

//! Single-change mutants of the rules. `rule!(right; Name => wrong)` stands where a rule could be got wrong. It is
//! `right` in every build but the library's own tests, where switching the mutant on makes it `wrong`; elsewhere `wrong`
//! is not even compiled, so the switch costs nothing.

#[cfg(not(test))]
macro_rules! rule {
    ($right:expr; $($mutant:ident => $wrong:expr),+) => {
        $right
    };
}

#[cfg(test)]
macro_rules! rule {
    ($right:expr; $($mutant:ident => $wrong:expr),+) => {
        match crate::mutant::switched_on() {
            $(Some(crate::mutant::Mutant::$mutant) => $wrong,)+
            _ => $right,
        }
    };
}

#[cfg(test)]
pub use {names::Mutant, switch::switched_on};

#[cfg(test)]
#[path = "mutant_names.rs"]
mod names;
#[cfg(test)]
#[path = "mutant_switch.rs"]
mod switch;

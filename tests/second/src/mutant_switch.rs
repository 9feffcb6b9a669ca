//! The switch of the mutants, and the tests that generated sessions and call scripts catch each of them.

use std::cell::Cell;
use std::panic;
use std::sync::Once;

use super::names::{Mutant, SEEN_BY_SCRIPTS_ALONE, SEEN_BY_SESSIONS};
use crate::{generate, script, scripts, session};

thread_local! {
    static SWITCHED_ON: Cell<Option<Mutant>> = const { Cell::new(None) };
}

pub fn switched_on() -> Option<Mutant> {
    SWITCHED_ON.get()
}

/// Inputs with their right answers, and what answers them.
struct Inputs {
    answers: fn(&[u8]) -> Vec<u8>,
    answered: Vec<(Vec<u8>, Vec<u8>)>,
}

impl Inputs {
    fn new(answers: fn(&[u8]) -> Vec<u8>, inputs: impl Iterator<Item = Vec<u8>>) -> Inputs {
        stop_quietly();
        let answered = inputs.map(|input| {
            let right = answers(&input);
            (input, right)
        });
        Inputs { answers, answered: answered.collect() }
    }

    fn sessions(seeds: u64) -> Inputs {
        const LINES: usize = 600;
        Inputs::new(session::answers, (1..=seeds).map(|seed| generate::session(seed, LINES)))
    }

    fn scripts() -> Inputs {
        Inputs::new(script::answers, (1..=scripts::SHARES).map(|seed| scripts::script(seed).text))
    }

    /// Which of the inputs the mutant answers otherwise. One that stops over a sum that would wrap is caught too.
    fn caught(&self, mutant: Mutant) -> impl Iterator<Item = &Vec<u8>> {
        let differs = move |(input, right): &&(Vec<u8>, Vec<u8>)| {
            SWITCHED_ON.set(Some(mutant));
            let answers = panic::catch_unwind(|| (self.answers)(input));
            SWITCHED_ON.set(None);
            answers.ok().as_ref() != Some(right)
        };
        self.answered.iter().filter(differs).map(|(input, _)| input)
    }

    /// Each mutant is caught, or this fails.
    fn catch(&self, name: &str, mutants: &[Mutant]) {
        let counts: Vec<_> = mutants.iter().map(|&mutant| (mutant, self.caught(mutant).count())).collect();
        for (mutant, count) in &counts {
            println!("{mutant:?}: caught by {count} of {} {name}", self.answered.len());
        }
        let missed: Vec<_> = counts.iter().filter(|(_, count)| *count == 0).map(|(mutant, _)| *mutant).collect();
        let least = counts.iter().map(|(_, count)| *count).min().unwrap_or_default();
        let (found, all, inputs) = (mutants.len() - missed.len(), mutants.len(), self.answered.len());
        println!("{found} of {all} mutants caught, each by at least {least} of {inputs} {name}");
        assert_eq!(missed, []);
    }
}

/// A mutant that stops says nothing; every other panic is told as usual.
fn stop_quietly() {
    static ONCE: Once = Once::new();
    ONCE.call_once(|| {
        let usual = panic::take_hook();
        panic::set_hook(Box::new(move |panic| {
            if switched_on().is_none() {
                usual(panic);
            }
        }));
    });
}

#[test]
fn sessions_catch_every_mutant() {
    const SEEDS: u64 = 100;
    Inputs::sessions(SEEDS).catch("sessions", SEEN_BY_SESSIONS);
}

#[test]
fn scripts_catch_what_sessions_do_not_see() {
    const SEEDS: u64 = 30;
    Inputs::scripts().catch("scripts", SEEN_BY_SCRIPTS_ALONE);
    let sessions = Inputs::sessions(SEEDS);
    for &mutant in SEEN_BY_SCRIPTS_ALONE {
        assert_eq!(sessions.caught(mutant).next(), None, "{mutant:?} is no mutant of scripts alone");
    }
}

#[test]
fn scripts_catch_the_mutants_of_the_calls_too() {
    let scripts = Inputs::scripts();
    let missed: Vec<_> = SEEN_BY_SESSIONS.iter().filter(|&&mutant| scripts.caught(mutant).next().is_none()).collect();
    // Scripts have no digits and no bytes.
    assert_eq!(missed, [&Mutant::OpenWithoutCodeRead, &Mutant::UpperCaseRead]);
}

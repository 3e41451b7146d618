//! Shows that the comparison can fail: each fault put into the library must be found, and the case
//! that shows it must be small.

use crate::evaluator::Evaluator;
use crate::faults::{Fault, Faulty};
use crate::random::{compare, Amounts, Found};
use crate::shrink::shrunk;
use crate::uses;

const SEED: u64 = 1;

const AMOUNTS: Amounts = Amounts {
    frames: 3000,
    plans: 3000,
    texts: 200,
};

/// A list that shows a fault is cut down to this many calls.
const FEW_STEPS: usize = 4;

/// A plan whose uses show a fault is cut down to this many words: two states, one of which goes to the
/// other, have 23.
const FEW_WORDS: usize = 40;

/// Found as it should be, or why not.
fn judged(library: &dyn Evaluator, fault: Fault) -> Result<String, String> {
    let faulty = Faulty { library, fault };
    match (compare(&faulty, AMOUNTS, SEED).0, fault) {
        (Found::Nothing, Fault::None) => Ok("nothing found".to_string()),
        (_, Fault::None) => Err("found without a fault".to_string()),
        (Found::Nothing, _) => Err("not found".to_string()),
        (Found::List(case), _) => {
            let (least, mismatch) = shrunk(&case, &faulty);
            let (steps, joints) = (least.steps.len(), least.draft.parents.len());
            let what = mismatch.what.lines().next().unwrap_or_default();
            let sentence = format!("{what}, {steps} calls, {joints} joints");
            if steps <= FEW_STEPS {
                Ok(sentence)
            } else {
                Err(sentence)
            }
        }
        (Found::Plan(_), _) => Ok("a start".to_string()),
        (Found::Uses(figure), _) => {
            let words = uses::smallest(&figure, &faulty).0.plan.len();
            let sentence = format!("what is used, {words} words");
            if words <= FEW_WORDS {
                Ok(sentence)
            } else {
                Err(sentence)
            }
        }
        (Found::Alike(kind), _) => Err(format!("marks of {kind} all alike")),
        (Found::Missing(kind), _) => Err(format!("no question for loops {kind}")),
        (Found::Text(_), _) => Ok("a text".to_string()),
        (Found::Recorded(name, _), _) => Ok(format!("recorded list {name}")),
        (Found::Size(_), _) => Err("a player's size".to_string()),
    }
}

pub fn self_test(library: &dyn Evaluator) -> bool {
    let mut passed = true;
    for fault in [Fault::None].into_iter().chain(Fault::all()) {
        match judged(library, fault) {
            Ok(how) => println!("self-test: {fault:?}: ok ({how})"),
            Err(why) => {
                passed = false;
                println!("self-test: {fault:?}: FAILED ({why})");
            }
        }
    }
    passed
}

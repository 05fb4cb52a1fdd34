//! Number 17, of C-18: "A procedure, other than the entry, that no chain of calls from the entry reaches".

use crate::file::{Goal, Program};

/// Adds the procedures that the goals call, in arms and parts too, whether or not a run takes them.
fn add_called(goals: &[Goal], called: &mut Vec<usize>) {
    for goal in goals {
        match goal {
            Goal::Call(q, _) => called.push(*q),
            Goal::Switch(_, arms) => arms.iter().for_each(|a| add_called(&a.goals, called)),
            Goal::If(_, _, a, b) => {
                add_called(a, called);
                add_called(b, called);
            }
            // number 2 has passed: a condition holds no call
            Goal::Try(_, a, b) => {
                add_called(a, called);
                add_called(b, called);
            }
            _ => {}
        }
    }
}

pub fn all_reached(program: &Program) -> bool {
    let mut reached = vec![false; program.procedures.len()];
    let mut waiting = vec![0];
    while let Some(q) = waiting.pop() {
        if !reached[q] {
            reached[q] = true;
            add_called(&program.procedures[q].goals, &mut waiting);
        }
    }
    !reached.contains(&false)
}

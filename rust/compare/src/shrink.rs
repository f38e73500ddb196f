//! The smallest script that shows what a script shows.

use crate::endless::{exponent, height_after};
use crate::script::{Damage, Hashing, RowForm, Script, Step};
use p3_matrix::Dimensions;

/// Makes a script smaller as long as it still shows something.
pub fn smallest(mut script: Script, shows: impl Fn(&Script) -> bool) -> Script {
    while let Some(smaller) = smaller_scripts(&script).into_iter().find(|smaller| shows(smaller)) {
        script = smaller;
    }
    script
}

/// Scripts that are smaller by one change, first those that leave away the most.
fn smaller_scripts(script: &Script) -> Vec<Script> {
    let mut found: Vec<Script> = Vec::new();
    found.extend(script.steps.iter().map(|step| Script { steps: vec![step.clone()], ..script.clone() }));
    found.extend(shorter(&script.steps).map(|steps| Script { steps, ..script.clone() }));
    found.extend(fewer_matrices(script));
    found.extend(lower_trees(script));
    found.extend(simpler_schemes(script));
    found.extend(smaller_sizes(script));
    for (place, step) in script.steps.iter().enumerate() {
        found.extend(smaller_steps(step).into_iter().map(|step| {
            let mut smaller = script.clone();
            smaller.steps[place] = step;
            smaller
        }));
    }
    found.retain(|smaller| smaller != script);
    found
}

/// The lists that have one item less.
fn shorter<T: Clone>(items: &[T]) -> impl Iterator<Item = Vec<T>> {
    (0..items.len()).map(|left_out| {
        let mut items = items.to_vec();
        items.remove(left_out);
        items
    })
}

/// The script without one of its matrices. What a damage changes may then be one place ahead.
fn fewer_matrices(script: &Script) -> Vec<Script> {
    let fewer: Vec<Script> = shorter(&script.sizes).map(|sizes| Script { sizes, ..script.clone() }).collect();
    let one_place_ahead = fewer.iter().cloned().map(|mut script| {
        let damages = script.steps.iter_mut().flat_map(|step| &mut step.damages);
        damages.for_each(|damage| damage.at = damage.at.saturating_sub(1));
        script
    });
    [fewer.clone(), one_place_ahead.collect()].concat()
}

/// Smaller numbers, first the smallest.
fn smaller_numbers(number: usize) -> impl Iterator<Item = usize> {
    (0..8).chain([number / 2, number.saturating_sub(1)]).filter(move |&smaller| smaller < number)
}

/// The script over lower trees: all heights halved, or the tallest one less by one, and the others as it asks.
fn lower_trees(script: &Script) -> Vec<Script> {
    let tallest = script.tallest();
    let over = |new_tallest: usize, levels: usize| {
        let height = |old: usize| height_after(new_tallest, exponent(tallest).saturating_sub(exponent(old) + levels));
        let lowered = |size: &Dimensions| Dimensions { height: height(size.height), ..*size };
        let mut lower = script.clone();
        lower.sizes = script.sizes.iter().map(lowered).collect();
        for index in lower.steps.iter_mut().flat_map(|step| &mut step.indices) {
            *index = (*index).min(new_tallest.saturating_sub(1) + usize::from(*index >= tallest));
        }
        lower
    };
    smaller_numbers(tallest).map(|new_tallest| over(new_tallest, exponent(tallest) - exponent(new_tallest))).collect()
}

/// The script by simpler schemes.
fn simpler_schemes(script: &Script) -> Vec<Script> {
    let mut found = vec![
        Script { hashing: Hashing::Fold, ..script.clone() },
        Script { salts: None, ..script.clone() },
        Script { salts: script.salts.map(|_| 0), ..script.clone() },
        Script { has_clone: false, ..script.clone() },
        Script { words: 0, ..script.clone() },
    ];
    if script.arity > 2 {
        found.push(Script { arity: script.arity / 2, ..script.clone() });
    }
    found.extend(smaller_numbers(script.cap_height).map(|cap_height| Script { cap_height, ..script.clone() }));
    found
}

/// The script over one matrix that is lower or narrower.
fn smaller_sizes(script: &Script) -> Vec<Script> {
    let mut found = Vec::new();
    for (place, &size) in script.sizes.iter().enumerate() {
        let widths = smaller_numbers(size.width).map(|width| Dimensions { width, ..size });
        let heights = smaller_numbers(size.height).map(|height| Dimensions { height, ..size });
        found.extend(widths.chain(heights).map(|size| {
            let mut smaller = script.clone();
            smaller.sizes[place] = size;
            smaller
        }));
    }
    found
}

/// Steps that are smaller by one change.
fn smaller_steps(step: &Step) -> Vec<Step> {
    let mut found: Vec<Step> = shorter(&step.damages).map(|damages| Step { damages, ..step.clone() }).collect();
    if step.is_pruned {
        found.extend(shorter(&step.indices).map(|indices| Step { indices, ..step.clone() }));
    }
    found.push(Step { rows: RowForm::Vectors, ..step.clone() });
    for (place, &index) in step.indices.iter().enumerate() {
        found.extend(smaller_numbers(index).map(|index| {
            let mut smaller = step.clone();
            smaller.indices[place] = index;
            smaller
        }));
    }
    for (place, damage) in step.damages.iter().enumerate() {
        let at = smaller_numbers(damage.at).map(|at| Damage { at, ..*damage });
        let value = smaller_numbers(damage.value).map(|value| Damage { value, ..*damage });
        found.extend(at.chain(value).map(|damage| {
            let mut smaller = step.clone();
            smaller.damages[place] = damage;
            smaller
        }));
    }
    found
}

#[cfg(test)]
mod tests {
    use super::*;
    use crate::answers::{Answer, Call, Outcome};
    use crate::both::Answers;
    use crate::random::Random;

    /// A change of what fohlazu-p3 answers, which is planted to be found.
    type Plant = fn(&Script, &mut [Answer]);

    /// At arity 4 and above, an index of at least 3 that is opened alone gives another text.
    fn wrong_opening(script: &Script, answers: &mut [Answer]) {
        let indices = script.steps.iter().filter(|step| !step.is_pruned).map(|step| step.indices[0]);
        let openings = answers.iter_mut().filter(|answer| answer.call == Call::Open);
        for (index, answer) in indices.zip(openings) {
            if let (true, Outcome::Returned(text)) = (index >= 3 && script.arity >= 4, &mut answer.outcome) {
                text.push_str(" planted");
            }
        }
    }

    /// A row of five words that are refused for their number is refused for another one.
    fn wrong_refusal(_: &Script, answers: &mut [Answer]) {
        for answer in answers.iter_mut().filter(|answer| answer.call == Call::Verify) {
            if let Outcome::Returned(text) = &mut answer.outcome
                && text.starts_with("WrongWidth")
            {
                *text = text.replace("got: 5 }", "got: 6 }");
            }
        }
    }

    /// Whether the planted answer is seen.
    fn is_seen(script: &Script, plant: Plant) -> bool {
        let mut answers = Answers::of(script);
        plant(script, &mut answers.here);
        answers.difference().is_some()
    }

    /// The smallest cases of random scripts that show a planted answer.
    fn smallest_cases(seed: u64, plant: Plant) -> impl Iterator<Item = Script> {
        let mut random = Random::new(seed);
        let scripts = (0..).map(move |_| Script::random(&mut random));
        let shows = move |script: &Script| is_seen(script, plant);
        scripts.filter(shows).take(20).map(move |script| smallest(script, shows))
    }

    #[test]
    fn a_planted_opening_is_shown_by_the_smallest_script() {
        let step = Step { is_pruned: false, indices: vec![3], rows: RowForm::Vectors, damages: Vec::new() };
        let expected = Script {
            hashing: Hashing::Fold,
            arity: 4,
            cap_height: 0,
            salts: None,
            sizes: vec![Dimensions { width: 0, height: 4 }],
            words: 0,
            has_clone: false,
            steps: vec![step],
        };
        for small in smallest_cases(20_261_201, wrong_opening) {
            assert_eq!(small, expected, "{small}");
        }
    }

    #[test]
    fn a_planted_refusal_is_shown_by_a_small_script() {
        for small in smallest_cases(5, wrong_refusal) {
            let Script { hashing, arity, cap_height, words, has_clone, .. } = small;
            assert_eq!((hashing, arity, cap_height), (Hashing::Fold, 2, 0), "{small}");
            assert_eq!((words, has_clone, small.steps.len()), (0, false, 1), "{small}");
            assert!(small.tallest() <= 1 && small.sizes.len() <= 2, "{small}");
            assert!(matches!(small.steps[0].damages.len(), 1 | 2), "{small}");
        }
    }

    #[test]
    fn no_smaller_script_shows_it() {
        let mut random = Random::new(7);
        let shows = |script: &Script| script.sizes.len() > 1 && script.tallest() > 4 && script.arity == 8;
        for _ in 0..100 {
            let large = Script::random(&mut random);
            if shows(&large) {
                let small = smallest(large, shows);
                assert_eq!((small.sizes.len(), small.tallest(), small.steps.len()), (2, 5, 0));
                assert!(small.sizes.iter().all(|size| size.width == 0));
            }
        }
    }
}

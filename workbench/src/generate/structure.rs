//! Faults of structure: pointers, binders, uses and what sets and lines name.

use super::tables::bound_names;
use super::{accepted_document, loadable_document, Random, Size};
use crate::reference::document::{Claim, Comm, Document, Flow, Part, Set, Word, LAST_NUMBER};
use crate::reference::print::print;

/// Puts one fault of refusals 6 to 9 into a document, or nearly one.
pub fn break_structure(random: &mut Random, document: &mut Document) {
    let count = document.rows.len();
    let row = random.below(count);
    match random.below(9) {
        0 | 1 => {
            let target = match random.below(6) {
                0 => row,
                1 => count,
                2 => [0, LAST_NUMBER, count + 1][random.below(3)],
                _ => random.below(count),
            };
            replace_one(
                random,
                document.rows[row].of_kind_mut(Part::Pointer),
                target,
            );
        }
        2 => {
            // Two pointers exchanged: everything is still pointed at once.
            let other = random.below(count);
            let pointers = |row: usize| document.rows[row].pointers();
            let (one, two) = (pointers(row), pointers(other));
            if let (Some(&one), Some(&two)) = (random.pick(&one), random.pick(&two)) {
                for pointer in document.rows[row].of_kind_mut(Part::Pointer) {
                    if *pointer == one {
                        *pointer = two;
                    }
                }
                if row != other {
                    for pointer in document.rows[other].of_kind_mut(Part::Pointer) {
                        if *pointer == two {
                            *pointer = one;
                        }
                    }
                }
            }
        }
        3 | 4 => {
            let names = bound_names(&document.rows);
            let name = random.pick(&names).copied().unwrap_or(0);
            replace_one(random, document.rows[row].of_kind_mut(Part::Binder), name);
        }
        5 | 6 => {
            let names = bound_names(&document.rows);
            let name = match random.pick(&names) {
                Some(&name) if random.chance(5, 6) => name,
                _ => random.below(20),
            };
            replace_one(random, document.rows[row].of_kind_mut(Part::Use), name);
        }
        7 => {
            let any = any_row(random, count);
            let mut sets: Vec<&mut Set> = vec![];
            sets.extend(document.flows.iter_mut().map(|flow| &mut flow.set));
            sets.extend(document.comms.iter_mut().map(|comm| &mut comm.set));
            let index = random.below(sets.len());
            if let Some(set) = sets.into_iter().nth(index) {
                set.rows.insert(any);
            }
        }
        _ => {
            let any = any_row(random, count);
            let set = Set {
                unit: true,
                ..Set::default()
            };
            match random.below(3) {
                0 => {
                    document.flows.retain(|flow| flow.name != any);
                    document.flows.push(Flow { name: any, set });
                    document.flows.sort_by_key(|flow| flow.name);
                }
                1 => {
                    document.comms.retain(|comm| comm.channel != any);
                    document.comms.push(Comm { channel: any, set });
                    document.comms.sort_by_key(|comm| comm.channel);
                }
                _ => {
                    let word = Word::ALL[random.below(Word::ALL.len())];
                    document.claims.retain(|claim| claim.channel != any);
                    document.claims.push(Claim { channel: any, word });
                    document.claims.sort_by_key(|claim| claim.channel);
                }
            }
        }
    }
}

fn any_row(random: &mut Random, count: usize) -> usize {
    match random.below(6) {
        0 => count,
        1 => LAST_NUMBER,
        _ => random.below(count),
    }
}

fn replace_one(random: &mut Random, places: Vec<&mut usize>, number: usize) {
    let index = random.below(places.len());
    if let Some(place) = places.into_iter().nth(index) {
        *place = number;
    }
}

/// The text of a document with one to three faults of structure.
pub fn structural_file(random: &mut Random, size: Size) -> Vec<u8> {
    let mut document = if random.chance(1, 3) {
        accepted_document(random, size)
    } else {
        loadable_document(random, size)
    };
    let faults = [1, 1, 1, 2, 2, 3][random.below(6)];
    for _ in 0..faults {
        break_structure(random, &mut document);
    }
    print(&document)
}

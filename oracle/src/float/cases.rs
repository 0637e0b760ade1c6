//! Lists of cases: the one that is stored, and new ones.
use super::{Case, Operation, edge_list, edges, published, roots, singles, triples, wholes};
use crate::{exact::BINARY32, random::Random, shapes::specials};

/// A case for a new list: half of the fused multiply-adds are at an edge of rounding, and truncations are of the numbers
/// that their words are of.
pub fn new(operation: Operation, random: &mut Random) -> Case {
    match operation {
        Operation::Fma32 | Operation::Fma64 if random.coin() => Case {
            operation,
            operands: random.pick(&edges::FAMILIES)(operation.format(), random),
        },
        Operation::Truncated => Case {
            operation,
            ..drawn(Operation::Exactness, random)
        },
        _ => drawn(operation, random),
    }
}

/// A case of an operation, of any of the families that the stored list draws from.
fn drawn(operation: Operation, random: &mut Random) -> Case {
    let format = operation.format();
    let operands = match operation {
        Operation::Fma32 | Operation::Fma64 => random.pick(&triples::FAMILIES)(format, random),
        _ => [
            random.pick(singles::families(operation))(format, random),
            0,
            0,
        ],
    };
    Case {
        operation,
        operands,
    }
}

/// How many cases of an operation the stored list has, at least.
const fn stored_count(operation: Operation) -> usize {
    match operation {
        Operation::Fma32 | Operation::Fma64 => 20_500,
        Operation::Narrowed => 20_000,
        Operation::Truncated => 10_000,
        Operation::Root32 | Operation::Exactness => 4_000,
        _ => 2_000,
    }
}

/// The stored list: the published vectors, what can be listed whole, cases of the families up to the
/// count, fused multiply-adds at edges of rounding, a record of each number that no operation has, truncations with
/// their words, and a record that ends too soon.
pub fn stored() -> Vec<u8> {
    let mut random = Random::new(2);
    let mut list: Vec<u8> = published::vectors()
        .flat_map(|(case, _)| case.bytes())
        .collect();
    let all = Operation::ALL.into_iter();
    for operation in all.filter(|&one| one != Operation::Exactness) {
        let mut cases = listed(operation, &mut random);
        while cases.len() < stored_count(operation) {
            cases.push(drawn(operation, &mut random));
        }
        list.extend(cases.into_iter().flat_map(Case::bytes));
    }
    list.extend(edge_list::cases().into_iter().flat_map(Case::bytes));
    for number in [0, Operation::ALL.len() as u8 + 1, 128, u8::MAX] {
        list.push(number);
        list.extend([0x55; 24]);
    }
    list.extend(truncations().into_iter().flat_map(Case::bytes));
    list.extend(&[Operation::Fma32.number(); 24]);
    list
}

/// Both the whole number and its word of what can be listed whole, then words of the families up to the count; from a
/// seed of their own, and behind all else, so that the rest of the list stays what it was.
fn truncations() -> Vec<Case> {
    let mut random = Random::new(5);
    let listed = wholes::listed(BINARY32, &mut random);
    let case = |operation| {
        move |&a: &u64| Case {
            operation,
            operands: [a, 0, 0],
        }
    };
    let mut words: Vec<Case> = listed.iter().map(case(Operation::Exactness)).collect();
    while words.len() < stored_count(Operation::Exactness) {
        words.push(drawn(Operation::Exactness, &mut random));
    }
    let truncated = listed.iter().map(case(Operation::Truncated));
    truncated.chain(words).collect()
}

/// The cases of an operation that can be listed whole: its special values, and for a fused
/// multiply-add each three of them and each gap between the exponents of product and third, for a root each
/// exponent.
fn listed(operation: Operation, random: &mut Random) -> Vec<Case> {
    let format = operation.format();
    let values = specials(format);
    let operands: Vec<[u64; 3]> = match operation {
        Operation::Fma32 | Operation::Fma64 => {
            let pairs = |a| values.iter().map(move |&b| (a, b));
            let threes = |(a, b)| values.iter().map(move |&c| [a, b, c]);
            let specials = values.iter().flat_map(|&a| pairs(a)).flat_map(threes);
            let gaps = triples::gaps(format).map(|gap| triples::apart(format, gap, random));
            specials.chain(gaps).collect()
        }
        Operation::Root32 => alone(roots::listed(format, random)),
        _ => alone(values),
    };
    let case = |operands| Case {
        operation,
        operands,
    };
    operands.into_iter().map(case).collect()
}

fn alone(operands: Vec<u64>) -> Vec<[u64; 3]> {
    operands.into_iter().map(|a| [a, 0, 0]).collect()
}

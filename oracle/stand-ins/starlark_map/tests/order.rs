//! The map against a plain list of pairs: the same answers and the same order, with and
//! without its table of positions.

use starlark_map::Hashed;
use starlark_map::small_map::Entry;
use starlark_map::small_map::SmallMap;

/// A fixed sequence of numbers that look random.
fn numbers() -> impl Iterator<Item = u64> {
    let next = |x: &u64| {
        Some(
            x.wrapping_mul(6364136223846793005)
                .wrapping_add(1442695040888963407),
        )
    };
    std::iter::successors(Some(1), next).map(|x| x >> 33)
}

#[test]
fn like_a_list_of_pairs() {
    // A few keys need no table, many do; those between go to and fro.
    for keys in [8, 24, 80] {
        let mut map = SmallMap::new();
        let mut list: Vec<(u64, u64)> = Vec::new();
        let mut numbers = numbers();
        for value in 0..5000 {
            let random = numbers.next().unwrap();
            let key = match list.last() {
                Some(&(last, _)) if random.is_multiple_of(3) => last, // taken out in its own way
                _ => random / 3 % keys,
            };
            let at = list.iter().position(|pair| pair.0 == key);
            assert_eq!(map.get(&key), at.map(|at| &list[at].1));
            match numbers.next().unwrap() % 3 {
                0 => {
                    let old = at.map(|at| list.remove(at).1);
                    assert_eq!(map.shift_remove(&key), old);
                }
                1 => {
                    let old = map.insert_hashed(Hashed::new(key), value);
                    assert_eq!(old, at.map(|at| std::mem::replace(&mut list[at].1, value)));
                    if at.is_none() {
                        list.push((key, value));
                    }
                }
                _ => match map.entry_hashed(Hashed::new(key)) {
                    Entry::Occupied(entry) => assert_eq!(*entry.get(), list[at.unwrap()].1),
                    Entry::Vacant(entry) => {
                        assert!(at.is_none());
                        entry.insert(value);
                        list.push((key, value));
                    }
                },
            }
            assert_eq!(map.len(), list.len());
            assert!(
                map.iter()
                    .map(|(&key, &value)| (key, value))
                    .eq(list.iter().copied())
            );
        }
    }
}

//! The host's three functions against the second implementation.

use compare::bundles::{damage, random_bytes, random_lists, seen_again, small_bundles, written};
use compare::grids::random_grid;
use compare::{calls, expected, seed, setting};
use reference::gen::{Rng, Sample};

/// Compares the three numbers; tells whether the bundle was whole.
fn compare(bytes: &[u8]) -> bool {
    let numbers = expected::host(bytes);
    assert_eq!(calls::host(bytes), numbers, "{bytes:?}");
    assert!(numbers[0] == 0 || numbers == [13, 0, 0] || numbers == [22, 0, 0]);
    numbers[0] == 0
}

/// The bundle of lists that are formed.
fn bundle_of(lists: &Sample) -> Vec<u8> {
    written(lists).expect("formed lists")
}

#[test]
fn every_truncation_and_changed_byte() {
    for bundle in small_bundles() {
        assert!(compare(&bundle));
        for at in 0..bundle.len() {
            assert!(!compare(&bundle[..at]));
            for value in 0..=255 {
                let mut bytes = bundle.clone();
                bytes[at] = value;
                compare(&bytes);
            }
        }
    }
}

#[test]
fn random_bytes_and_damage() {
    let mut rng = Rng::new(seed("host"));
    let [mut whole, mut broken] = [0, 0];
    for _ in 0..setting("CITTERNBLAZE_BUNDLES", 20_000) {
        if compare(&random_bytes(&mut rng, bundle_of)) {
            whole += 1;
        } else {
            broken += 1;
        }
    }
    println!("host, random: {whole} whole, {broken} broken");
    assert!(whole > 0 && broken > 0);
}

#[test]
fn bundles_of_grids() {
    let mut rng = Rng::new(seed("host"));
    for turn in 0..1_000 {
        let lists = match turn % 2 {
            0 => random_grid(&mut rng),
            _ => random_lists(&mut rng, 3_000),
        };
        let mut bytes = bundle_of(&lists);
        assert_eq!(
            calls::host(&bytes),
            [0, lists.cells.len() as u64 / 4, lists.counts.len() as u64]
        );
        assert!(compare(&bytes));
        bytes = seen_again(&mut rng, bytes, &lists.edges, 30);
        compare(&bytes);
        damage(&mut rng, &mut bytes);
        compare(&bytes);
    }
}

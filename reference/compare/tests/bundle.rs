//! Records, the bundle reader and the writer against the second implementation.

use std::thread;

use compare::bundles::{
    has_kind, random_bytes, random_lists, seen_again, size, small_bundles, AGAIN, CELL, EDGE, END,
    LOOK, NARROW, STRAY, WIDE,
};
use compare::crowded::{at_one_node, equal, high, in_one_tree};
use compare::lent::{after, answers, answers_in_all, Lent, ANSWER_WORDS};
use compare::{calls, expected, seed, setting};
use reference::bundle;
use reference::gen::{random_shape, Rng, Sample};

/// Values before a call and guards; no two are alike.
const NODE: u16 = 0xa5a4;
const COUNT: u16 = 0xa7a6;
const BYTE: u8 = 0xa9;
const GUARD: u16 = 0xc3c2;
const BYTE_GUARD: u8 = 0xc5;

/// Lent lists of these lengths: nodes, ends, counts.
type Room = [usize; 3];

/// Compares the reader on lists of these lengths, in all and behind them; tells
/// whether it took the bundle.
fn compare_read(bytes: &[u8], [nodes, ends, counts]: Room) -> bool {
    let before = (vec![NODE; nodes], vec![NODE + 1; ends], vec![COUNT; counts]);
    let mut after = before.clone();
    let numbers = expected::bundle_read(bytes, &mut after.0, &mut after.1, &mut after.2);
    // that a refusal changes nothing is not left to the second implementation
    assert!(numbers[0] == 0 || after == before);
    let right = answers(&numbers, |answer| {
        let mut lent_nodes = Lent::new(&before.0, GUARD);
        let mut lent_ends = Lent::new(&before.1, GUARD);
        let mut lent_counts = Lent::new(&before.2, GUARD);
        let many = calls::bundle_read(
            bytes,
            lent_nodes.area(),
            lent_ends.area(),
            lent_counts.area(),
            answer,
        );
        assert!(lent_nodes.is(&after.0, GUARD), "{bytes:?}");
        assert!(lent_ends.is(&after.1, GUARD), "{bytes:?}");
        assert!(lent_counts.is(&after.2, GUARD), "{bytes:?}");
        many
    });
    assert!(right, "not answered with {numbers:?} alone: {bytes:?}");
    numbers[0] == 0
}

/// Compares both calls of the record reader at one start.
fn compare_record(bytes: &[u8], start: usize) {
    let numbers = expected::record(bytes, start);
    assert!(
        answers(&numbers, |answer| calls::record(bytes, start, answer)),
        "record at {start} not answered with {numbers:?} alone: {bytes:?}"
    );
    let body = expected::record_body(bytes, start);
    assert!(
        answers(&body, |answer| calls::record_body(bytes, start, answer)),
        "body at {start} not answered with {body:?} alone: {bytes:?}"
    );
}

/// Compares all three readers: records at every start and beyond, the bundle
/// into ample lists; tells whether it was taken.
fn compare_all(bytes: &[u8]) -> bool {
    let len = bytes.len();
    for start in 0..=len + 4 {
        compare_record(bytes, start);
    }
    for start in [usize::MAX, usize::MAX - 4, 1 << 32, 1 << 16, 256] {
        compare_record(bytes, start);
    }
    compare_read(bytes, [len / 3 + 5, len / 4 + 3, len / 9 + 2])
}

/// Compares the writer into an area of this length; the area after it.
fn compare_write(lists: &Sample, area: usize) -> Vec<u8> {
    let Sample {
        cells,
        edges,
        counts,
    } = lists;
    let before = vec![BYTE; area];
    let mut after = before.clone();
    let numbers = expected::bundle_write(cells, edges, counts, &mut after);
    assert!(numbers[0] == 0 || after == before);
    let right = answers(&numbers, |answer| {
        let mut lent = Lent::new(&before, BYTE_GUARD);
        let many = calls::bundle_write(cells, edges, counts, lent.area(), answer);
        assert!(lent.is(&after, BYTE_GUARD), "{lists:?}, area of {area}");
        many
    });
    assert!(right, "not answered with {numbers:?} alone: {lists:?}");
    after
}

/// The bundle of the lists, by the proved writer.
fn bundle_of(lists: &Sample) -> Vec<u8> {
    compare_write(lists, size(lists))
}

#[test]
fn every_truncation() {
    for bundle in small_bundles() {
        for len in 0..bundle.len() {
            assert!(!compare_all(&bundle[..len]));
        }
        assert!(compare_all(&bundle));
        for byte in 0..=255 {
            assert!(!compare_all(&[&bundle[..], &[byte]].concat()));
        }
    }
}

#[test]
fn every_changed_byte() {
    let [mut taken, mut refused] = [0, 0];
    for bundle in small_bundles() {
        for at in 0..bundle.len() {
            for value in 0..=255 {
                let mut bytes = bundle.clone();
                bytes[at] = value;
                if compare_all(&bytes) {
                    taken += 1;
                } else {
                    refused += 1;
                }
            }
        }
    }
    println!("bundles, each byte changed: {taken} taken, {refused} refused");
    assert!(taken > 0 && refused > 0);
}

#[test]
fn records_in_any_order() {
    let records: [&[u8]; 9] = [
        &CELL,
        &EDGE,
        &WIDE,
        &LOOK,
        &STRAY,
        &END,
        &NARROW,
        &[2, 0, 4, 0],
        &[4, 0, 3, 0, 1, 1],
    ];
    let most = 5;
    for many in 0..=most {
        for mut order in 0..records.len().pow(many) {
            let mut bytes = Vec::new();
            for _ in 0..many {
                bytes.extend(records[order % records.len()]);
                order /= records.len();
            }
            let room = bytes.len();
            compare_read(&bytes, [room; 3]);
        }
    }
}

#[test]
fn random_bytes_and_damage() {
    let mut rng = Rng::new(seed("bundle"));
    let [mut taken, mut wide, mut looked, mut refused] = [0; 4];
    for _ in 0..setting("CITTERNBLAZE_BUNDLES", 20_000) {
        let bytes = random_bytes(&mut rng, bundle_of);
        if compare_all(&bytes) {
            taken += 1;
            wide += u32::from(has_kind(&bytes, bundle::WIDE_EDGE));
            looked += u32::from(has_kind(&bytes, bundle::LOOK));
        } else {
            refused += 1;
        }
    }
    println!(
        "bundles, random: {taken} taken, {wide} of them with a record of kind 4, {looked} with one \
         of kind 5; {refused} refused"
    );
    assert!(taken > wide.max(looked) && wide > 0 && looked > 0 && refused > 0);
}

#[test]
fn lists_of_any_length_are_read() {
    for bundle in small_bundles() {
        for nodes in 0..=9 {
            for ends in 0..=5 {
                for counts in 0..=3 {
                    compare_read(&bundle, [nodes, ends, counts]);
                    compare_read(&bundle[..bundle.len() - 1], [nodes, ends, counts]);
                }
            }
        }
    }
}

#[test]
fn lists_of_any_length_are_written() {
    for cells in 0..=9 {
        for edges in 0..=7 {
            for counts in 0..=3 {
                let lists = Sample {
                    cells: (0..cells).map(|node| 0x0201 * node).collect(),
                    edges: (0..edges).map(|node| 0xfefd - node).collect(),
                    counts: (0..counts).map(|count| 0xfe + count).collect(),
                };
                for area in 0..=size(&lists) + 3 {
                    compare_write(&lists, area);
                }
            }
        }
    }
}

#[test]
fn grids_go_there_and_back() {
    let mut rng = Rng::new(seed("bundle"));
    for _ in 0..1_000 {
        let lists = match rng.below(2) {
            0 => random_shape(&mut rng).with_counts(&mut rng, 0, 511),
            _ => random_lists(&mut rng, 300),
        };
        let mut area = vec![0; size(&lists)];
        for cut in [1, 2, 100] {
            compare_write(&lists, size(&lists).saturating_sub(cut));
        }
        area.copy_from_slice(&compare_write(&lists, size(&lists) + 7)[..size(&lists)]);
        let room = [lists.cells.len(), lists.edges.len(), lists.counts.len()];
        assert!(compare_read(&area, room));
        assert_eq!(read_back(&area, room), lists);
        for list in 0..3 {
            let mut short = room;
            short[list] = short[list].saturating_sub(1);
            compare_read(&area, short);
        }
    }
}

/// Looks by the thousand, as many as a block of the reader holds and some more or
/// less; and one of them for no edge.
#[test]
fn many_looks() {
    let mut rng = Rng::new(seed("looks"));
    for looks in [1, 4_096, 12_287, 12_288, 12_289, 24_576, 24_577, 30_000] {
        let edges: Vec<u16> = (0..600).map(|_| rng.below(30) as u16).collect();
        let mut bytes = Vec::new();
        for ends in edges.chunks(2) {
            bytes.extend([
                7,
                0,
                2,
                0,
                ends[0] as u8,
                0,
                ends[1] as u8,
                0,
                rng.word() as u8,
            ]);
        }
        let looks_at = bytes.len();
        for look in 0..looks {
            let edge = 2 * rng.below(300);
            let [u, v] = [edges[edge] as u8, edges[edge + 1] as u8];
            bytes.extend([8, 0, 5, 0, u, 0, v, 0]);
            bytes.extend((look as u16).to_le_bytes());
        }
        bytes.extend(END);
        assert!(compare_read(&bytes, [0, 600, 300]));
        compare_read(&bytes, [0, 600, 299]);
        for stray in [rng.below(looks), looks - 1] {
            let mut bytes = bytes.clone();
            bytes[looks_at + 10 * stray + 5] = 1;
            assert!(!compare_read(&bytes, [0, 600, 300]));
            assert!(!compare_read(&bytes, [0, 0, 0]));
        }
    }
}

/// The bundle of these edges, with looks at them from the last to the first, and
/// where these start.
fn looked_back(edges: &[[u16; 2]], looks: &[[u16; 2]]) -> (Vec<u8>, usize) {
    let lists = Sample {
        cells: Vec::new(),
        edges: edges.iter().flatten().copied().collect(),
        counts: (0..edges.len()).map(|edge| (edge % 400) as u16).collect(),
    };
    let mut bytes = bundle_of(&lists);
    bytes.truncate(bytes.len() - END.len());
    let looks_at = bytes.len();
    for (count, [u, v]) in looks.iter().rev().enumerate() {
        for word in [8, 5, *u, *v, count as u16] {
            bytes.extend(word.to_le_bytes());
        }
    }
    bytes.extend(END);
    (bytes, looks_at)
}

/// Looks that are hard to find, in one block and in more: all for edges; one of
/// them for a pair that is an edge's but for one bit; and one for a pair of the
/// same list that no edge has.
#[test]
fn crowded_looks() {
    let mut rng = Rng::new(seed("crowded"));
    let mut refused = 0;
    for many in [1, 300, 12_288, 13_000] {
        let lists = [
            in_one_tree(many + 1, 0),
            in_one_tree(many + 1, 4),
            at_one_node(many + 1),
            equal(many + 1),
            high(&mut rng, many + 1),
        ];
        for pairs in lists {
            let room = [0, 2 * many, many];
            let (bytes, looks_at) = looked_back(&pairs[..many], &pairs[..many]);
            assert!(compare_read(&bytes, room));
            for _ in 0..4 {
                let mut bytes = bytes.clone();
                let bit = rng.below(32);
                bytes[looks_at + 10 * rng.below(many) + 4 + bit / 8] ^= 1 << (bit % 8);
                refused += u32::from(!compare_read(&bytes, room));
            }
            let (bytes, _) = looked_back(&pairs[..many], &pairs);
            assert_eq!(compare_read(&bytes, room), pairs[many] == pairs[0]);
        }
    }
    println!("bundles, crowded looks: {refused} of 80 with another bit refused");
    assert!(refused > 60);
}

/// What the headers say of the stack.
#[test]
fn stack_of_192_kilobytes() {
    let read = || {
        let bytes = [&EDGE[..], &LOOK, &AGAIN, &END].concat();
        let (mut ends, mut counts, mut answer) = ([0; 2], [0; 1], [0; ANSWER_WORDS]);
        calls::bundle_read(&bytes, &mut [], &mut ends, &mut counts, &mut answer);
        assert_eq!(calls::host(&bytes), [0, 0, 1]);
        (answer[..3].to_vec(), counts)
    };
    let thread = thread::Builder::new().stack_size(192 * 1024).spawn(read);
    let told = thread.expect("a thread").join().expect("an answer");
    assert_eq!(told, (vec![0, 0, 1], [4_097]));
}

/// A bundle with looks, read, written and read again: the same lists, and no
/// looks.
#[test]
fn survivors_come_back() {
    let mut rng = Rng::new(seed("survivors"));
    let mut looked = 0;
    for _ in 0..1_000 {
        let lists = random_lists(&mut rng, 20);
        let bytes = seen_again(&mut rng, bundle_of(&lists), &lists.edges, 12);
        let room = [lists.cells.len(), lists.edges.len(), lists.counts.len()];
        if !compare_read(&bytes, room) {
            continue;
        }
        looked += u32::from(has_kind(&bytes, bundle::LOOK));
        let left = read_back(&bytes, room);
        let survivors = bundle_of(&left);
        assert!(!has_kind(&survivors, bundle::LOOK));
        assert!(compare_read(&survivors, room));
        assert_eq!(read_back(&survivors, room), left);
    }
    assert!(looked > 100);
}

/// What the proved reader leaves in lists of these lengths.
fn read_back(bytes: &[u8], room: Room) -> Sample {
    let mut back = Sample {
        cells: vec![0; room[0]],
        edges: vec![0; room[1]],
        counts: vec![0; room[2]],
    };
    let mut answer = [0; ANSWER_WORDS];
    calls::bundle_read(
        bytes,
        &mut back.cells,
        &mut back.edges,
        &mut back.counts,
        &mut answer,
    );
    back
}

#[test]
fn any_answer_area() {
    let bundle = [&CELL[..], &EDGE, &WIDE, &END, &NARROW].concat();
    for (start, record, body) in [
        (0, vec![0, 1, 12], [4, 8]),
        (12, vec![0, 2, 21], [16, 5]),
        (21, vec![0, 4, 31], [25, 6]),
        (31, vec![0, 3, 35], [35, 0]),
        (1, vec![13, 1], [0, 0]),
        (35, vec![13, 35], [0, 0]),
        (45, vec![13, 45], [0, 0]),
    ] {
        let call = |answer: &mut [u64]| calls::record(&bundle, start, answer);
        assert!(answers_in_all(&record, call));
        let call = |answer: &mut [u64]| calls::record_body(&bundle, start, answer);
        assert!(answers_in_all(&body, call));
    }
    let looked = [&CELL[..], &EDGE, &WIDE, &LOOK, &AGAIN, &END].concat();
    let stray = [&CELL[..], &EDGE, &WIDE, &LOOK, &STRAY, &END].concat();
    let reads = [
        (&bundle[..35], 4, vec![0, 1, 2]),
        (&bundle[..34], 4, vec![13, 31]),
        (&bundle[..30], 4, vec![13, 21]),
        (&bundle[..45], 4, vec![13, 35]),
        (&bundle[..35], 3, vec![14, 0]),
        (&looked[..], 4, vec![0, 1, 2]),
        (&looked[..], 3, vec![14, 0]),
        (&stray[..], 4, vec![22, 41]),
        (&stray[..], 3, vec![22, 41]),
        (&stray[..54], 3, vec![13, 51]),
    ];
    for (bytes, nodes, numbers) in reads {
        let before = (vec![NODE; nodes], [NODE + 1; 4], [COUNT; 2]);
        let mut read = before.clone();
        expected::bundle_read(bytes, &mut read.0, &mut read.1, &mut read.2);
        let call = |answer: &mut [u64]| {
            let mut lent = before.clone();
            let many = calls::bundle_read(bytes, &mut lent.0, &mut lent.1, &mut lent.2, answer);
            assert_eq!(lent.0, after(answer, &before.0, &read.0));
            assert_eq!(lent.1, after(answer, &before.1, &read.1));
            assert_eq!(lent.2, after(answer, &before.2, &read.2));
            many
        };
        assert!(answers_in_all(&numbers, call));
    }
    for (counts, area, numbers) in [
        (vec![255], 25, [0, 25]),
        (vec![256], 26, [0, 26]),
        (vec![65_535], 26, [0, 26]),
        (vec![0; 2], 40, [13, 0]),
        (vec![255], 24, [14, 25]),
        (vec![256], 25, [14, 26]),
    ] {
        let before = vec![BYTE; area];
        let mut written = before.clone();
        expected::bundle_write(&[0; 4], &[0; 2], &counts, &mut written);
        let call = |answer: &mut [u64]| {
            let mut lent = before.clone();
            let many = calls::bundle_write(&[0; 4], &[0; 2], &counts, &mut lent, answer);
            assert_eq!(lent, after(answer, &before, &written));
            many
        };
        assert!(answers_in_all(&numbers, call));
    }
}

//! Records, bundles and the writer.

use reference::bundle::{
    host_cells, host_edges, host_refusal, read, record, record_body, write, Sizes,
};
use reference::gen::{Rng, Sample};
use reference::Refusal;

fn refused<T>(number: u8, place: usize) -> Result<T, Refusal> {
    Err(Refusal {
        number,
        place: place as u64,
    })
}

/// Any three lists of fitting lengths, with counts of all sizes; they need not
/// make a grid.
fn random_lists(rng: &mut Rng, most: usize) -> Sample {
    let cells = rng.between(0, most);
    let edges = rng.between(0, most);
    let mut words = |count| (0..count).map(|_| rng.word() as u16).collect::<Vec<u16>>();
    let mut lists = Sample {
        cells: words(4 * cells),
        edges: words(2 * edges),
        counts: words(edges),
    };
    for count in &mut lists.counts {
        *count >>= rng.below(16);
    }
    lists
}

fn bundle_of(lists: &Sample) -> Vec<u8> {
    let wide = lists.counts.iter().filter(|&&count| count >= 256).count();
    let size = 3 * lists.cells.len() + 9 * lists.counts.len() + wide + 4;
    let mut area = vec![0xee; size + 3];
    let written = write(&lists.cells, &lists.edges, &lists.counts, &mut area);
    assert_eq!(written, Ok(size));
    assert_eq!(area[size..], [0xee; 3]);
    area.truncate(size);
    area
}

fn small_bundle() -> Vec<u8> {
    bundle_of(&Sample {
        cells: vec![0, 1, 2, 3, 258, 65_535, 7, 10],
        edges: vec![0, 1, 2, 3],
        counts: vec![2, 7],
    })
}

/// A cell, and edges of both kinds in turn.
fn mixed_bundle() -> Vec<u8> {
    bundle_of(&Sample {
        cells: vec![0, 1, 2, 3],
        edges: vec![0, 1, 2, 3, 4, 5, 6, 7],
        counts: vec![256, 255, 4096, 0],
    })
}

/// Edges of both kinds, and looks at both and at one of them again.
fn looked_bundle() -> Vec<u8> {
    let bundle = bundle_of(&Sample {
        cells: vec![0, 1, 2, 3],
        edges: vec![4, 5, 2, 3],
        counts: vec![5, 300],
    });
    seen_again(&bundle, &[[2, 3, 4], [4, 5, 300], [2, 3, 7]])
}

/// The bundle with these looks before its end: the pair u, v and a count each.
fn seen_again(bundle: &[u8], looks: &[[u16; 3]]) -> Vec<u8> {
    let mut bytes = bundle[..bundle.len() - 4].to_vec();
    for look in looks {
        bytes.extend([8, 0, 5, 0]);
        bytes.extend(look.iter().flat_map(|number| number.to_le_bytes()));
    }
    bytes.extend([2, 0, 3, 0]);
    bytes
}

/// A second reader: eats cells, then edges of both kinds, then looks, then wants
/// exactly an end; then puts each look's count to the edges, in turn. A refusal
/// is a number and a place.
fn plain_read(bytes: &[u8]) -> Result<Sample, (u32, usize)> {
    let word = |at: usize| u16::from(bytes[at]) + 256 * u16::from(bytes[at + 1]);
    let left = |at: usize| bytes.len() - at;
    let mut lists = empty_lists();
    let mut at = 0;
    while bytes[at..].starts_with(&[10, 0, 1, 0]) && left(at) >= 12 {
        lists
            .cells
            .extend([4, 6, 8, 10].map(|offset| word(at + offset)));
        at += 12;
    }
    loop {
        if bytes[at..].starts_with(&[7, 0, 2, 0]) && left(at) >= 9 {
            lists.edges.extend([4, 6].map(|offset| word(at + offset)));
            lists.counts.push(u16::from(bytes[at + 8]));
            at += 9;
        } else if bytes[at..].starts_with(&[8, 0, 4, 0]) && left(at) >= 10 && bytes[at + 9] > 0 {
            lists.edges.extend([4, 6].map(|offset| word(at + offset)));
            lists.counts.push(word(at + 8));
            at += 10;
        } else {
            break;
        }
    }
    let mut looks = Vec::new();
    while bytes[at..].starts_with(&[8, 0, 5, 0]) && left(at) >= 10 {
        looks.push((at, [4, 6, 8].map(|offset| word(at + offset))));
        at += 10;
    }
    if bytes[at..].starts_with(&[2, 0, 3, 0]) && left(at) > 4 {
        return Err((13, at + 4));
    }
    if bytes[at..] != [2, 0, 3, 0] {
        return Err((13, at));
    }
    for (at, [u, v, count]) in looks {
        let mut met = false;
        for (k, ends) in lists.edges.chunks(2).enumerate() {
            if ends == [u, v] {
                lists.counts[k] = count;
                met = true;
            }
        }
        if !met {
            return Err((22, at));
        }
    }
    Ok(lists)
}

/// Reads with ample lists and compares everything with the plain reader.
fn compare(bytes: &[u8]) {
    let room = bytes.len() + 8;
    let mut cells = vec![0xaaaa; room];
    let mut edges = vec![0xbbbb; room];
    let mut counts = vec![0xcccc; room];
    let answer = read(bytes, &mut cells, &mut edges, &mut counts);
    let expected = plain_read(bytes);
    let number = expected.as_ref().map_or_else(|refusal| refusal.0, |_| 0);
    let lists = expected.unwrap_or_else(|(number, place)| {
        assert_eq!(answer, refused(number as u8, place), "{bytes:?}");
        empty_lists()
    });
    let sizes = Sizes {
        cells: lists.cells.len() / 4,
        edges: lists.counts.len(),
    };
    assert!(number > 0 || answer == Ok(sizes));
    assert_written(&cells, &lists.cells, 0xaaaa);
    assert_written(&edges, &lists.edges, 0xbbbb);
    assert_written(&counts, &lists.counts, 0xcccc);
    let host = (host_refusal(bytes), host_cells(bytes), host_edges(bytes));
    assert_eq!(host, (number, sizes.cells as u32, sizes.edges as u32));
}

/// The list begins with what was to be written and is untouched beyond.
fn assert_written<T: PartialEq>(list: &[T], written: &[T], untouched: T) {
    let (front, rest) = list.split_at(written.len());
    assert!(front == written && rest.iter().all(|value| *value == untouched));
}

fn empty_lists() -> Sample {
    Sample {
        cells: vec![],
        edges: vec![],
        counts: vec![],
    }
}

#[test]
fn written_bytes_are_as_laid_down() {
    let lists = Sample {
        cells: vec![0, 1, 2, 259],
        edges: vec![0, 1],
        counts: vec![200],
    };
    let cell = [10, 0, 1, 0, 0, 0, 1, 0, 2, 0, 3, 1];
    let edge = [7, 0, 2, 0, 0, 0, 1, 0, 200];
    let end = [2, 0, 3, 0];
    assert_eq!(bundle_of(&lists), [&cell[..], &edge, &end].concat());
}

/// Kind 4 exactly for counts above 255, those above 4,095 too.
#[test]
fn the_count_decides_the_kind() {
    for (count, edge) in [
        (0, vec![7, 0, 2, 0, 9, 0, 8, 1, 0]),
        (255, vec![7, 0, 2, 0, 9, 0, 8, 1, 255]),
        (256, vec![8, 0, 4, 0, 9, 0, 8, 1, 0, 1]),
        (1000, vec![8, 0, 4, 0, 9, 0, 8, 1, 232, 3]),
        (4095, vec![8, 0, 4, 0, 9, 0, 8, 1, 255, 15]),
        (4096, vec![8, 0, 4, 0, 9, 0, 8, 1, 0, 16]),
        (65_535, vec![8, 0, 4, 0, 9, 0, 8, 1, 255, 255]),
    ] {
        let lists = Sample {
            cells: vec![],
            edges: vec![9, 264],
            counts: vec![count],
        };
        let bytes = [&edge[..], &[2, 0, 3, 0]].concat();
        assert_eq!(bundle_of(&lists), bytes);
        compare(&bytes);
        let (mut ends, mut counts) = ([0; 2], [7]);
        let sizes = Sizes { cells: 0, edges: 1 };
        assert_eq!(read(&bytes, &mut [], &mut ends, &mut counts), Ok(sizes));
        assert_eq!((ends, counts), ([9, 264], [count]));
        assert_eq!(record(&bytes, 0), Ok((u16::from(edge[2]), edge.len())));
        assert_eq!(record_body(&bytes, 0), &edge[4..]);
    }
}

/// A kind 4 record with 255 or less is refused where it starts, by both calls of
/// the record reader, the bundle reader and the host.
#[test]
fn kind_4_with_a_count_of_one_byte() {
    let cell = [10, 0, 1, 0, 1, 2, 3, 4, 5, 6, 7, 8];
    let edge = [7, 0, 2, 0, 9, 8, 7, 6, 5];
    for count in 0..=255 {
        let narrow = [8, 0, 4, 0, 9, 8, 7, 6, count, 0];
        let bytes = [&cell[..], &edge, &narrow, &[2, 0, 3, 0]].concat();
        compare(&bytes);
        assert_eq!(read(&bytes, &mut [], &mut [], &mut []), refused(13, 21));
        assert_eq!(host_refusal(&bytes), 13);
        assert_eq!(record(&bytes, 21), refused(13, 21));
        assert_eq!(record_body(&bytes, 21), []);
        assert_eq!(record(&narrow, 0), refused(13, 0));
        assert_eq!(record_body(&narrow, 0), []);
    }
}

#[test]
fn kinds_of_edges_mix() {
    let bytes = mixed_bundle();
    assert_eq!(bytes.len(), 12 + 10 + 9 + 10 + 9 + 4);
    let starts = [
        (0, 1, 12),
        (12, 4, 22),
        (22, 2, 31),
        (31, 4, 41),
        (41, 2, 50),
        (50, 3, 54),
    ];
    for (start, kind, next) in starts {
        assert_eq!(record(&bytes, start), Ok((kind, next)));
        let body = record_body(&bytes, start);
        assert_eq!(body.as_ptr_range(), bytes[start + 4..next].as_ptr_range());
    }
    compare(&bytes);
    let (mut cells, mut edges, mut counts) = ([0; 5], [0; 9], [7; 5]);
    let sizes = Sizes { cells: 1, edges: 4 };
    assert_eq!(read(&bytes, &mut cells, &mut edges, &mut counts), Ok(sizes));
    assert_eq!(edges, [0, 1, 2, 3, 4, 5, 6, 7, 0]);
    assert_eq!(counts, [256, 255, 4096, 0, 7]);
    let short = read(&bytes, &mut cells, &mut edges, &mut counts[..3]);
    assert_eq!(short, refused(14, 0));
}

/// The last look with a pair gives the count of every edge with that pair.
#[test]
fn looks_replace_counts() {
    let bundle = bundle_of(&Sample {
        cells: vec![0, 1, 2, 3],
        edges: vec![0, 1, 0, 2, 0, 1, 1, 0],
        counts: vec![5, 300, 6, 7],
    });
    let cases: [(&[[u16; 3]], [u16; 4]); 8] = [
        (&[], [5, 300, 6, 7]),
        (&[[0, 1, 9]], [9, 300, 9, 7]),
        (&[[0, 1, 9], [0, 1, 8]], [8, 300, 8, 7]),
        (&[[0, 1, 9], [0, 2, 0], [0, 1, 5]], [5, 0, 5, 7]),
        (&[[1, 0, 255]], [5, 300, 6, 255]),
        (&[[1, 0, 256]], [5, 300, 6, 256]),
        (&[[0, 2, 4096], [1, 0, 65_535]], [5, 4096, 6, 65_535]),
        (&[[0, 2, 255]], [5, 255, 6, 7]),
    ];
    for (looks, left) in cases {
        let bytes = seen_again(&bundle, looks);
        compare(&bytes);
        let mut counts = [1; 5];
        let sizes = Sizes { cells: 1, edges: 4 };
        let answer = read(&bytes, &mut [0; 4], &mut [0; 8], &mut counts);
        assert_eq!(answer, Ok(sizes));
        assert_eq!(counts, [left[0], left[1], left[2], left[3], 1]);
        let host = [host_refusal(&bytes), host_cells(&bytes), host_edges(&bytes)];
        assert_eq!(host, [0, 1, 4]);
        let short = read(&bytes, &mut [0; 4], &mut [0; 8], &mut counts[..3]);
        assert_eq!(short, refused(14, 0));
    }
}

/// 22 at the lowest look for no edge, after 13 over everything and before 14.
#[test]
fn looks_for_no_edge() {
    let bundle = bundle_of(&Sample {
        cells: vec![0, 1, 2, 3],
        edges: vec![0, 1, 0, 2],
        counts: vec![5, 300],
    });
    assert_eq!(bundle.len(), 12 + 9 + 10 + 4);
    for (looks, place) in [
        (&[[1, 0, 9]][..], 31),
        (&[[0, 1, 9], [2, 0, 9]], 41),
        (&[[0, 1, 9], [1, 2, 9], [0, 2, 9], [3, 3, 3]], 41),
        (&[[0, 257, 9]], 31),
        (&[[256, 1, 9]], 31),
    ] {
        let bytes = seen_again(&bundle, looks);
        compare(&bytes);
        assert_eq!(read(&bytes, &mut [], &mut [], &mut []), refused(22, place));
        let host = [host_refusal(&bytes), host_cells(&bytes), host_edges(&bytes)];
        assert_eq!(host, [22, 0, 0]);
        let longer = [&bytes[..], &[0]].concat();
        let end = bytes.len();
        assert_eq!(read(&longer, &mut [], &mut [], &mut []), refused(13, end));
    }
    let no_edges = seen_again(&[2, 0, 3, 0], &[[0, 1, 9]]);
    assert_eq!(read(&no_edges, &mut [], &mut [], &mut []), refused(22, 0));
}

/// A bundle with looks comes back as the bundle of its surviving lists.
#[test]
fn survivors_come_back() {
    let mut rng = Rng::new(5);
    for _ in 0..2_000 {
        let mut lists = random_lists(&mut rng, 12);
        for node in &mut lists.edges {
            *node %= 3;
        }
        let mut looks = Vec::new();
        for _ in 0..rng.below(12) {
            if let Some(edges) = lists.counts.len().checked_sub(1) {
                let edge = rng.between(0, edges);
                let [u, v] = [lists.edges[2 * edge], lists.edges[2 * edge + 1]];
                looks.push([u, v, rng.word() as u16 >> rng.below(16)]);
            }
        }
        let bytes = seen_again(&bundle_of(&lists), &looks);
        compare(&bytes);
        let left = plain_read(&bytes).expect("every look is for an edge");
        let back = bundle_of(&left);
        assert_eq!(plain_read(&back), Ok(left));
        compare(&back);
    }
}

#[test]
fn bundles_come_back_as_they_were() {
    let mut rng = Rng::new(1);
    for _ in 0..300 {
        let lists = random_lists(&mut rng, 40);
        let bytes = bundle_of(&lists);
        assert_eq!(plain_read(&bytes), Ok(lists.clone()));
        compare(&bytes);
        let Sample {
            mut cells,
            mut edges,
            mut counts,
        } = lists.clone();
        cells.fill(0);
        edges.fill(0);
        counts.fill(0);
        assert!(read(&bytes, &mut cells, &mut edges, &mut counts).is_ok());
        assert_eq!(
            Sample {
                cells,
                edges,
                counts
            },
            lists
        );
    }
}

#[test]
fn every_truncation() {
    let bytes = small_bundle();
    for bytes in [small_bundle(), mixed_bundle(), looked_bundle()] {
        for length in 0..=bytes.len() {
            compare(&bytes[..length]);
        }
    }
    assert_eq!(host_refusal(&[]), 13);
    assert_eq!(read(&[], &mut [], &mut [], &mut []), refused(13, 0));
    let no_end = bytes.len() - 4;
    assert_eq!(
        read(&bytes[..no_end], &mut [], &mut [], &mut []),
        refused(13, no_end)
    );
}

#[test]
fn every_changed_byte() {
    for mut bytes in [small_bundle(), mixed_bundle(), looked_bundle()] {
        for at in 0..bytes.len() {
            let kept = bytes[at];
            for value in 0..=255 {
                bytes[at] = value;
                compare(&bytes);
            }
            bytes[at] = kept;
        }
    }
}

#[test]
fn random_damage() {
    let mut rng = Rng::new(2);
    for _ in 0..20_000 {
        let mut bytes = bundle_of(&random_lists(&mut rng, 4));
        for _ in 0..rng.between(1, 3) {
            let at = rng.below(bytes.len() + 1);
            match rng.below(4) {
                0 => bytes.insert(at, rng.below(12) as u8),
                1 => bytes.truncate(at),
                2 => {
                    let records: [&[u8]; 2] = [&[2, 0, 3, 0], &[8, 0, 5, 0, 9, 8, 7, 6, 5, 4]];
                    bytes.splice(at..at, records[rng.below(2)].iter().copied());
                }
                _ => {
                    let until = rng.between(at, bytes.len());
                    bytes.drain(at..until);
                }
            }
        }
        compare(&bytes);
    }
}

/// Whole records in any order, with ends anywhere.
#[test]
fn records_in_any_order() {
    let mut rng = Rng::new(3);
    let records: [&[u8]; 10] = [
        &[10, 0, 1, 0, 1, 2, 3, 4, 5, 6, 7, 8],
        &[7, 0, 2, 0, 9, 8, 7, 6, 5],
        &[8, 0, 4, 0, 9, 8, 7, 6, 5, 4],
        &[8, 0, 5, 0, 9, 8, 7, 6, 1, 0],
        &[2, 0, 3, 0],
        &[8, 0, 5, 0, 9, 8, 6, 7, 1, 0],
        &[7, 0, 5, 0, 9, 8, 7, 6, 1],
        &[2, 0, 4, 0],
        &[8, 0, 4, 0, 9, 8, 7, 6, 5, 0],
        &[2, 0, 0, 0],
    ];
    for _ in 0..20_000 {
        // more of the records that are right
        let chosen =
            (0..rng.below(6)).map(|_| records[[0, 1, 2, 3, 4, rng.below(10)][rng.below(6)]]);
        let bytes = chosen.collect::<Vec<&[u8]>>().concat();
        compare(&bytes);
    }
}

#[test]
fn row_13_places() {
    let cell = [10, 0, 1, 0, 1, 2, 3, 4, 5, 6, 7, 8];
    let edge = [7, 0, 2, 0, 9, 8, 7, 6, 5];
    let wide = [8, 0, 4, 0, 9, 8, 7, 6, 5, 1];
    let end = [2, 0, 3, 0];
    let look = [8, 0, 5, 0, 9, 8, 7, 6, 5, 0];
    let cases: [(Vec<&[u8]>, usize); 22] = [
        (vec![], 0),
        (vec![&cell, &edge], 21),
        (vec![&cell, &edge, &cell, &end], 21),
        (vec![&edge, &cell], 9),
        (vec![&end, &end], 4),
        (vec![&cell, &end, &[0]], 16),
        (vec![&cell, &[2], &end], 12),
        (vec![&cell, &[0, 0], &end], 12),
        (vec![&cell, &wide], 22),
        (vec![&wide, &edge, &wide, &cell, &end], 29),
        // the end's first byte is the count's second
        (vec![&edge, &wide[..9], &end], 19),
        (vec![&edge, &wide[..9]], 9),
        (vec![&edge, &[7, 0, 4, 0, 9, 8, 7, 6, 5], &end], 9),
        (vec![&wide, &[8, 0, 2, 0, 9, 8, 7, 6, 5, 1], &end], 10),
        // looks: before the edges, before the cells, after the end, cut, without an end
        (vec![&look, &edge, &end], 10),
        (vec![&edge, &look, &edge, &end], 19),
        (vec![&edge, &look, &cell, &end], 19),
        (vec![&look, &cell, &edge, &end], 10),
        (vec![&edge, &end, &look], 13),
        (vec![&edge, &look[..9]], 9),
        (vec![&edge, &look], 19),
        (vec![&edge, &[7, 0, 5, 0, 9, 8, 7, 6, 5], &end], 9),
    ];
    for (parts, place) in cases {
        let bytes = parts.concat();
        assert_eq!(read(&bytes, &mut [], &mut [], &mut []), refused(13, place));
        compare(&bytes);
    }
    let only_end = read(&end, &mut [], &mut [], &mut []);
    assert_eq!(only_end, Ok(Sizes { cells: 0, edges: 0 }));
}

#[test]
fn row_14_short_lists() {
    let bytes = small_bundle();
    let sizes = Sizes { cells: 2, edges: 2 };
    for (c, e, n) in [
        (8, 4, 2),
        (7, 4, 2),
        (8, 3, 2),
        (8, 4, 1),
        (4, 4, 2),
        (0, 0, 0),
        (9, 5, 3),
    ] {
        let mut cells = vec![1; c];
        let mut edges = vec![1; e];
        let mut counts = vec![1; n];
        let answer = read(&bytes, &mut cells, &mut edges, &mut counts);
        if c >= 8 && e >= 4 && n >= 2 {
            assert_eq!(answer, Ok(sizes));
        } else {
            assert_eq!(answer, refused(14, 0));
            assert!(cells.iter().chain(&edges).all(|&node| node == 1));
            assert!(counts.iter().all(|&count| count == 1));
        }
    }
    let broken = &bytes[..bytes.len() - 1];
    let place = bytes.len() - 4;
    assert_eq!(read(broken, &mut [], &mut [], &mut []), refused(13, place));
}

/// Kind and size of the record that the bytes begin with, if any.
fn plain_record(bytes: &[u8]) -> Option<(u16, usize)> {
    let heads = [
        ([10, 0, 1, 0], 12),
        ([7, 0, 2, 0], 9),
        ([8, 0, 4, 0], 10),
        ([8, 0, 5, 0], 10),
        ([2, 0, 3, 0], 4),
    ];
    let fits = |(head, size): &([u8; 4], usize)| bytes.starts_with(head) && bytes.len() >= *size;
    let (head, size) = heads.into_iter().find(fits)?;
    if head[2] == 4 && bytes[9] == 0 {
        return None;
    }
    Some((u16::from(head[2]), size))
}

#[test]
fn records_anywhere_in_random_bytes() {
    let mut rng = Rng::new(4);
    for _ in 0..3_000 {
        let length = rng.below(40);
        let few = [0, 0, 0, 1, 2, 3, 4, 5, 7, 8, 10];
        let bytes: Vec<u8> = (0..length).map(|_| few[rng.below(11)]).collect();
        for start in 0..length {
            let wanted = plain_record(&bytes[start..]);
            let body = record_body(&bytes, start);
            match wanted {
                Some((kind, size)) => {
                    assert_eq!(record(&bytes, start), Ok((kind, start + size)));
                    assert_eq!(
                        body.as_ptr_range(),
                        bytes[start + 4..start + size].as_ptr_range()
                    );
                }
                None => {
                    assert_eq!(record(&bytes, start), refused(13, start));
                    assert_eq!(body.as_ptr_range(), bytes[..0].as_ptr_range());
                }
            }
        }
    }
}

#[test]
fn single_records() {
    let bytes = small_bundle();
    let starts = [
        (0, 1, 12),
        (12, 1, 24),
        (24, 2, 33),
        (33, 2, 42),
        (42, 3, 46),
    ];
    for (start, kind, next) in starts {
        assert_eq!(record(&bytes, start), Ok((kind, next)));
        let body = record_body(&bytes, start);
        assert_eq!(body.as_ptr_range(), bytes[start + 4..next].as_ptr_range());
    }
    for start in (0..46).filter(|&at| plain_record(&bytes[at..]).is_none()) {
        assert_eq!(record(&bytes, start), refused(13, start));
        let body = record_body(&bytes, start);
        assert_eq!(body.as_ptr_range(), bytes[..0].as_ptr_range());
    }
    for start in [46, 47, usize::MAX] {
        assert_eq!(record(&bytes, start), refused(13, 46));
        assert_eq!(record_body(&bytes, start).as_ptr(), bytes.as_ptr());
    }
}

#[test]
fn records_are_not_judged_by_order() {
    let bytes = [2, 0, 3, 0, 7, 0, 2, 0, 1, 0, 2, 0, 9, 10, 0, 1, 0];
    assert_eq!(record(&bytes, 0), Ok((3, 4)));
    assert_eq!(record_body(&bytes, 0), []);
    assert_eq!(record(&bytes, 4), Ok((2, 13)));
    assert_eq!(record_body(&bytes, 4), [1, 0, 2, 0, 9]);
    assert_eq!(record(&bytes, 13), refused(13, 13));
    assert_eq!(record(&bytes, 17), refused(13, 17));
}

#[test]
fn writer_refusals() {
    let mut area = [9; 64];
    for (cells, edges, counts) in [
        (3, 0, 0),
        (4, 1, 0),
        (4, 2, 0),
        (4, 0, 1),
        (5, 2, 1),
        (4, 3, 1),
    ] {
        let answer = write(
            &vec![0; cells],
            &vec![0; edges],
            &vec![0; counts],
            &mut area,
        );
        assert_eq!(answer, refused(13, 0));
    }
    let answer = write(&[0, 1, 2, 3], &[0, 1], &[5], &mut area[..24]);
    assert_eq!(answer, refused(14, 25));
    let answer = write(&[0, 1, 2, 3], &[0, 1], &[256], &mut area[..25]);
    assert_eq!(answer, refused(14, 26));
    assert_eq!(write(&[0, 1, 2], &[], &[], &mut []), refused(13, 0));
    assert_eq!(write(&[], &[], &[], &mut area[..3]), refused(14, 4));
    assert_eq!(area, [9; 64]);
    assert_eq!(write(&[], &[], &[], &mut area), Ok(4));
    assert_eq!(area[..5], [2, 0, 3, 0, 9]);
}

/// The lists are never looked at, so their zero pages are never brought in.
#[test]
#[ignore = "reserves 3 GB of address space"]
fn writer_needs_more_than_32_bits_tell() {
    let just = vec![0; 4 * 357_913_941];
    assert_eq!(write(&just, &[], &[], &mut []), refused(14, 4_294_967_295));
    drop(just);
    let more = vec![0; 4 * 357_913_942];
    assert_eq!(write(&more, &[], &[], &mut []), refused(14, 4_294_967_295));
    let fewer = &more[..4 * 357_913_940];
    assert_eq!(write(fewer, &[], &[], &mut []), refused(14, 4_294_967_284));
}

//! The constants of include/citternblaze.h by its names, but for the places of numbers
//! in answers: `CITTERNBLAZE_AT_..` are for C.

/// The constants, and a list of them for their test.
macro_rules! constants {
    ($($(#[$text:meta])* $name:ident: $type:ty = $value:expr;)*) => {
        $($(#[$text])* pub const $name: $type = $value;)*

        #[cfg(test)]
        const ALL: &[(&str, u64)] = &[$((stringify!($name), $name as u64),)*];
    };
}

constants! {
    /// The elements that an answer area must have; no answer has more numbers.
    ANSWER_WORDS: usize = 6;

    /// The bytes of stack that suffice for any call.
    STACK_BYTES: usize = 2_560 * 1_024;

    /// What an accepted grid has at most. Word 0 of a triangle is its cell and
    /// `MOST_CELLS` times the number of its sub-cell.
    MOST_CELLS: u32 = 2_048;
    MOST_EDGES: usize = 12_288;
    HIGHEST_NODE: u16 = 4_095;
    HIGHEST_COUNT: u16 = 4_095;
    MOST_CROSSINGS: usize = 65_535;

    /// What an accepted flat grid has at most.
    MOST_FLAT_TRIANGLES: usize = 2_048;
    MOST_FLAT_EDGES: usize = 6_144;

    /// The first number of an answer that is a result.
    DONE: u64 = 0;

    /// That of a face call's answer.
    JOINED: u64 = 0;
    UNJOINED: u64 = 1;
    NO_CROSSING: u64 = 2;

    /// How a crossing is joined.
    ROUND: u64 = 0;
    ALONG: u64 = 1;

    /// Why it is not.
    LEFT: u64 = 0;
    SKIPPED: u64 = 1;

    /// A byte for each node that there may be, and that of a node that no cell has.
    SHADING_BYTES: usize = 4_096;
    UNUSED: u8 = 255;

    /// The words of a triangle, and where they stand.
    TRIANGLE_WORDS: usize = 11;
    TRIANGLE_CELL: usize = 0;
    TRIANGLE_P0: usize = 1;
    TRIANGLE_CORNERS: usize = 2;
    TRIANGLE_SIDES: usize = 5;

    /// The word of a corner that is its loop's middle, and the first word of an inner
    /// side.
    MIDDLE: u32 = u32::MAX;
    INNER: u32 = u32::MAX;

    /// The first word of a chain.
    OPEN: u32 = 0;
    CLOSED: u32 = 1;

    /// The first number of a split cell's inner crossings, and the first name of its
    /// inner faces.
    INNER_CROSSING: u32 = 65_536;
    INNER_FACE: u32 = 8_192;

    /// The types of a loop.
    CONTRACTIBLE: u64 = 0;
    CORNER: u64 = 1;
    DIAGONAL: u64 = 2;
    LOWEST_CORNER: u64 = 3;

    /// The kinds of a record.
    KIND_CELL: u64 = 1;
    KIND_EDGE: u64 = 2;
    KIND_END: u64 = 3;
    KIND_WIDE_EDGE: u64 = 4;
    KIND_LOOK: u64 = 5;

    /// The refusals (docs/FORMAT.md, "Refusals").
    REFUSED_CELL_LIST: u64 = 1;
    REFUSED_EDGE_LIST: u64 = 2;
    REFUSED_CELL_NODES: u64 = 3;
    REFUSED_CELL_REPEATED: u64 = 4;
    REFUSED_FACE_CROWDED: u64 = 5;
    REFUSED_EDGE_ORDER: u64 = 6;
    REFUSED_EDGE_MISSING: u64 = 7;
    REFUSED_EDGE_STRAY: u64 = 8;
    REFUSED_EDGE_UNLINKED: u64 = 9;
    REFUSED_CROSSINGS: u64 = 10;
    REFUSED_NO_CELL: u64 = 11;
    REFUSED_MESH_AREA: u64 = 12;
    REFUSED_RECORDS: u64 = 13;
    REFUSED_BUNDLE_AREA: u64 = 14;
    REFUSED_PLACE_LISTS: u64 = 15;
    REFUSED_NODE_PLACE: u64 = 16;
    REFUSED_FRACTION: u64 = 17;
    REFUSED_COUNT: u64 = 18;
    REFUSED_SHADING_AREA: u64 = 19;
    REFUSED_NO_SHADING: u64 = 20;
    REFUSED_NO_EDGE: u64 = 21;
    REFUSED_LOOK: u64 = 22;
    REFUSED_POINTS: u64 = 23;
    REFUSED_CHAIN_AREA: u64 = 24;
    REFUSED_CUTS: u64 = 25;
    REFUSED_NO_RUN: u64 = 26;
}

#[cfg(test)]
mod tests {
    use super::ALL;

    /// The number that a definition gives: digits, `digitsu` or `(digits * digits)`.
    fn number(words: &str) -> Option<u64> {
        let digits = |word: &str| word.trim_end_matches('u').parse::<u64>().ok();
        match words.strip_prefix('(').and_then(|of| of.split_once(')')) {
            Some((product, _)) => product.split(" * ").map(digits).product(),
            None => digits(words.split(' ').next()?),
        }
    }

    /// The definitions of a header that are numbers, but for places in answers.
    fn defined(header: &str) -> Vec<(&str, u64)> {
        header
            .lines()
            .filter_map(|line| line.strip_prefix("#define CITTERNBLAZE_")?.split_once(' '))
            .filter(|(name, _)| !name.starts_with("AT_"))
            .filter_map(|(name, words)| Some((name, number(words.trim())?)))
            .collect()
    }

    #[test]
    fn all_as_in_the_header() {
        let header = include_str!("../../include/citternblaze.h");
        assert_eq!(defined(header), ALL);
        let other = header.replace("REFUSED_LOOK 22", "REFUSED_LOOK 21");
        assert_ne!(defined(&other), ALL);
    }

    #[test]
    fn numbers_of_definitions() {
        assert_eq!(number("12"), Some(12));
        assert_eq!(number("8192u"), Some(8_192));
        assert_eq!(number("(2560 * 1024)"), Some(2_621_440));
        assert_eq!(number("3 /* a cell's nodes */"), Some(3));
        assert_eq!(number("\"0.2.0\""), None);
        assert_eq!(number("(grid)->cells"), None);
    }
}

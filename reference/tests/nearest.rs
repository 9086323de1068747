//! The nearest call: examples, row 23, and a plain second search.

use reference::gen::Rng;
use reference::nearest::{nearest, Nearest};
use reference::places::Place;
use reference::Refusal;

const ORIGIN: Place = Place {
    x: 0.0,
    y: 0.0,
    z: 0.0,
};

fn place(numbers: [f64; 3]) -> Place {
    let [x, y, z] = numbers;
    Place { x, y, z }
}

fn refused(place: u64) -> Result<Nearest, Refusal> {
    Err(Refusal { number: 23, place })
}

fn at(number: usize, squared: f64) -> Result<Nearest, Refusal> {
    Ok(Nearest::At { number, squared })
}

#[test]
fn examples() {
    assert_eq!(nearest(&[], ORIGIN), Ok(Nearest::NoPoint));
    assert_eq!(nearest(&[3.0, 4.0, 12.0], ORIGIN), at(0, 169.0));
    let equals = [2.0, 0.0, 0.0, 0.0, -1.0, 0.0, 1.0, 0.0, 0.0];
    assert_eq!(nearest(&equals, ORIGIN), at(1, 1.0));
    assert_eq!(nearest(&equals, place([2.0, 0.5, 0.0])), at(0, 0.25));
    let far = place([1e6, -1e6, 1e6]);
    assert_eq!(nearest(&[-1e6, 1e6, -1e6], far), at(0, 12e12));
}

#[test]
fn the_sum_in_its_order() {
    // (0.9 × 0.9 + 1.8 × 1.8) + 0.8 × 0.8 is a bit more than the sum with the
    // last two exchanged
    let points = [0.9, 1.8, 0.8, 0.9, 0.8, 1.8];
    let least = f64::from_bits(0x4012_c28f_5c28_f5c3);
    assert_eq!(nearest(&points, ORIGIN), at(1, least));
    let first = f64::from_bits(0x4012_c28f_5c28_f5c4);
    assert_eq!(nearest(&points[..3], ORIGIN), at(0, first));
}

#[test]
fn row_23() {
    let beyond = f64::from_bits(1e6f64.to_bits() + 1);
    let odd = [f64::NAN, f64::INFINITY, -f64::INFINITY, beyond, -beyond];
    for len in 0..12 {
        let points = vec![0.5; len];
        if len % 3 > 0 {
            assert_eq!(nearest(&points, ORIGIN), refused(0));
            assert_eq!(nearest(&points, place([f64::NAN; 3])), refused(0));
            continue;
        }
        for number in odd {
            for index in 0..len {
                let mut points = points.clone();
                points[index] = number;
                let query = place([number, 0.0, number]);
                assert_eq!(nearest(&points, query), refused(index as u64));
            }
            for part in 0..3 {
                let mut query = [0.0; 3];
                query[part..].fill(number);
                assert_eq!(nearest(&points, place(query)), refused((len + part) as u64));
            }
        }
    }
}

/// Small whole numbers: squared distances are exact, and often equal.
#[test]
fn whole_numbers_as_whole_arithmetic_has_them() {
    let mut rng = Rng::new(8);
    let mut equals = 0;
    for _ in 0..2_000 {
        let many = rng.between(1, 20);
        let mut whole = || rng.between(0, 6) as i64 - 3;
        let points: Vec<[i64; 3]> = (0..many).map(|_| [(); 3].map(|()| whole())).collect();
        let query = [(); 3].map(|()| whole());
        let squares = points.iter().map(|point| {
            let parts = point.iter().zip(query);
            parts.map(|(p, q)| (p - q) * (p - q)).sum::<i64>()
        });
        let squares: Vec<i64> = squares.collect();
        let least = *squares.iter().min().expect("a point");
        let number = squares.iter().position(|&square| square == least);
        let number = number.expect("the least one");
        equals += squares.iter().filter(|&&square| square == least).count() - 1;
        let numbers: Vec<f64> = points.concat().into_iter().map(|n| n as f64).collect();
        let answer = nearest(&numbers, place(query.map(|n| n as f64)));
        assert_eq!(answer, at(number, least as f64));
    }
    assert!(equals > 200);
}

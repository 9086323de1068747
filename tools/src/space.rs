//! Places and directions in space.

/// A place or a direction, by its three numbers.
pub type Place = [f64; 3];

pub fn plus(one: Place, other: Place) -> Place {
    [one[0] + other[0], one[1] + other[1], one[2] + other[2]]
}

pub fn less(one: Place, other: Place) -> Place {
    [one[0] - other[0], one[1] - other[1], one[2] - other[2]]
}

pub fn times(one: Place, by: f64) -> Place {
    one.map(|number| number * by)
}

pub fn dot(one: Place, other: Place) -> f64 {
    one[0] * other[0] + one[1] * other[1] + one[2] * other[2]
}

pub fn cross(one: Place, other: Place) -> Place {
    let part = |a: usize, b: usize| one[a] * other[b] - one[b] * other[a];
    [part(1, 2), part(2, 0), part(0, 1)]
}

pub fn length(of: Place) -> f64 {
    dot(of, of).sqrt()
}

/// The same direction with length 1, if there is one.
pub fn unit(of: Place) -> Option<Place> {
    let length = length(of);
    (length > 0.0 && length.is_finite()).then(|| of.map(|number| number / length))
}

/// Six times the volume of a tetrahedron, positive where the second to fourth corner
/// are right-handed as seen from the first.
pub fn six_volumes([u, v, w, z]: [Place; 4]) -> f64 {
    dot(less(v, u), cross(less(w, u), less(z, u)))
}

/// The place of a node in a list of three numbers for each.
pub fn node(nodes: &[f64], node: u16) -> Place {
    let from = 3 * usize::from(node);
    [nodes[from], nodes[from + 1], nodes[from + 2]]
}

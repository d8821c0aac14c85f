//! What pictures show: for each pixel the fragment of the surface that is seen there.
//!
//! The eye is at 0 0 0 and looks along −z, y is up. The sphere has radius 1 around 0 0 −4. The plane leans back under it and touches it:
//! its normal is 0 0.6 0.8. Lights stand in the same space.

use crate::bodies::FRAGMENT_WORDS;

pub type Fragment = [u32; FRAGMENT_WORDS];
type Vector = [f64; 3];

#[derive(Clone, Copy, Debug, PartialEq, Eq)]
pub enum Shape {
    Sphere,
    Plane,
    /// The sphere before the plane.
    Both,
}

impl Shape {
    pub fn of(name: &str) -> Option<Shape> {
        [("sphere", Shape::Sphere), ("plane", Shape::Plane), ("both", Shape::Both)].into_iter().find(|(known, _)| *known == name).map(|(_, s)| s)
    }

    /// How far to the side the picture reaches at distance 1.
    fn reach(self) -> f64 {
        match self {
            Shape::Sphere => 0.3,
            _ => 0.5,
        }
    }
}

const CENTRE: Vector = [0.0, 0.0, -4.0];
const SLOPE: Vector = [0.0, 0.6, 0.8];
/// The plane's points have this dot product with its normal.
const LEVEL: f64 = -4.2;

fn dot(a: Vector, b: Vector) -> f64 {
    a[0] * b[0] + a[1] * b[1] + a[2] * b[2]
}

/// A place on a surface: its point, its normal, and its coordinates on the textures.
struct Place {
    point: Vector,
    normal: Vector,
    texture: [f64; 2],
}

/// Where a ray from the eye meets the sphere.
fn sphere(ray: Vector) -> Option<Place> {
    let (along, size) = (dot(ray, CENTRE), dot(ray, ray));
    let under = along * along - size * (dot(CENTRE, CENTRE) - 1.0);
    if under < 0.0 {
        return None;
    }
    let point = ray.map(|c| c * ((along - under.sqrt()) / size));
    let normal: Vector = std::array::from_fn(|i| point[i] - CENTRE[i]);
    // seen from the far pole: there the textures lie as the quaternion turns them
    let texture = [normal[0] / (1.0 + normal[2]), normal[1] / (1.0 + normal[2])];
    Some(Place { point, normal, texture })
}

fn plane(ray: Vector) -> Place {
    let point = ray.map(|c| c * (LEVEL / dot(ray, SLOPE)));
    // the plane's own axes are x and 0 0.8 −0.6
    let texture = [point[0] / 2.0, (0.8 * point[1] - 0.6 * (point[2] - CENTRE[2])) / 2.0];
    Place { point, normal: SLOPE, texture }
}

fn smooth(from: f64, to: f64, x: f64) -> f64 {
    let t = ((x - from) / (to - from)).clamp(0.0, 1.0);
    t * t * (3.0 - 2.0 * t)
}

/// A place in its cell of a grid, −1 to 1 each way.
fn cell([s, t]: [f64; 2], cells: f64) -> [f64; 2] {
    [s, t].map(|c| {
        let c = c * cells;
        2.0 * (c - c.floor()) - 1.0
    })
}

/// What the four texture units hold.
fn texels(texture: [f64; 2]) -> [[f64; 4]; 4] {
    // round studs, as normals
    let [a, b] = cell(texture, 3.5);
    let from_middle = a * a + b * b;
    let lean = if from_middle < 0.72 { 0.8 } else { 0.0 };
    let studs = [a * lean, b * lean, (1.0 - from_middle * lean * lean).max(0.0).sqrt()].map(|c| (c + 1.0) / 2.0);
    // the light through a window: 1 in it, dark behind its bars
    let [a, b] = cell(texture, 1.5);
    let window = 1.0 - 0.85 * smooth(0.70, 0.86, a.abs().max(b.abs()));
    // brushed in circles, as tangents
    let [s, t] = texture;
    let from_middle = (s * s + t * t).sqrt();
    let brushed = if from_middle > 0.0 { [-t / from_middle, s / from_middle] } else { [1.0, 0.0] }.map(|c| (c + 1.0) / 2.0);
    [[studs[0], studs[1], studs[2], 1.0], [window; 4], [brushed[0], brushed[1], 0.5, 1.0], [1.0; 4]]
}

fn fragment(place: &Place) -> Fragment {
    // the shortest turn from 0 0 1 to the normal; the unit brings its length to 1
    let [x, y, z] = place.normal;
    let quaternion = [-y, x, 0.0, 1.0 + z];
    let view = place.point.map(|c| 0.0 - c);
    let numbers = quaternion.into_iter().chain(view).chain(texels(place.texture).into_iter().flatten());
    let mut words = [0; FRAGMENT_WORDS];
    words.iter_mut().zip(numbers).for_each(|(word, number)| *word = (number as f32).to_bits());
    words
}

/// The fragments of a picture, row by row from the top; none where nothing is seen.
pub fn fragments(shape: Shape, size: usize) -> Vec<Option<Fragment>> {
    let side = |at: usize| shape.reach() * ((2 * at + 1) as f64 / size as f64 - 1.0);
    let seen = |at: usize| {
        let ray = [side(at % size), -side(at / size), -1.0];
        match shape {
            Shape::Sphere => sphere(ray),
            Shape::Plane => Some(plane(ray)),
            Shape::Both => sphere(ray).or_else(|| Some(plane(ray))),
        }
    };
    (0..size * size).map(|at| seen(at).map(|place| fragment(&place))).collect()
}

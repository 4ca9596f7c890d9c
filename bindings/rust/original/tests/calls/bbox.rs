//! Boxes in degrees.
use noripliers as ours;
use utiles_core as rust;

use super::random::Random;

pub fn compare(random: &mut Random) {
    let (a, b) = (sides(random), sides(random));
    let (bbox, rust_bbox) = (ours::BBox::from(a), rust::BBox::from(a));
    let (other, rust_other) = (ours::BBox::from(b), rust::BBox::from(b));
    assert_eq!(
        bbox.crosses_antimeridian(),
        rust_bbox.crosses_antimeridian()
    );
    assert_eq!(bbox.is_antimeridian(), rust_bbox.is_antimeridian());
    assert_eq!(
        bbox.contains_bbox(&other),
        rust_bbox.contains_bbox(&rust_other)
    );
    assert_eq!(bbox.is_within(&other), rust_bbox.is_within(&rust_other));
    assert_eq!(bbox.intersects(&other), rust_bbox.intersects(&rust_other));
    let place = (degree(random), degree(random));
    let inside = bbox.contains_lnglat(&ours::LngLat::from(place));
    assert_eq!(
        inside,
        rust_bbox.contains_lnglat(&rust::LngLat::from(place))
    );
    let bits = |(w, s, e, n): (f64, f64, f64, f64)| [w, s, e, n].map(f64::to_bits);
    let parts: Vec<_> = bbox
        .bboxes()
        .into_iter()
        .map(|part| bits(part.into()))
        .collect();
    assert_eq!(
        parts,
        rust_bbox
            .bboxes()
            .into_iter()
            .map(|part| bits(part.into()))
            .collect::<Vec<_>>()
    );
}

fn sides(random: &mut Random) -> (f64, f64, f64, f64) {
    (
        degree(random),
        degree(random),
        degree(random),
        degree(random),
    )
}

fn degree(random: &mut Random) -> f64 {
    let any = random.below(400) as f64 - 200.0;
    random.pick(&[
        f64::NAN,
        f64::INFINITY,
        -0.0,
        0.0,
        180.0,
        -180.0,
        any,
        any,
        any,
        10.0,
        -10.0,
    ])
}

//! Boxes of tiles.
use noripliers as ours;
use utiles_core as rust;
use utiles_core::tile_zbox::TileZBoxes;

use super::random::Random;
use super::{COMPARED, tiles};

type Numbers = (u32, u32, u32, u32, u8);

pub fn compare(random: &mut Random) {
    let (a, b) = (numbers(random), numbers(random));
    let ((zbox, rust_zbox), (other, rust_other)) = (boxes(a), boxes(b));
    measured(&zbox, &rust_zbox);
    let (x, y, z) = random.tile();
    for (tile, rust_tile) in [
        tiles((x, y, z)),
        tiles((a.0, a.2, a.4)),
        tiles((a.1, a.3, a.4)),
    ] {
        assert_eq!(
            zbox.contains_tile(&tile),
            rust_zbox.contains_tile(&rust_tile)
        );
    }
    if a.4 < COMPARED {
        same(&zbox.zoom_in().unwrap(), &rust_zbox.zoom_in());
        let depth = random.below(u64::from(COMPARED - a.4) + 1) as u8;
        same(
            &zbox.zoom_depth(depth).unwrap(),
            &rust_zbox.zoom_depth(depth),
        );
    }
    let walk = |tiles: &mut dyn Iterator<Item = (u32, u32, u8)>| tiles.take(50).collect::<Vec<_>>();
    assert_eq!(
        walk(&mut zbox.into_iter().map(Into::into)),
        walk(&mut rust_zbox.into_iter())
    );
    let both = ours::TileZBoxes::try_from(vec![zbox, other]).unwrap();
    let rust_both = TileZBoxes::from(vec![rust_zbox, rust_other]);
    assert_eq!(both.length(), rust_both.length());
    for (zbox, rust_zbox) in both.flipy().ranges().iter().zip(&rust_both.flipy().ranges) {
        same(zbox, rust_zbox);
    }
    assert_eq!(
        walk(&mut both.into_iter().map(Into::into)),
        walk(&mut rust_both.into_iter())
    );
    spanned(random);
}

/// Few enough tiles for the original, which counts them in 32 bits.
fn numbers(random: &mut Random) -> Numbers {
    let (x, y, z) = random.tile();
    let last = (1u32 << z) - 1;
    (
        x,
        last.min(x + random.below(9) as u32),
        y,
        last.min(y + random.below(4) as u32),
        z,
    )
}

fn boxes((minx, maxx, miny, maxy, zoom): Numbers) -> (ours::TileZBox, rust::TileZBox) {
    let zbox = ours::TileZBox::new(minx, maxx, miny, maxy, zoom).expect("a box of the map");
    (zbox, rust::TileZBox::new(minx, maxx, miny, maxy, zoom))
}

fn same(zbox: &ours::TileZBox, rust: &rust::TileZBox) {
    let numbers = (
        zbox.minx(),
        zbox.maxx(),
        zbox.miny(),
        zbox.maxy(),
        zbox.zoom(),
    );
    assert_eq!(
        numbers,
        (
            rust.minx(),
            rust.maxx(),
            rust.miny(),
            rust.maxy(),
            rust.zoom()
        )
    );
}

fn measured(zbox: &ours::TileZBox, rust: &rust::TileZBox) {
    same(zbox, rust);
    same(&zbox.flipy(), &rust.flipy());
    assert_eq!((zbox.length(), zbox.size()), (rust.length(), rust.size()));
    assert_eq!(
        (zbox.dx(), zbox.dy(), zbox.dxdy()),
        (rust.dx(), rust.dy(), rust.dxdy())
    );
    assert_eq!(
        (zbox.width(), zbox.height(), zbox.dimensions()),
        (rust.width(), rust.height(), rust.dimensions())
    );
    assert_eq!(zbox.into_iter().size_hint(), rust.into_iter().size_hint());
}

fn spanned(random: &mut Random) {
    let z = random.zoom();
    let zooms = if random.below(4) == 0 {
        vec![z, 0]
    } else {
        vec![z]
    };
    let place = |random: &mut Random| {
        let z = random.pick(&zooms);
        tiles(random.tile_of(z))
    };
    let (ours, theirs): (Vec<_>, Vec<_>) = (0..random.below(5)).map(|_| place(random)).unzip();
    match (
        ours::TileZBox::from_tiles(&ours),
        rust::TileZBox::from_tiles(&theirs),
    ) {
        (Ok(zbox), Ok(rust_zbox)) => same(&zbox, &rust_zbox),
        (ours, theirs) => assert_eq!(ours.is_err(), theirs.is_err()),
    }
}

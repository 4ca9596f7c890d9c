//! Tiles, quadkeys and the functions on plain numbers.
use noripliers as ours;
use utiles_core as rust;
use utiles_core::{TileLike, TileParent};

use super::random::Random;
use super::{COMPARED, all_theirs, theirs, tiles};

pub fn compare(random: &mut Random) {
    let xyz = random.tile();
    relatives(random, xyz);
    around(xyz);
    steps(xyz);
    numbers(random, xyz);
    keys(random, xyz);
    let other = random.tile_of(xyz.2);
    let ((a, rust_a), (b, rust_b)) = (tiles(xyz), tiles(other));
    assert_eq!(a.cmp(&b), rust_a.cmp(&rust_b));
    assert_eq!(a.to_string(), rust_a.to_string());
}

fn relatives(random: &mut Random, (x, y, z): (u32, u32, u8)) {
    let (tile, rust_tile) = tiles((x, y, z));
    let n = random.option(u64::from(z) + 1);
    assert_eq!(
        tile.parent(n).ok().map(theirs),
        rust_tile.parent(n),
        "{tile} {n:?}"
    );
    assert_eq!(
        ours::parent(x, y, z, n).ok().map(theirs),
        rust::parent(x, y, z, n),
        "{tile} {n:?}"
    );
    assert_eq!(
        tile.parent_with_digits(n)
            .ok()
            .map(|(ancestor, digits)| ancestor.quadkey() + &digits),
        rust_tile.parent(n).map(|_| rust_tile.quadkey()),
        "{tile} {n:?}"
    );
    assert_eq!(
        all_theirs(tile.iter_parents().collect()),
        rust_tile.iter_parents().collect::<Vec<_>>()
    );
    let depth = random.below(4) as u8;
    let above = random.below(u64::from(z) + 1) as u8;
    let zoom = random.pick(&[None, Some(z + depth), Some(above)]);
    if zoom.unwrap_or(z + 1) <= COMPARED {
        assert_eq!(
            tile.children(zoom).map(all_theirs),
            Ok(rust_tile.children(zoom)),
            "{tile} {zoom:?}"
        );
        assert_eq!(
            tile.children_zorder(zoom).map(all_theirs),
            Ok(rust_tile.children_zorder(zoom))
        );
    }
    if z < COMPARED {
        assert_eq!(
            tile.children1().map(|four| four.map(theirs)),
            Ok(rust_tile.children1())
        );
        let depth = random.pick(&[None, Some(0), Some(COMPARED - z)]);
        let (zbox, rust_zbox) = (
            tile.children_zbox(depth).unwrap(),
            rust_tile.children_zbox(depth),
        );
        assert_eq!(
            (zbox.minx(), zbox.maxy(), zbox.z()),
            (rust_zbox.minx(), rust_zbox.maxy(), rust_zbox.z())
        );
    }
}

fn around((x, y, z): (u32, u32, u8)) {
    let (tile, rust_tile) = tiles((x, y, z));
    assert_eq!(all_theirs(tile.neighbors(true)), rust_tile.neighbors(true));
    let last = (1 << z) - 1;
    if z < 2 || (x < last && y < last) {
        assert_eq!(
            all_theirs(tile.neighbors(false)),
            rust_tile.neighbors(false)
        );
    }
    if z > 0 {
        assert_eq!(tile.siblings().map(all_theirs), Ok(rust_tile.siblings()));
    }
}

fn steps(xyz: (u32, u32, u8)) {
    let (tile, rust_tile) = tiles(xyz);
    let last = (1 << xyz.2) - 1;
    assert_eq!(theirs(tile.flip()), rust_tile.flip());
    assert_eq!(
        (tile.flipy(), tile.yup()),
        (rust_tile.flipy(), rust_tile.yup())
    );
    if (1..last).contains(&xyz.0) && (1..last).contains(&xyz.1) {
        let ours =
            [tile.up(), tile.down(), tile.left(), tile.right()].map(|to| theirs(to.unwrap()));
        assert_eq!(
            ours,
            [
                rust_tile.up(),
                rust_tile.down(),
                rust_tile.left(),
                rust_tile.right()
            ]
        );
        let ours = [
            tile.up_left(),
            tile.up_right(),
            tile.down_left(),
            tile.down_right(),
        ]
        .map(|to| theirs(to.unwrap()));
        let theirs = [
            rust_tile.up_left(),
            rust_tile.up_right(),
            rust_tile.down_left(),
            rust_tile.down_right(),
        ];
        assert_eq!(ours, theirs);
    }
}

fn numbers(random: &mut Random, (x, y, z): (u32, u32, u8)) {
    let (tile, rust_tile) = tiles((x, y, z));
    assert_eq!(ours::to_id(x, y, z), Ok(rust::to_id(x, y, z)));
    assert_eq!(
        ours::from_id(rust::to_id(x, y, z)).map(theirs),
        Ok(rust_tile)
    );
    assert_eq!(tile.rmid(), rust_tile.rmid());
    assert_eq!(ours::rmid2xyz(tile.rmid()), Ok(rust::rmid2xyz(tile.rmid())));
    assert_eq!(
        ours::int_2_offset_zoom(tile.rmid()),
        Ok(rust::int_2_offset_zoom(tile.rmid()))
    );
    assert_eq!(ours::minmax(z), Ok(rust::minmax(z)));
    assert_eq!(ours::valid(x + 1, y, z), rust::valid(x + 1, y, z));
    let corners = (x, y, x ^ 1 << random.below(32), y);
    assert_eq!(ours::bbox2zoom(corners), rust::bbox2zoom(corners));
    let relation = ours::SiblingRelationship::from(tile) as u8;
    assert_eq!(
        relation,
        rust::sibling_relationship::SiblingRelationship::from(rust_tile) as u8
    );
}

fn keys(random: &mut Random, (x, y, z): (u32, u32, u8)) {
    let (tile, rust_tile) = tiles((x, y, z));
    assert_eq!(tile.quadkey(), rust_tile.quadkey());
    assert_eq!(
        ours::xyz2quadkey_vec(x, y, z),
        Ok(rust::xyz2quadkey_vec(x, y, z))
    );
    let character = |random: &mut Random| {
        random.pick(&['0', '1', '2', '3', '0', '1', '2', '3', '4', '/', 'é', '字'])
    };
    let text: String = (0..random.below(12)).map(|_| character(random)).collect();
    // With one digit more a key is none in the original only, with two more it is none here either.
    let compared = usize::from(COMPARED);
    let digits = match random.below(32) as usize {
        more if more > compared => compared + 2,
        digits => digits,
    };
    for key in [tile.quadkey(), text, "3".repeat(digits)] {
        assert_eq!(
            ours::quadkey2xyz(&key).ok(),
            rust::quadkey2xyz(&key).ok(),
            "{key}"
        );
        assert_eq!(
            ours::Tile::from_qk(&key).ok().map(theirs),
            rust::Tile::from_qk(&key).ok(),
            "{key}"
        );
        assert_eq!(ours::is_quadkey(&key), rust::is_quadkey(&key), "{key}");
        assert_eq!(
            ours::QuadkeyRef::new(&key).map(|k| k.to_xyz()),
            rust::QuadkeyRef::new(&key).map(|k| k.to_xyz())
        );
        if key.len() <= compared {
            assert_eq!(
                ours::quadkey_flipy(&key).unwrap_or_default(),
                rust::quadkey_flipy(&key),
                "{key}"
            );
        }
        prefixes(&key);
    }
}

/// The reader before the first byte and after each. The original asks for text, which a part of a
/// character is not.
fn prefixes(key: &str) {
    let mut reader = ours::KeyReader::new();
    for n in 0..=key.len().min(COMPARED.into()) {
        if let Some(prefix) = key.get(..n) {
            assert_eq!(
                reader.tile().ok().map(Into::into),
                rust::quadkey2xyz(prefix).ok(),
                "{prefix}"
            );
        }
        reader.extend(key.as_bytes().get(n));
    }
}

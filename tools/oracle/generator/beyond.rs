//! Prints what the Rust does just beyond the zooms and limits on which it is held, and just beyond ours, for docs/DIFFERENCES.md. Nothing
//! of it goes into the lists.
use std::fmt::Debug;

use utiles_core::tile_zbox::{TileZBox, TileZBoxes};
use utiles_core::zoom::{ZoomRange, ZoomSet, zoom_max_xy, zset2zvec, zset2zvec_rev, zvec2zset, zvec2zset_rev};
use utiles_core::*;

use crate::paper::{RMID_END, first_of};
use crate::record::caught;

fn show<T: Debug>(call: &str, run: impl FnOnce() -> T) {
    match caught(run) {
        Ok(answer) => println!("    {call} = {answer:?}"),
        Err(why) => {
            let text = why.downcast_ref::<String>().cloned();
            let text = text.or(why.downcast_ref::<&str>().map(|text| text.to_string()));
            println!("    {call} stops: {}", text.unwrap_or_default());
        }
    }
}

// Shows a call under its own text.
macro_rules! show {
    ($($call:expr;)*) => { $(show(&stringify!($call).split_whitespace().collect::<Vec<_>>().join(" "), || $call);)* };
}

pub fn print() {
    println!("the Rust beyond the domain on which it is held:");
    tiles();
    keys();
    relatives();
    numbers();
    boxes();
    zooms();
}

fn tiles() {
    show! {
        Tile::try_new(1, 0, 0);
        Tile::try_new(0, 0, 30);
        Tile::try_new(0, 0, 31);
        Tile::try_new(0, 0, 32);
        Tile::new(0, 0, 0).up();
        Tile::new(0, 0, 0).down();
        Tile::new(0, 0, 1).up();
        Tile::new(0, 0, 1).right();
        Tile::new_unchecked(0, 1, 0).flip();
        minmax(31);
        minmax(32);
        zoom_max_xy(32);
        valid(0, 0, 31);
        valid(0, 0, 32);
        flipy(1, 0);
    }
}

fn keys() {
    show! {
        xyz2quadkey(2, 0, 1);
        quadkey_flipy("4");
        quadkey_flipy("0x");
        quadkey_flipy(&"0".repeat(30));
        quadkey_flipy(&"0".repeat(31));
        quadkey2xyz(&"0".repeat(30));
        quadkey2xyz(&"4".repeat(30));
        is_quadkey(&"0".repeat(30));
        quadkey2xyz("4");
    }
}

fn relatives() {
    show! {
        parent(0, 0, 0, Some(0));
        parent(0, 0, 0, Some(1));
        parent(0, 0, 1, Some(1));
        parent(0, 0, 1, Some(2));
        children(0, 0, 29, None).len();
        children(0, 0, 29, None)[0];
        children(0, 0, 30, None)[0];
        siblings(0, 0, 0);
        neighbors(0, 3, 2);
        neighbors(3, 0, 2);
        neighbors(1, 3, 2);
        neighbors(3, 1, 2);
        neighbors(3, 3, 2);
        neighbors_wrap_x(0, 0, 1);
        neighbors_wrap_x(2, 0, 1);
    }
}

// The last two stand at (4^32 - 1) / 3, where the Rust's sum passes 64 bits.
fn numbers() {
    show! {
        to_id(1, 0, 0);
        to_id(0, 0, 30);
        to_id((1 << 30) - 1, (1 << 30) - 1, 30);
        from_id(30);
        from_id(32);
        from_id(1 << 38);
        from_id(u64::MAX);
        xyz2rmid(1, 0, 0);
        xyz2rmid(0, 0, 32);
        xyz2rmid((1 << 30) - 1, (1 << 30) - 1, 30);
        rmid2xyz(first_of(30));
        rmid2xyz(RMID_END);
        int_2_offset_zoom(first_of(30));
        int_2_offset_zoom(RMID_END);
        int_2_offset_zoom(6_148_914_691_236_517_204);
        int_2_offset_zoom(6_148_914_691_236_517_205);
    }
}

fn boxes() {
    let whole = |z: u8| TileZBox::new(0, (1 << z) - 1, 0, (1 << z) - 1, z);
    let after_one = |area: TileZBox| {
        let mut tiles = area.into_iter();
        tiles.next();
        tiles
    };
    show! {
        whole(15).length();
        TileZBox::new(0, 65535, 0, 65534, 16).length();
        whole(16).length();
        whole(16).into_iter().size_hint();
        after_one(TileZBox::new(0, 1, 0, 0, 1)).size_hint();
        TileZBox::new(1, 0, 0, 0, 0).length();
        TileZBox::new(1, 0, 0, 0, 0).into_iter().next();
        TileZBox::new(1, 0, 0, 0, 0);
        whole(0).contains_tile(&Tile::new_unchecked(1, 0, 0));
        TileZBox::new(0, 1, 0, 0, 0).contains_tile(&Tile::new_unchecked(1, 0, 0));
        TileZBoxes::from(vec![whole(0); 9]).length();
        TileZBox::new(0, 1, 0, 1, 0).flipy();
        TileZBox::new(0, 0, 0, 0, 29).zoom_in();
        TileZBox::new(0, 0, 0, 0, 30).zoom_in();
        TileZBox::new(0, 0, 0, 0, 1).zoom_depth(255);
        TileZBox::from_tiles(&[Tile::new(0, 0, 0); 65_537]);
        TileZBox::from_tiles(&[]);
        TileZBox::from_tiles(&[Tile::new(0, 0, 0), Tile::new(0, 0, 1)]);
    }
}

fn zooms() {
    show! {
        zset2zvec(1 << 31);
        zset2zvec(1 << 31 | 1 << 30);
        zset2zvec_rev(1);
        zset2zvec_rev(1 << 31);
        zvec2zset_rev(&[0]);
        zset2zvec_rev(zvec2zset_rev(&[0]));
        zset2zvec_rev(zvec2zset_rev(&[1]));
        zset2zvec(zvec2zset_rev(&[0, 1]));
        zvec2zset(&[0; 65_537]);
        zvec2zset(&[31]);
        zvec2zset(&[32]);
        zvec2zset_rev(&[31]);
        zvec2zset_rev(&[32]);
        ZoomSet::from(31u8);
        ZoomSet::from(ZoomRange::new(0, 31));
        ZoomSet::new(0b1).zoom_ranges();
        ZoomSet::new(0b11).zoom_ranges();
        ZoomSet::new(0b1111).zoom_ranges();
        ZoomSet::new(0b10111).zoom_ranges();
        ZoomSet::new(1 << 29).zoom_ranges();
        ZoomSet::new(1 << 30).zoom_ranges();
        ZoomSet::new(3 << 29).zoom_ranges();
        ZoomSet::new(1) & 0u8;
        ZoomSet::new(1) & 31u8;
        ZoomSet::new(1) & 32u8;
    }
}

//! The first use that the front page shows.
use noripliers::{Area, Error, Tile};

fn main() -> Result<(), Error> {
    let island = Area::from_quadkeys(["0"])?;
    let lake = Area::from_quadkeys(["012"])?;
    let land = island.difference(&lake)?;
    println!("{}", land.quadkeys().join(" ")); // prints 00 02 03 010 011 013

    if let Err(error) = Tile::new(2, 0, 1) {
        println!("{error}"); // prints x or y is off the map: both are below 2^z (refusal 2)
    }
    Ok(())
}

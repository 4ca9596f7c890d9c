//! `subtract PLAN LAKE` prints the quadkeys of one area file without another's, one a line, in
//! list order. An area file has a quadkey on each line, in any order; `-` is the root's.
use noripliers::{Area, Tile};
use std::{env, fs, process};

fn read_area(path: &str) -> Result<Area, String> {
    let text = fs::read(path).map_err(|error| format!("{path}: {error}"))?;
    let mut tiles = Vec::new();
    for (line, key) in (1..).zip(text.split(|&byte| byte == b'\n')) {
        let tile = match key {
            b"" => continue,
            b"-" => Ok(Tile::root()),
            key => Tile::from_quadkey(key),
        };
        tiles.push(tile.map_err(|error| format!("{path}:{line}: {error}"))?);
    }
    Area::settle(&tiles).map_err(|error| format!("{path}: {error}"))
}

fn subtract(words: &[String]) -> Result<Area, String> {
    let [_, plan, lake] = words else {
        return Err("usage: subtract PLAN LAKE".to_owned());
    };
    let (plan, lake) = (read_area(plan)?, read_area(lake)?);
    plan.difference(&lake).map_err(|error| error.to_string())
}

fn main() {
    let left = subtract(&env::args().collect::<Vec<_>>()).unwrap_or_else(|message| {
        eprintln!("{message}");
        process::exit(1)
    });
    for key in left.quadkeys() {
        println!("{}", if key.is_empty() { "-" } else { &key });
    }
}

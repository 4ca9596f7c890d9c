//! Writes the lists of calls and answers, one of all modules of the port, one of builds and one of keys fed byte by byte, and what their
//! replays print, into the folder that is named.
mod bbox;
mod beyond;
mod builds;
mod floor;
mod fns;
mod key_reader;
mod lists;
mod merge;
mod paper;
mod parent;
mod places;
mod quadkey;
mod record;
mod sample;
mod sibling_relationship;
mod tile;
mod tile_zbox;
mod window;
mod words;
mod zoom;

use record::List;

const MODULES: [(&str, fn(&mut List)); 9] = [
    ("sibling_relationship", sibling_relationship::write),
    ("tile", tile::write),
    ("quadkey", quadkey::write),
    ("fns", fns::write),
    ("parent", parent::write),
    ("tile_zbox", tile_zbox::write),
    ("zoom", zoom::write),
    ("bbox", bbox::write),
    ("merge", merge::write),
];

// What has a program of its own, with the name of that.
const ALONE: [(&str, &str, fn(&mut List)); 2] =
    [("builds", "replay_builds", builds::write), ("key_reader", "replay_keys", key_reader::write)];

fn main() {
    let folder = std::env::args().nth(1).expect("usage: generator OUT");
    let mut surprises = Vec::new();
    let (mut calls, mut counts) = (String::new(), String::new());
    for (name, fill) in MODULES {
        let list = filled(name, fill);
        // A name alone begins the calls of a module.
        calls += &format!("{name} =\n{}", list.text());
        counts += &format!("{name}\n{} calls\n", list.calls());
        surprises.extend(list.surprises);
    }
    write(&format!("{folder}/replay_rust"), &calls, &counts);
    for (name, program, fill) in ALONE {
        let list = filled(name, fill);
        write(&format!("{folder}/{program}"), &list.text(), &format!("{} calls\n", list.calls()));
        surprises.extend(list.surprises);
    }
    beyond::print();
    for surprise in &surprises {
        eprintln!("{surprise}");
    }
    if !surprises.is_empty() {
        std::process::exit(1);
    }
}

fn filled(name: &str, fill: fn(&mut List)) -> List {
    let mut list = List::default();
    fill(&mut list);
    println!("{name}: {} bytes, {} calls", list.text().len(), list.calls());
    list.print_counts();
    list
}

// What a replay is given, and what it prints where nothing differs.
fn write(folder: &str, list: &str, printed: &str) {
    std::fs::create_dir_all(folder).expect("the folder can be made");
    std::fs::write(format!("{folder}/stdin"), list).expect("the list can be written");
    std::fs::write(format!("{folder}/stdout"), printed).expect("what is printed can be written");
}

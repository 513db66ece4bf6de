//! The pictures of the documents. Given a folder, it writes layers.svg, the crates layer by layer, and run.svg, one run of the protocol.
//! Both are made from what they show, the list of crates and the reference, and checked against it.
mod layers;
mod panels;
mod places;
mod played;
mod run;
mod svg;

use std::{env, fs, path::Path};

fn main() {
    let folder = env::args().nth(1).expect("a folder");
    let folder = Path::new(&folder);
    fs::write(folder.join("layers.svg"), layers::picture()).unwrap();
    fs::write(folder.join("run.svg"), run::picture()).unwrap();
}

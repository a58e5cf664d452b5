//! Lays out in OUT_DIR what is compiled: the Rust files of the folder that PRIMUS_SRC names, each followed by its file of
//! additions/ if it has one, and a file of stubs/ where there is none of that name.

use std::{
    env, fs,
    path::{Path, PathBuf},
};

fn main() {
    println!("cargo:rerun-if-env-changed=PRIMUS_SRC");
    let folder = env::var("PRIMUS_SRC").expect("PRIMUS_SRC: the folder above crates/primus_distr");
    let rust = Path::new(&folder).join("crates/primus_distr/src");
    let laid_out = Path::new(&env::var("OUT_DIR").unwrap()).join("src");
    let sources = [Path::new("stubs"), &rust, Path::new("additions")];
    for source in sources {
        println!("cargo:rerun-if-changed={}", source.display());
    }
    let mut names: Vec<PathBuf> = sources.iter().flat_map(|source| files(source)).collect();
    names.sort();
    names.dedup();
    for name in names {
        let [stub, unchanged, addition] = sources.map(|source| fs::read_to_string(source.join(&name)).ok());
        let mut text = unchanged.or(stub).expect("an addition is to a file");
        if name == Path::new("lib.rs") {
            text = without_inner_lines(&text);
        }
        let target = laid_out.join(&name);
        fs::create_dir_all(target.parent().unwrap()).unwrap();
        fs::write(target, text + &addition.unwrap_or_default()).unwrap();
    }
}

/// The names of all files in a folder and the folders in it.
fn files(folder: &Path) -> Vec<PathBuf> {
    let mut names = Vec::new();
    for entry in fs::read_dir(folder).unwrap_or_else(|error| panic!("{}: {error}", folder.display())) {
        let path = entry.unwrap().path();
        let name = PathBuf::from(path.file_name().unwrap());
        if path.is_dir() {
            names.extend(files(&path).iter().map(|below| name.join(below)));
        } else {
            names.push(name);
        }
    }
    names
}

/// The root file is compiled by include!, which takes no lint and no documentation of a whole crate.
fn without_inner_lines(text: &str) -> String {
    let inner = |line: &&str| line.starts_with("//!") || line.starts_with("#![");
    text.split_inclusive('\n').filter(|line| !inner(line)).collect()
}

//! Writes the fixed list of texts for the program `residue_report` and what it is to print.
//! Arguments: the program's folder, which gets data/, args, stdin and stdout, and the file of the example, which is its
//! standard input.

use std::{env, fs, path::Path};

use compare::{report_texts, rust_side::print_no_refusals};

/// The program reads no longer text, and the list is kept small.
const LONGEST_TEXT: usize = 2_097_152;
const LONGEST_LIST: usize = 1_500_000;

fn main() {
    let mut arguments = env::args().skip(1);
    let folder = arguments.next().expect("the folder of the program");
    let example_file = arguments.next().expect("the file of the example");
    let data = Path::new(&folder).join("data");
    print_no_refusals();
    fs::create_dir_all(&data).unwrap();
    let example = report_texts::example();
    fs::write(&example_file, &example.bytes).unwrap();
    fs::write(Path::new(&folder).join("stdin"), &example.bytes).unwrap();
    let (mut args, mut stdout, mut size) = ("-\n".to_string(), format!("== -\n{}", example.answer()), 0);
    let texts = report_texts::all();
    for text in &texts {
        let name = format!("{}.txt", text.name);
        assert!(text.bytes.len() <= LONGEST_TEXT, "{name} has {} bytes", text.bytes.len());
        fs::write(data.join(&name), &text.bytes).unwrap();
        args += &format!("{name}\n");
        stdout += &format!("== {name}\n{}", text.answer());
        size += text.bytes.len();
    }
    assert!(size <= LONGEST_LIST, "the list has {size} bytes");
    fs::write(Path::new(&folder).join("args"), args).unwrap();
    fs::write(Path::new(&folder).join("stdout"), stdout).unwrap();
    println!("{} texts, {size} bytes", texts.len());
}

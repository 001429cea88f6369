//! Day files and damaged files for comparison, with what the program prints.

pub mod chance;
pub mod damaged;
pub mod schedule;
pub mod setups;
pub mod shapes;
pub mod special;
pub mod ways_back;
pub mod worked;

use crate::random::Random;
use crate::text::file_text;
use std::path::Path;
use std::{fs, io};

/// One file and the word in its name.
pub struct Case {
    pub kind: &'static str,
    pub file: Vec<u8>,
}

impl Case {
    pub fn new(kind: &'static str, file: Vec<u8>) -> Case {
        Case { kind, file }
    }
}

/// The cases that come first.
pub fn fixed(rng: &mut Random) -> Vec<Case> {
    let mut cases = worked::cases();
    cases.extend(damaged::cases());
    cases.extend(setups::cases());
    cases.extend(shapes::cases(rng));
    cases.extend(special::cases(rng));
    cases.extend(ways_back::cases(rng));
    cases
}

/// The first `count` cases of a seed.
pub fn all(seed: u64, count: usize) -> Vec<Case> {
    let mut rng = Random::new(seed);
    let mut cases = fixed(&mut rng);
    cases.truncate(count);
    while cases.len() < count {
        cases.push(chance::case(&mut rng));
    }
    cases
}

/// Every file after its length in four bytes, low byte first.
pub fn batch_input(cases: &[Case]) -> Vec<u8> {
    let mut input = Vec::new();
    for case in cases {
        input.extend((case.file.len() as u32).to_le_bytes());
        input.extend(&case.file);
    }
    input
}

/// A line `case N` for every file, then what the program prints for it.
pub fn batch_output(cases: &[Case]) -> String {
    let mut output = String::new();
    for (index, case) in cases.iter().enumerate() {
        output.push_str(&format!("case {index}\n"));
        output.push_str(&file_text(&case.file));
    }
    output
}

/// Writes the files and both batch files into the folder.
pub fn write(seed: u64, count: usize, folder: &Path) -> io::Result<()> {
    fs::create_dir_all(folder)?;
    let cases = all(seed, count);
    for (index, case) in cases.iter().enumerate() {
        let name = format!("{index:03}-{}.day", case.kind);
        fs::write(folder.join(name), &case.file)?;
    }
    fs::write(folder.join("batch.in"), batch_input(&cases))?;
    fs::write(folder.join("batch.out"), batch_output(&cases))
}

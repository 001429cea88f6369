//! The command line of the simulator.

use std::ffi::OsString;
use std::io::{self, Read, Write};
use std::path::Path;
use std::process::ExitCode;
use std::{env, fs};

use simulator::{calls, cases, dearest, file_text, morning, rolls, writes};

const USAGE: &str = "usage: simulator run FILE
       simulator cases SEED COUNT DIR
       simulator calls SEED COUNT DIR
       simulator rolls SEED COUNT DIR
       simulator writes SEED COUNT DIR
       simulator dearest DIR
       simulator morning SEED FILE";

enum Failure {
    Usage,
    Io(io::Error),
}

impl From<io::Error> for Failure {
    fn from(error: io::Error) -> Failure {
        Failure::Io(error)
    }
}

fn number<T: std::str::FromStr>(text: &OsString) -> Result<T, Failure> {
    let text = text.to_str().ok_or(Failure::Usage)?;
    text.parse().map_err(|_| Failure::Usage)
}

fn run(file: &OsString) -> Result<(), Failure> {
    let bytes = if file == "-" {
        let mut bytes = Vec::new();
        io::stdin().lock().read_to_end(&mut bytes)?;
        bytes
    } else {
        fs::read(file)?
    };
    let mut out = io::stdout().lock();
    out.write_all(file_text(&bytes).as_bytes())?;
    Ok(out.flush()?)
}

fn command(arguments: &[OsString]) -> Result<(), Failure> {
    let Some((name, rest)) = arguments.split_first() else {
        return Err(Failure::Usage);
    };
    match (name.to_str(), rest) {
        (Some("run"), [file]) => run(file),
        (Some("cases"), [seed, count, folder]) => {
            let (seed, count) = (number(seed)?, number(count)?);
            Ok(cases::write(seed, count, Path::new(folder))?)
        }
        (Some("calls"), [seed, count, folder]) => {
            let (seed, count) = (number(seed)?, number(count)?);
            Ok(calls::write(seed, count, Path::new(folder))?)
        }
        (Some("rolls"), [seed, count, folder]) => {
            let (seed, count) = (number(seed)?, number(count)?);
            Ok(rolls::write(seed, count, Path::new(folder))?)
        }
        (Some("writes"), [seed, count, folder]) => {
            let (seed, count) = (number(seed)?, number(count)?);
            Ok(writes::write(seed, count, Path::new(folder))?)
        }
        (Some("dearest"), [folder]) => Ok(dearest::write(Path::new(folder))?),
        (Some("morning"), [seed, file]) => Ok(fs::write(file, morning::file(number(seed)?))?),
        _ => Err(Failure::Usage),
    }
}

fn main() -> ExitCode {
    let arguments: Vec<OsString> = env::args_os().skip(1).collect();
    match command(&arguments) {
        Ok(()) => ExitCode::SUCCESS,
        Err(Failure::Usage) => {
            eprintln!("{USAGE}");
            ExitCode::from(2)
        }
        Err(Failure::Io(error)) => {
            eprintln!("simulator: {error}");
            ExitCode::from(1)
        }
    }
}

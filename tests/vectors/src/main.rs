//! The vectors of every code: `vectors write DIRECTORY DRIVER... -- LISTER...` makes the texts from
//! the results of the compiled engine and the lines of the compiled lister, `vectors replay DIRECTORY
//! DRIVER...` runs the bytes of texts again.

#![forbid(unsafe_code)]

mod background;
mod bytes;
mod check;
mod choose;
mod code;
mod demand;
mod demands;
mod draft;
mod expected;
mod file;
mod further;
mod listed;
mod meaning;
mod operands;
mod readable;
mod replay;
mod row;
mod setting;
mod shows;
mod told;
mod vector;
mod write;

use compare::driver::Driver;
use compare::engine::Engine;
use compare::tally::ended;
use std::env;
use std::path::Path;
use std::process::ExitCode;

fn main() -> ExitCode {
    let words: Vec<String> = env::args().skip(1).collect();
    let mut commands = words.split(|word| word == "--");
    let first = commands.next().unwrap_or_default();
    let lister = commands.next().unwrap_or_default();
    let tally = match (first, lister) {
        ([what, directory, driver @ ..], lister) if !driver.is_empty() => {
            let engine = Engine::new(driver.to_vec());
            match (what.as_str(), lister) {
                ("write", [_, ..]) => {
                    let lister = Driver::new(lister.to_vec());
                    write::all(Path::new(directory), &engine, &lister)
                }
                ("replay", []) => replay::all(Path::new(directory), &engine),
                _ => Err(USAGE.to_string()),
            }
        }
        _ => Err(USAGE.to_string()),
    };
    ended("vectors", tally)
}

const USAGE: &str = "usage: vectors write DIRECTORY DRIVER... -- LISTER...
       vectors replay DIRECTORY DRIVER...";

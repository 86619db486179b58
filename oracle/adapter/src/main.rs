//! The program `oracle`: one file, a stream of files, or the time a file takes.

use std::env;
use std::fs;
use std::io;
use std::io::BufRead;
use std::io::BufReader;
use std::io::BufWriter;
use std::io::Read;
use std::io::Write;
use std::process::ExitCode;

use starlark::FrozenHeap;

const USAGE: &str = "usage: oracle [--full]            answer the node file on standard input
       oracle --batch [--full]    answer each of a stream of node files
       oracle --time N FILE       nanoseconds of the best of N runs of check_module";

fn main() -> ExitCode {
    let args: Vec<String> = env::args().skip(1).collect();
    let args: Vec<&str> = args.iter().map(String::as_str).collect();
    let done = match args[..] {
        [] => one(false),
        ["--full"] => one(true),
        ["--batch"] => batch(false),
        ["--batch", "--full"] => batch(true),
        ["--time", runs, file] => match runs.parse() {
            Ok(runs) => time(runs, file),
            Err(_) => return usage(),
        },
        _ => return usage(),
    };
    match done {
        Ok(()) => ExitCode::SUCCESS,
        Err(error) => {
            eprintln!("oracle: {error}");
            ExitCode::FAILURE
        }
    }
}

fn usage() -> ExitCode {
    eprintln!("{USAGE}");
    ExitCode::from(2)
}

fn one(full: bool) -> io::Result<()> {
    let mut file = Vec::new();
    io::stdin().read_to_end(&mut file)?;
    io::stdout().write_all(oracle::answer(&FrozenHeap::new(), &file, full).as_bytes())
}

/// Files and texts alike are preceded by their length, 4 bytes, most significant first.
fn batch(full: bool) -> io::Result<()> {
    let heap = FrozenHeap::new();
    let mut input = BufReader::new(io::stdin().lock());
    let mut output = BufWriter::new(io::stdout().lock());
    while !input.fill_buf()?.is_empty() {
        let mut length = [0; 4];
        input.read_exact(&mut length)?;
        let mut file = vec![0; u32::from_be_bytes(length) as usize];
        input.read_exact(&mut file)?;
        let text = oracle::answer(&heap, &file, full);
        let length = u32::try_from(text.len()).expect("a listing is shorter than 4 GiB");
        output.write_all(&length.to_be_bytes())?;
        output.write_all(text.as_bytes())?;
        if input.buffer().is_empty() {
            output.flush()?; // the other side may wait for it before it sends more
        }
    }
    output.flush()
}

fn time(runs: usize, file: &str) -> io::Result<()> {
    match oracle::best_nanoseconds(&fs::read(file)?, runs) {
        Some(nanoseconds) => println!("{nanoseconds}"),
        None => println!("answer ?"),
    }
    Ok(())
}

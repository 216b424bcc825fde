//! The commands. See the README for what they read and write.

use second::casefile::Case;
use second::gen::{
    builds, large, large_builds, large_merges, large_reasons, large_texts, merges, near, reading, reasons,
    small, tables,
};
use second::xml::seen::seen;
use second::{casefile, show, table};
use std::fs::File;
use std::io::{self, BufReader, BufWriter, Read, Write};
use std::path::Path;
use std::process::ExitCode;

const USAGE: &str = "\
usage:
  second table                   table from standard input, answers to standard output
  second cases SEED COUNT        COUNT small cases to standard output
  second large SEED              the large cases to standard output
  second merges SEED COUNT       COUNT small cases of the searches without counts to standard output
  second large-merges SEED       the large cases of the searches without counts to standard output
  second reasons SEED COUNT      COUNT small cases of a node's reason to standard output
  second large-reasons SEED      the large cases of a node's reason to standard output
  second texts SEED COUNT        COUNT small cases of the reader to standard output
  second near-texts              every text next to some small ones, as cases of the reader
  second large-texts SEED        the large cases of the reader to standard output
  second builds SEED COUNT       COUNT small cases of the word dictionary to standard output
  second large-builds SEED       the large cases of the word dictionary to standard output
  second expect FILE             one line for each case of FILE (- is standard input)
  second tables SEED COUNT DIR   COUNT table inputs with expected outputs into DIR
  second show FILE N             case N of FILE, from 0, in readable form
  second plain FILE              the cases of FILE whose text XML judges as the profile does
  second seen FILE               what a parser of XML must see in the texts of such cases
";

/// What can go wrong: the words are not a command, or reading or writing fails.
enum Trouble {
    Usage,
    Io(io::Error),
}

impl From<io::Error> for Trouble {
    fn from(error: io::Error) -> Trouble {
        Trouble::Io(error)
    }
}

fn number(word: &str) -> Result<u64, Trouble> {
    word.parse().map_err(|_| Trouble::Usage)
}

fn sink() -> BufWriter<io::Stdout> {
    BufWriter::new(io::stdout())
}

fn source(file: &str) -> io::Result<Box<dyn Read>> {
    Ok(match file {
        "-" => Box::new(BufReader::new(io::stdin())),
        _ => Box::new(BufReader::new(File::open(file)?)),
    })
}

fn print_table() -> io::Result<()> {
    // One byte past the limit is enough to know that there are too many.
    let mut input = Vec::new();
    io::stdin()
        .take(table::BYTES as u64 + 1)
        .read_to_end(&mut input)?;
    let mut sink = sink();
    sink.write_all(&table::run(&input))?;
    sink.flush()
}

fn write_cases(cases: impl Iterator<Item = Case>) -> io::Result<()> {
    let mut sink = sink();
    for case in cases {
        casefile::write(&mut sink, &case)?;
    }
    sink.flush()
}

/// Does something for each case of a file, with its number.
fn each_case(file: &str, mut each: impl FnMut(usize, Case) -> io::Result<()>) -> io::Result<()> {
    let mut source = source(file)?;
    let mut index = 0;
    while let Some(case) = casefile::read(&mut source)? {
        each(index, case)?;
        index += 1;
    }
    Ok(())
}

fn print_expected(file: &str) -> io::Result<()> {
    let mut sink = sink();
    each_case(file, |index, case| {
        writeln!(sink, "{}", casefile::expected(index, &case))
    })?;
    sink.flush()
}

/// The cases of the reader of which XML itself tells what the profile tells.
fn write_plain(file: &str) -> io::Result<()> {
    let mut sink = sink();
    each_case(file, |_, case| match &case {
        Case::Reading(call) if seen(&call.text).is_some() => casefile::write(&mut sink, &case),
        _ => Ok(()),
    })?;
    sink.flush()
}

fn print_seen(file: &str) -> io::Result<()> {
    let mut sink = sink();
    each_case(file, |index, case| {
        let lines = match &case {
            Case::Reading(call) => casefile::seen_lines(index, &call.text),
            Case::Search(_) | Case::Merging(_) | Case::Reasoning(_) | Case::Building(_) => None,
        };
        let lines = lines.ok_or_else(|| other(format!("case {index} is not plain")))?;
        sink.write_all(lines.as_bytes())
    })?;
    sink.flush()
}

fn write_tables(seed: u64, count: u64, folder: &str) -> io::Result<()> {
    std::fs::create_dir_all(folder)?;
    for input in 0..count {
        let (_, bytes) = tables::table_input(seed, input);
        let name = format!("{:06}", input + 1);
        let path = Path::new(folder).join(name);
        std::fs::write(path.with_extension("csv"), &bytes)?;
        std::fs::write(path.with_extension("out"), table::run(&bytes))?;
    }
    Ok(())
}

fn other(what: String) -> io::Error {
    io::Error::new(io::ErrorKind::Other, what)
}

fn print_case(file: &str, number: u64) -> io::Result<()> {
    let mut source = source(file)?;
    let mut index = 0;
    while let Some(case) = casefile::read(&mut source)? {
        if index == number {
            let mut sink = sink();
            sink.write_all(show::show(&case).as_bytes())?;
            return sink.flush();
        }
        index += 1;
    }
    Err(other(format!("the file has {index} cases only")))
}

fn run(words: &[&str]) -> Result<(), Trouble> {
    match words {
        ["table"] => print_table()?,
        ["cases", seed, count] => {
            let seed = number(seed)?;
            write_cases((0..number(count)?).map(|case| Case::Search(small::small(seed, case).0)))?
        }
        ["large", seed] => {
            let seed = number(seed)?;
            write_cases((0..large::how_many()).map(|case| Case::Search(large::large(seed, case).0)))?
        }
        ["merges", seed, count] => {
            let seed = number(seed)?;
            write_cases((0..number(count)?).map(|case| Case::Merging(merges::small(seed, case).merging)))?
        }
        ["large-merges", seed] => {
            let seed = number(seed)?;
            write_cases(
                (0..large_merges::how_many())
                    .map(|case| Case::Merging(large_merges::large(seed, case).merging)),
            )?
        }
        ["reasons", seed, count] => {
            let seed = number(seed)?;
            write_cases(
                (0..number(count)?).map(|case| Case::Reasoning(reasons::small(seed, case).reasoning)),
            )?
        }
        ["large-reasons", seed] => {
            let seed = number(seed)?;
            write_cases(
                (0..large_reasons::how_many())
                    .map(|case| Case::Reasoning(large_reasons::large(seed, case).0)),
            )?
        }
        ["texts", seed, count] => {
            let seed = number(seed)?;
            write_cases((0..number(count)?).map(|case| Case::Reading(reading::small(seed, case).0)))?
        }
        ["near-texts"] => write_cases(near::calls().map(Case::Reading))?,
        ["large-texts", seed] => {
            let seed = number(seed)?;
            write_cases(
                (0..large_texts::how_many()).map(|case| Case::Reading(large_texts::large(seed, case).0)),
            )?
        }
        ["builds", seed, count] => {
            let seed = number(seed)?;
            write_cases((0..number(count)?).map(|case| Case::Building(builds::small(seed, case).building)))?
        }
        ["large-builds", seed] => {
            let seed = number(seed)?;
            write_cases(
                (0..large_builds::how_many()).map(|case| Case::Building(large_builds::large(seed, case).0)),
            )?
        }
        ["expect", file] => print_expected(file)?,
        ["tables", seed, count, folder] => write_tables(number(seed)?, number(count)?, folder)?,
        ["show", file, case] => print_case(file, number(case)?)?,
        ["plain", file] => write_plain(file)?,
        ["seen", file] => print_seen(file)?,
        _ => return Err(Trouble::Usage),
    }
    Ok(())
}

fn main() -> ExitCode {
    let words: Vec<_> = std::env::args_os().skip(1).collect();
    let words: Vec<_> = words.iter().map(|word| word.to_string_lossy()).collect();
    let words: Vec<&str> = words.iter().map(|word| word.as_ref()).collect();
    match run(&words) {
        Ok(()) => ExitCode::SUCCESS,
        Err(Trouble::Usage) => {
            eprint!("{USAGE}");
            ExitCode::from(2)
        }
        Err(Trouble::Io(error)) => {
            eprintln!("second: {error}");
            ExitCode::from(1)
        }
    }
}

//! The command line of the model.

use std::fs;
use std::io::{self, Read, Write};
use std::path::Path;
use std::process::ExitCode;

use grain_model::bench::Depth;
use grain_model::compare::{Files, Program, compare};
use grain_model::listing::Mode;
use grain_model::{bench, generate, judge};

const HELP: &str = "\
grain-model: a model of the grain market

  grain-model day|books|settle [FILE]
      prints what the program of that name prints for a request file;
      without FILE the request file is read from the input

  grain-model generate SEED
      writes the request file of a seed to the output

  grain-model judge FILE LISTING
      holds a listing of `day` against the rules, and says which law fails
      where

  grain-model judge --count N [--seed S]
      judges the model's own listings for the seeds S to S+N-1

  grain-model compare --program PATH [--argument WORD]... [--mode day|books|settle]
                      [--files requests|bytes] --count N [--seed S]
      for the seeds S to S+N-1 gives the request file to the program on its
      input, and compares what it prints with what the model prints; a
      listing of `day` is judged too. The first difference is printed. Mode
      `day`, files of requests and seed 0 are taken where none is given; files
      of bytes are random bytes. Each WORD is handed to the program as an
      argument. A program that takes more than 20 seconds
      for a file is stopped, and that is a difference.

  grain-model mix deep|crowded PLACES
      writes the request file that a book of so many places is measured with:
      a deep book has orders away from the best prices, a crowded one has all
      within a few pence

  grain-model bench [PROGRAM]
      measures the model, and PROGRAM (target/bin/bench) beside it
";

type Failure = Box<dyn std::error::Error>;
type Done = Result<ExitCode, Failure>;

fn main() -> ExitCode {
    let arguments: Vec<String> = std::env::args().skip(1).collect();
    match run(&arguments) {
        Ok(code) => code,
        Err(failure) => {
            eprintln!("grain-model: {failure}");
            ExitCode::from(2)
        }
    }
}

fn run(arguments: &[String]) -> Done {
    let words: Vec<&str> = arguments.iter().map(String::as_str).collect();
    match words[..] {
        [] | ["help" | "--help" | "-h", ..] => print(HELP.as_bytes()),
        ["generate", seed] => print(&generate::file(number(seed)?)),
        ["judge", file, listing] if !file.starts_with("--") => judge_file(file, listing),
        ["judge", ref options @ ..] => judge_seeds(&Options::read(options)?),
        ["compare", ref options @ ..] => compare_seeds(&Options::read(options)?),
        ["mix", "deep", places] => print_mix(places, Depth::Deep),
        ["mix", "crowded", places] => print_mix(places, Depth::Crowded),
        ["bench"] => measure(None),
        ["bench", path] => measure(Some(path)),
        [name, ref rest @ ..] => match (Mode::from_name(name), rest) {
            (Some(mode), []) => list(mode, None),
            (Some(mode), [path]) => list(mode, Some(path)),
            _ => Err(wrong("this is no command of mine; see grain-model --help")),
        },
    }
}

fn wrong(words: &str) -> Failure {
    words.into()
}

fn number(word: &str) -> Result<u64, Failure> {
    word.parse()
        .map_err(|_| wrong(&format!("'{word}' is not a number")))
}

fn print(bytes: &[u8]) -> Done {
    let mut out = io::stdout().lock();
    out.write_all(bytes)?;
    out.flush()?;
    Ok(ExitCode::SUCCESS)
}

fn list(mode: Mode, path: Option<&str>) -> Done {
    let file = match path {
        Some(path) => read(path)?,
        None => {
            let mut bytes = Vec::new();
            io::stdin().lock().read_to_end(&mut bytes)?;
            bytes
        }
    };
    print(mode.listing(&file).as_bytes())
}

fn read(path: &str) -> Result<Vec<u8>, Failure> {
    fs::read(path).map_err(|failure| wrong(&format!("{path}: {failure}")))
}

fn judge_file(file: &str, listing: &str) -> Done {
    match judge::judge_day(&read(file)?, &read(listing)?) {
        Ok(()) => print(b"no law fails\n"),
        Err(fault) => {
            print(format!("{fault}\n").as_bytes())?;
            Ok(ExitCode::FAILURE)
        }
    }
}

fn judge_seeds(options: &Options) -> Done {
    let seeds = options.seeds()?;
    let count = seeds.end - seeds.start;
    for seed in seeds {
        let file = generate::file(seed);
        let listing = Mode::Day.listing(&file);
        if let Err(fault) = judge::judge_day(&file, listing.as_bytes()) {
            print(format!("seed {seed}\n{listing}{fault}\n").as_bytes())?;
            return Ok(ExitCode::FAILURE);
        }
    }
    print(format!("{count} files, no fault\n").as_bytes())
}

fn compare_seeds(options: &Options) -> Done {
    let seeds = options.seeds()?;
    let count = seeds.end - seeds.start;
    let path = options
        .program
        .as_ref()
        .ok_or_else(|| wrong("compare needs --program"))?;
    let program = Program {
        path: path.into(),
        arguments: options.arguments.clone(),
        mode: options.mode,
        files: options.files,
    };
    let found = compare(&program, seeds).map_err(|failure| wrong(&format!("{path}: {failure}")))?;
    match found {
        None => print(format!("{count} files, no difference\n").as_bytes()),
        Some(difference) => {
            print(difference.to_string().as_bytes())?;
            Ok(ExitCode::FAILURE)
        }
    }
}

fn print_mix(places: &str, depth: Depth) -> Done {
    let places = number(places)?;
    if !(1..=1_024).contains(&places) {
        return Err(wrong("a book has 1 to 1,024 places"));
    }
    print(&bench::mix_file(places as usize, depth))
}

fn measure(program: Option<&str>) -> Done {
    bench::all(program.map(Path::new), |measure| println!("{measure}"))?;
    Ok(ExitCode::SUCCESS)
}

/// What stands after `compare` and `judge`.
struct Options {
    program: Option<String>,
    arguments: Vec<String>,
    mode: Mode,
    files: Files,
    count: Option<u64>,
    seed: u64,
}

impl Options {
    fn read(words: &[&str]) -> Result<Options, Failure> {
        let mut options = Options {
            program: None,
            arguments: Vec::new(),
            mode: Mode::Day,
            files: Files::Requests,
            count: None,
            seed: 0,
        };
        let mut words = words.iter();
        while let Some(&name) = words.next() {
            let value = words
                .next()
                .ok_or_else(|| wrong(&format!("{name} needs a value")))?;
            options.set(name, value)?;
        }
        Ok(options)
    }

    fn set(&mut self, name: &str, value: &str) -> Result<(), Failure> {
        match name {
            "--program" => self.program = Some(value.into()),
            "--argument" => self.arguments.push(value.into()),
            "--mode" => {
                self.mode = Mode::from_name(value)
                    .ok_or_else(|| wrong(&format!("'{value}' is not day, books or settle")))?;
            }
            "--files" => {
                self.files = Files::from_name(value)
                    .ok_or_else(|| wrong(&format!("'{value}' is not requests or bytes")))?;
            }
            "--count" => self.count = Some(number(value)?),
            "--seed" => self.seed = number(value)?,
            _ => return Err(wrong(&format!("there is no option {name}"))),
        }
        Ok(())
    }

    fn seeds(&self) -> Result<std::ops::Range<u64>, Failure> {
        let count = self.count.ok_or_else(|| wrong("--count is missing"))?;
        let end = self.seed.checked_add(count);
        let end = end.ok_or_else(|| wrong("there are not so many seeds"))?;
        Ok(self.seed..end)
    }
}

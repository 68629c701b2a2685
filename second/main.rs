//! A second program for document 01, apart from the library: judges load sheets,
//! answers every question about them, makes sheets, and shows that its own rules hold on small
//! graphs by search. README.md lists the modes.

mod answer;
mod book;
mod brute;
mod calls;
mod cases;
mod counted;
mod fast;
mod kinds;
mod late;
mod literal;
mod maker;
mod random;
mod whole;
mod wrong;

use answer::Verdict;
use book::Progress;
use late::Looks;
use literal::Form;
use random::Random;
use std::collections::BTreeMap;
use std::io::{Read, Write};
use std::process::ExitCode;

type Outcome = Result<(), String>;

fn main() -> ExitCode {
    let arguments: Vec<String> = std::env::args().skip(1).collect();
    let words: Vec<&str> = arguments.iter().map(String::as_str).collect();
    match run(&words) {
        Ok(()) => ExitCode::SUCCESS,
        Err(message) => {
            eprintln!("{message}");
            ExitCode::FAILURE
        }
    }
}

fn run(words: &[&str]) -> Outcome {
    match words {
        ["line"] => line(),
        ["lines", file] => lines(file),
        ["all"] => all(),
        ["cases", seed, count] => cases::run(number(seed)?, number(count)? as usize),
        ["make", seed, count, file] => make(seed, count, file, None),
        ["make", seed, count, file, examples] => make(seed, count, file, Some(examples)),
        ["kind", kind, seed, count, file] => kind_of_book(kind, seed, count, file),
        ["vary", seed, count, file, more] => vary(seed, count, file, more),
        ["brute", seed, count] => brute::run(number(seed)?, number(count)? as usize),
        ["compare", seed, count] => compare(seed, count),
        ["wrong", number, file] => wrong_copies(number, file),
        ["time", file, repeat] => time(file, repeat),
        ["count", file] => count(file),
        _ => Err("modes: see README.md".to_string()),
    }
}

fn number(word: &str) -> Result<u64, String> {
    word.parse().map_err(|_| format!("not a number: {word}"))
}

fn read_book(file: &str) -> Result<Vec<Vec<u8>>, String> {
    book::read(file).map_err(|error| format!("{file}: {error}"))
}

fn standard_input() -> Result<Vec<u8>, String> {
    let mut bytes = Vec::new();
    std::io::stdin()
        .read_to_end(&mut bytes)
        .map_err(|error| error.to_string())?;
    Ok(bytes)
}

/// The verdict on both paths, which must agree.
fn judge(sheet: &[u8]) -> Result<Verdict, String> {
    let literal = literal::judge(Form::Sheet(sheet), 0);
    let fast = fast::judge(sheet);
    if literal == fast {
        Ok(literal)
    } else {
        Err(format!(
            "the paths differ: literal {literal}, fast {fast}, sheet {}",
            hex(sheet)
        ))
    }
}

fn hex(bytes: &[u8]) -> String {
    bytes.iter().map(|byte| format!("{byte:02x}")).collect()
}

fn line() -> Outcome {
    println!("{}", judge(&standard_input()?)?);
    Ok(())
}

fn all() -> Outcome {
    let sheet = standard_input()?;
    print!("verdict {}\n{}", judge(&sheet)?, whole::numbers(&sheet));
    Ok(())
}

fn lines(file: &str) -> Outcome {
    let sheets = read_book(file)?;
    let mut progress = Progress::new("lines", sheets.len());
    let mut out = std::io::BufWriter::new(std::io::stdout());
    for (index, sheet) in sheets.iter().enumerate() {
        writeln!(out, "{}", judge(sheet)?).map_err(|error| error.to_string())?;
        progress.at(index + 1);
    }
    out.flush().map_err(|error| error.to_string())
}

fn print_answers(sheets: &[Vec<u8>]) {
    let mut counts = BTreeMap::new();
    for sheet in sheets {
        *counts.entry(fast::judge(sheet).answer).or_insert(0) += 1;
    }
    for (answer, count) in counts {
        println!("answer {answer}: {count}");
    }
    let bytes: usize = sheets.iter().map(Vec::len).sum();
    println!("{} sheets, {bytes} bytes", sheets.len());
}

fn make(seed: &str, count: &str, file: &str, examples: Option<&str>) -> Outcome {
    let mut sheets = Vec::new();
    if let Some(folder) = examples {
        let listed = std::fs::read_dir(folder).map_err(|error| format!("{folder}: {error}"))?;
        let mut paths: Vec<_> = listed
            .filter_map(|entry| entry.ok().map(|entry| entry.path()))
            .collect();
        paths.sort();
        for path in paths
            .iter()
            .filter(|path| path.extension().is_some_and(|kind| kind == "sheet"))
        {
            sheets.push(std::fs::read(path).map_err(|error| error.to_string())?);
        }
    }
    let mut random = Random::new(number(seed)?);
    let count = number(count)? as usize;
    let mut progress = Progress::new("make", count);
    for made in 0..count {
        sheets.push(maker::make(&mut random));
        progress.at(made + 1);
    }
    book::write(file, &sheets).map_err(|error| format!("{file}: {error}"))?;
    print_answers(&sheets);
    Ok(())
}

fn kind_of_book(kind: &str, seed: &str, count: &str, file: &str) -> Outcome {
    let mut random = Random::new(number(seed)?);
    let made: Option<Vec<Vec<u8>>> = (0..number(count)?)
        .map(|_| kinds::make(kind, &mut random))
        .collect();
    let sheets = made.ok_or_else(|| format!("kinds: {}", kinds::NAMES))?;
    book::write(file, &sheets).map_err(|error| format!("{file}: {error}"))?;
    print_answers(&sheets);
    Ok(())
}

fn vary(seed: &str, count: &str, file: &str, more: &str) -> Outcome {
    let mut random = Random::new(number(seed)?);
    let sheets = read_book(file)?;
    if sheets.is_empty() {
        return Err(format!("{file}: no sheets"));
    }
    let varied: Vec<Vec<u8>> = (0..number(count)?)
        .map(|_| kinds::vary(&mut random, &sheets))
        .collect();
    book::write(more, &varied).map_err(|error| format!("{more}: {error}"))?;
    print_answers(&varied);
    Ok(())
}

/// The two paths on made sheets: the verdict in both forms, and every number below it.
fn compare(seed: &str, count: &str) -> Outcome {
    let mut random = Random::new(number(seed)?);
    let count = number(count)? as usize;
    let mut progress = Progress::new("compare", count);
    let mut compared = 0;
    for made in 0..count {
        let sheet = maker::make(&mut random);
        compared += compare_one(&mut random, &sheet)?;
        progress.at(made + 1);
    }
    println!("{count} sheets, {compared} comparisons, none differ");
    Ok(())
}

fn compare_one(random: &mut Random, sheet: &[u8]) -> Result<usize, String> {
    let differ = |what: &str| Err(format!("{what} differs, sheet {}", hex(sheet)));
    judge(sheet)?;
    let mut compared = 1;
    let (judged, prepared) = match (literal::check(Form::Sheet(sheet), 0), fast::prepare(sheet)) {
        (Ok(judged), Ok(prepared)) => (judged, prepared),
        (Err(literal), Err(fast)) if literal == fast => return Ok(compared + 1),
        _ => return differ("refusal"),
    };
    let list = calls::unpacked(&judged.graphs);
    if fast::judge_list(&list) != fast::judge(sheet)
        || literal::judge(Form::List(&list), 0) != fast::judge(sheet)
    {
        return differ("verdict on the list");
    }
    if judged.frame as u64 != prepared.frame || judged.load(0) as u64 != prepared.load {
        return differ("frame or load");
    }
    for (place, numbers) in prepared.numbers.iter().enumerate() {
        let repetition = judged.repetition[place].iter().zip(&numbers.repetition);
        let skips = judged.skips[place].iter().zip(&numbers.skip);
        if !repetition
            .into_iter()
            .all(|(one, other)| *one == i64::from(*other))
            || !skips.into_iter().all(|(one, other)| *one as u64 == *other)
        {
            return differ("repetition or skip");
        }
        compared += 2;
    }
    if prepared.load <= prepared.frame {
        for looks in [0, 1, 4, 20] {
            let length =
                prepared
                    .demand
                    .smallest_late(prepared.frame, prepared.load, Looks::Exactly(looks));
            if length.unwrap_or(0) != judged.verdict(0).length {
                return differ("smallest late length by segments");
            }
            compared += 1;
        }
    }
    for _ in 0..16 {
        let graph = random.pick(&judged.graphs);
        let rise = graph.deadline + graph.period * random.between(0, 20);
        let length = (rise + random.between(-1, 1)).min(10_000_000);
        if judged.demand(length, 0) as u64 != prepared.demand.at(length as u32) {
            return differ("demand");
        }
        compared += 1;
    }
    Ok(compared + 4)
}

/// Judges a book with one deliberate error, or with each of them, and says where it shows.
fn wrong_copies(which: &str, file: &str) -> Outcome {
    let sheets = read_book(file)?;
    let right: Vec<Verdict> = sheets
        .iter()
        .map(|sheet| literal::judge(Form::Sheet(sheet), 0))
        .collect();
    let chosen: Vec<(u32, &str)> = if which == "all" {
        wrong::FAULTS.to_vec()
    } else {
        let which = number(which)?;
        wrong::FAULTS
            .iter()
            .copied()
            .filter(|(fault, _)| u64::from(*fault) == which)
            .collect()
    };
    if chosen.is_empty() {
        return Err(format!("no wrong copy {which}"));
    }
    let mut progress = Progress::new("wrong copies", chosen.len());
    let mut unseen = 0;
    for (index, (fault, words)) in chosen.iter().enumerate() {
        let mut first = None;
        let mut differing = 0;
        for (place, (sheet, right)) in sheets.iter().zip(&right).enumerate() {
            let other = literal::judge(Form::Sheet(sheet), *fault);
            if other != *right {
                differing += 1;
                first = first.or(Some((place, *right, other)));
            }
        }
        match first {
            Some((place, right, other)) => println!(
                "wrong {fault} ({words}): first seen at sheet {place} ({right}; wrong {other}), {differing} differ"
            ),
            None => {
                unseen += 1;
                println!("wrong {fault} ({words}): NOT SEEN");
            }
        }
        progress.at(index + 1);
    }
    println!(
        "{} wrong copies seen, {unseen} not seen, {} sheets",
        chosen.len() - unseen,
        sheets.len()
    );
    if unseen == 0 {
        Ok(())
    } else {
        Err("some wrong copies were not seen".to_string())
    }
}

#[repr(C)]
struct Clock {
    seconds: i64,
    nanoseconds: i64,
}

extern "C" {
    fn clock_gettime(clock: i32, time: *mut Clock) -> i32;
}

/// Processor time of this process.
fn processor_nanoseconds() -> i64 {
    const CLOCK_PROCESS_CPUTIME_ID: i32 = 2;
    let mut time = Clock {
        seconds: 0,
        nanoseconds: 0,
    };
    unsafe { clock_gettime(CLOCK_PROCESS_CPUTIME_ID, &mut time) };
    time.seconds * 1_000_000_000 + time.nanoseconds
}

/// Processor time per sheet on the fast path, over all passes and in the best one: other work on
/// the machine only ever adds to a pass.
fn time(file: &str, repeat: &str) -> Outcome {
    let sheets = read_book(file)?;
    let repeat = number(repeat)?.max(1);
    let judge = |sheet: &Vec<u8>| std::hint::black_box(fast::judge(std::hint::black_box(sheet)));
    let (mut total, mut best) = (0, i64::MAX);
    for _ in 0..repeat {
        let begun = processor_nanoseconds();
        for sheet in &sheets {
            judge(sheet);
        }
        let spent = processor_nanoseconds() - begun;
        total += spent;
        best = best.min(spent);
    }
    let slowest = sheets.iter().enumerate().map(|(index, sheet)| {
        let once = || {
            let begun = processor_nanoseconds();
            judge(sheet);
            processor_nanoseconds() - begun
        };
        (once().min(once()).min(once()), index)
    });
    let slowest = slowest.max().unwrap_or((0, 0));
    let count = sheets.len().max(1) as f64;
    println!(
        "{:.1} processor nanoseconds per sheet, {:.1} in the best of {repeat} passes over {} sheets; slowest sheet {}: {}",
        total as f64 / count / repeat as f64,
        best as f64 / count,
        sheets.len(),
        slowest.1,
        slowest.0
    );
    Ok(())
}

/// Lengths at which the fast path finds demand, and visits of its trial runs, a line a sheet.
fn count(file: &str) -> Outcome {
    if !counted::COUNTS {
        return Err("only a program compiled with --cfg counted counts".to_string());
    }
    for sheet in read_book(file)? {
        counted::since();
        fast::judge(&sheet);
        let (looks, visits) = counted::since();
        println!("{looks} {visits}");
    }
    Ok(())
}

//! The yardstick as a program; see README.md.

use std::io::{self, BufReader, Read, Write};
use std::process::ExitCode;

use yardstick::batch::Record;
use yardstick::kiss_batch::{Job, Task};
use yardstick::listing::listing;
use yardstick::{compile, gen, Lent};

const USAGE: &str = "usage: yardstick list < SOURCE
       yardstick file < SOURCE > TABLE
       yardstick batch < RECORDS
       yardstick gen SEED COUNT > RECORDS
       yardstick gen-procedures SEED COUNT > RECORDS
       yardstick sources DIRECTORY < RECORDS
       yardstick read FILE..
       yardstick kiss < TABLE > TEXT
       yardstick unkiss < TEXT > TABLE
       yardstick kiss-gen SEED TABLES TEXTS > JOBS
       yardstick kiss-batch < JOBS
a record is a line `LEN ROOM WORK BUF`, LEN bytes of source, and one LF
a job is a line `write LEN BUF` or `read LEN BUF`, LEN bytes of file or text, and one LF";

fn main() -> ExitCode {
    let arguments: Vec<String> = std::env::args().skip(1).collect();
    let arguments: Vec<&str> = arguments.iter().map(String::as_str).collect();
    let result = match arguments[..] {
        ["list"] => list(),
        ["file"] => file(),
        ["batch"] => batch(),
        ["sources", directory] => sources(directory),
        ["read", ref files @ ..] => read(files),
        ["kiss"] => one(Task::Write),
        ["unkiss"] => one(Task::Read),
        ["kiss-batch"] => kiss_batch(),
        ["kiss-gen", seed, tables, texts] => match (seed.parse(), tables.parse(), texts.parse()) {
            (Ok(seed), Ok(tables), Ok(texts)) => kiss_generate(seed, tables, texts),
            _ => return usage(),
        },
        ["gen", seed, count] => match (seed.parse(), count.parse()) {
            (Ok(seed), Ok(count)) => generate(gen::records(seed), count),
            _ => return usage(),
        },
        ["gen-procedures", seed, count] => match (seed.parse(), count.parse()) {
            (Ok(seed), Ok(count)) => generate(gen::records_with_procedures(seed), count),
            _ => return usage(),
        },
        _ => return usage(),
    };
    result.unwrap_or_else(|error| {
        eprintln!("yardstick: {error}");
        ExitCode::from(2)
    })
}

fn usage() -> ExitCode {
    eprintln!("{USAGE}");
    ExitCode::from(2)
}

fn source() -> io::Result<Vec<u8>> {
    let mut source = Vec::new();
    io::stdin().read_to_end(&mut source)?;
    Ok(source)
}

fn list() -> io::Result<ExitCode> {
    let answer = match compile(&source()?, Lent::AMPLE) {
        Ok(compiled) => listing(&compiled.program, &compiled.table),
        Err(refusal) => format!("{refusal}\n"),
    };
    io::stdout().write_all(answer.as_bytes())?;
    Ok(ExitCode::SUCCESS)
}

fn file() -> io::Result<ExitCode> {
    match compile(&source()?, Lent::AMPLE) {
        Ok(compiled) => {
            io::stdout().write_all(&compiled.file)?;
            Ok(ExitCode::SUCCESS)
        }
        Err(refusal) => {
            eprintln!("{refusal}");
            Ok(ExitCode::FAILURE)
        }
    }
}

fn batch() -> io::Result<ExitCode> {
    let mut records = BufReader::new(io::stdin().lock());
    let mut answers = io::BufWriter::new(io::stdout().lock());
    while let Some(record) = Record::read(&mut records)? {
        writeln!(answers, "{}", record.answer())?;
    }
    answers.flush()?;
    Ok(ExitCode::SUCCESS)
}

/// Writes each record's source into a file of its own.
fn sources(directory: &str) -> io::Result<ExitCode> {
    let mut records = BufReader::new(io::stdin().lock());
    let mut number = 0;
    while let Some(record) = Record::read(&mut records)? {
        std::fs::write(format!("{directory}/{number:05}"), &record.source)?;
        number += 1;
    }
    Ok(ExitCode::SUCCESS)
}

/// What each file says as a source: `good`, or refused with 3 to 10.
fn read(files: &[&str]) -> io::Result<ExitCode> {
    let mut answers = io::BufWriter::new(io::stdout().lock());
    for file in files {
        match compile(&std::fs::read(file)?, Lent::AMPLE) {
            Err(refusal) if refusal.number <= 10 => writeln!(answers, "{file}: {refusal}")?,
            _ => writeln!(answers, "{file}: good")?,
        }
    }
    answers.flush()?;
    Ok(ExitCode::SUCCESS)
}

fn generate(records: impl Iterator<Item = Record>, count: usize) -> io::Result<ExitCode> {
    let mut written = io::BufWriter::new(io::stdout().lock());
    for record in records.take(count) {
        record.write(&mut written)?;
    }
    written.flush()?;
    Ok(ExitCode::SUCCESS)
}

/// One table file to its text, or one text to its table file.
fn one(task: Task) -> io::Result<ExitCode> {
    match (Job { task, bytes: source()?, buffer: u64::MAX }).done() {
        Ok((_, bytes)) => {
            io::stdout().write_all(&bytes)?;
            Ok(ExitCode::SUCCESS)
        }
        Err(refusal) => {
            eprintln!("{refusal}");
            Ok(ExitCode::FAILURE)
        }
    }
}

fn kiss_batch() -> io::Result<ExitCode> {
    let mut jobs = BufReader::new(io::stdin().lock());
    let mut answers = io::BufWriter::new(io::stdout().lock());
    while let Some(job) = Job::read(&mut jobs)? {
        writeln!(answers, "{}", job.answer())?;
    }
    answers.flush()?;
    Ok(ExitCode::SUCCESS)
}

fn kiss_generate(seed: u64, tables: usize, texts: usize) -> io::Result<ExitCode> {
    let mut jobs = io::BufWriter::new(io::stdout().lock());
    for job in gen::kiss::jobs(seed, tables, texts) {
        job.write(&mut jobs)?;
    }
    jobs.flush()?;
    Ok(ExitCode::SUCCESS)
}

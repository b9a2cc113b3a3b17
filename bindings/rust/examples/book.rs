//! The address book of `library/book.c` in Rust: the same file, the same words, the same answers.

use std::process::ExitCode;
use takhvoi::{assemble, Error, Kernel, Locked, Name, Result, Sizes};

const REGION: u32 = 1 << 20;
const USER_ID: u16 = 1;
/// The chunk that has the array: the first one of a new block.
const ENTRIES: u16 = 16;

fn open_book(path: &str) -> Result<Kernel> {
    match Kernel::open(path, REGION) {
        Err(Error::NoFile) => {}
        other => return other,
    }
    let mut kernel = Kernel::create(path, Sizes::default())?;
    let mut block = kernel.make_file_block(USER_ID)?;
    block.mark()?.make_array(0)?;
    let handle = block.name().handle();
    drop(block);
    kernel.set_map_block(handle)?;
    kernel.save()?;
    Ok(kernel)
}

/// The block that has the book, locked.
fn lock(kernel: &Kernel) -> Result<Locked<'_>> {
    kernel.lock(Name::File(kernel.map_block()?.unwrap_or(0)))
}

fn add(kernel: &mut Kernel, person: &str, number: &str) -> Result<()> {
    lock(kernel)?.mark()?.array_mut(ENTRIES).push(format!("{person}\0{number}").as_bytes())?;
    kernel.save()
}

fn list(kernel: &Kernel) -> Result<()> {
    let block = lock(kernel)?;
    let entries = block.array(ENTRIES);
    for index in 0..entries.count()? {
        println!("{}", String::from_utf8_lossy(&entries.to_vec(index)?).replace('\0', " "));
    }
    Ok(())
}

fn run(kernel: &Kernel, path: &str, given: &[String]) -> Result<()> {
    let text = std::fs::read(path).map_err(|_| Error::NoFile)?;
    let image = kernel.load(&assemble(text)?)?;
    let mut words = [0; 8];
    for (word, given) in words.iter_mut().zip(given) {
        *word = given.parse().unwrap_or(0);
    }
    let block = lock(kernel)?;
    for word in kernel.output_of(image.routine(0), words, [Some(&block), None, None, None])? {
        println!("{word}");
    }
    Ok(())
}

fn work(words: &[String]) -> Result<()> {
    let mut kernel = open_book(&words[0])?;
    let words: Vec<&str> = words[1..].iter().map(String::as_str).collect();
    match words[..] {
        ["add", person, number] => add(&mut kernel, person, number),
        ["list"] => list(&kernel),
        ["run", path, ..] => run(&kernel, path, &words[2..].iter().map(ToString::to_string).collect::<Vec<_>>()),
        _ => Err(Error::NotAdmitted),
    }
}

fn main() -> ExitCode {
    let words: Vec<String> = std::env::args().skip(1).collect();
    if words.len() < 2 {
        return ExitCode::from(2);
    }
    match work(&words) {
        Ok(()) => ExitCode::SUCCESS,
        Err(error) => {
            match error {
                Error::BadText { line } | Error::NoRows { line } => eprint!("at line {line}: "),
                Error::BadImage { offset: place } | Error::Refused { instruction: place, .. } => eprint!("at instruction {place}: "),
                _ => {}
            }
            eprintln!("book: {}", error.text());
            ExitCode::FAILURE
        }
    }
}

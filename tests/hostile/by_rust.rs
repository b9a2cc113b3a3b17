//! Loads the routines of strangers of a folder, each under the grants of its row of the table and then under all, and runs it on a new file:
//! `hostile FOLDER FILE`. tests/hostile/judge.sh says what it prints.

use std::path::{Path, PathBuf};
use takhvoi::{assemble, Error, Kernel, Name, Result, Sizes};

const ALL: u32 = 0xff7f;

struct Row<'t> {
    name: &'t str,
    grants: u32,
    lent: Vec<u16>,
}

impl<'t> Row<'t> {
    fn of(line: &'t str) -> Option<Row<'t>> {
        let columns: Vec<&str> = line.split_whitespace().collect();
        match columns[..] {
            [name, _, grants, lent, ..] if !name.starts_with('#') => {
                Some(Row { name, grants: grants.parse().ok()?, lent: lent.split(',').filter_map(|it| it.parse().ok()).collect() })
            }
            _ => None,
        }
    }
}

fn listed(words: &[u16]) -> String {
    let words: Vec<String> = words.iter().map(u16::to_string).collect();
    if words.is_empty() {
        "-".into()
    } else {
        words.join(",")
    }
}

struct Host {
    folder: PathBuf,
    path: PathBuf,
}

impl Host {
    fn image_of(&self, name: &str) -> Result<Vec<u8>> {
        assemble(std::fs::read(self.folder.join(format!("{name}.asm"))).map_err(|_| Error::NoFile)?)
    }

    /// Runs one of the host's own routines: what it puts out.
    fn own(&self, kernel: &Kernel, name: &str) -> Result<String> {
        let image = kernel.load(&self.image_of("host")?)?;
        let output = kernel.output_of(kernel.routine(&image, name)?, [0; 8], [None; 4])?;
        kernel.unload(image)?;
        Ok(listed(&output))
    }

    /// Runs the stranger's routine with everything granted: what it puts out.
    fn attack(&self, kernel: &Kernel, row: &Row<'_>) -> Result<String> {
        let image = kernel.load_granted(&self.image_of(row.name)?, ALL)?;
        let blocks = row.lent.iter().map(|handle| kernel.lock(Name::File(*handle))).collect::<Result<Vec<_>>>()?;
        let lent = [blocks.first(), blocks.get(1), None, None];
        kernel.output_of(kernel.routine(&image, row.name)?, [0; 8], lent).map(|output| listed(&output))
    }

    fn judge(&self, row: &Row<'_>) -> Result<()> {
        let _ = std::fs::remove_file(&self.path);
        let mut kernel = Kernel::create(&self.path, Sizes::default())?;
        self.own(&kernel, "setup")?;
        kernel.save()?;
        self.own(&kernel, "prepare")?;
        let used = kernel.lock(Name::Memory(1))?;
        match kernel.load_granted(&self.image_of(row.name)?, row.grants) {
            Err(Error::NotGranted { routine, instruction, effect }) => print!("{} {effect} {routine} {instruction}", row.name),
            other => print!("{} {other:?}", row.name),
        }
        print!(" {} {}", self.own(&kernel, "look")?, self.attack(&kernel, row)?);
        print!(" {}", self.own(&kernel, "look")?);
        drop(used);
        drop(kernel);
        println!(" {}", self.own(&Kernel::open(&self.path, Sizes::default().region)?, "look")?);
        Ok(())
    }
}

fn main() -> Result<()> {
    let words: Vec<String> = std::env::args().collect();
    let host = Host { folder: Path::new(&words[1]).into(), path: Path::new(&words[2]).into() };
    let table = std::fs::read_to_string(host.folder.join("table")).map_err(|_| Error::NoFile)?;
    table.lines().filter_map(Row::of).try_for_each(|row| host.judge(&row))
}

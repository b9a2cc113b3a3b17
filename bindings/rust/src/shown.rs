//! What a debugger or an editor shows of a kernel, an image, a run or a text.

use crate::error::{done, Error, Result};
use crate::images::{handles_of, Image, Lent, Outcome, Routine};
use crate::kernel::{Kernel, Name};
use crate::raw;

/// A block in memory: where it begins in the region, its size in bytes, and how often it is locked.
#[derive(Clone, Copy, Debug, PartialEq, Eq)]
pub struct Place {
    /// The block.
    pub name: Name,
    /// Where it begins.
    pub at: u32,
    /// Its size.
    pub size: u32,
    /// How often it is locked.
    pub locks: u32,
}

pub use crate::raw::{RawChunk as ShownChunk, RawEntry as Entry, RawRoutine as RoutineEntry, RawState as State};

/// Why a text may not run.
#[derive(Clone, Debug, PartialEq, Eq)]
pub struct Finding {
    /// 1 for a faulty line, 2 for a routine for which no rows are found, 3 for a refusal.
    pub kind: u32,
    /// The line, from 1.
    pub line: u32,
    /// The column in bytes, from 1; `None` if the whole line is meant.
    pub column: Option<u32>,
    /// The number of the rule that refuses the instruction.
    pub rule: Option<u32>,
    /// The number of the routine of a refusal.
    pub routine: u32,
    /// The instruction that is refused.
    pub instruction: u32,
    /// What is wrong, and what helps.
    pub sentence: String,
}

/// The block with a number of takhvoi.h.
fn name_of(number: u32) -> Name {
    if number < 65_536 {
        Name::Memory(number as u16)
    } else {
        Name::File(number as u16)
    }
}

/// All records that a call writes, in as much room as it wants.
fn shown<R: Copy + Default>(mut call: impl FnMut(*mut R, usize, &mut u32) -> u32) -> Result<Vec<R>> {
    let mut into = vec![R::default(); 256];
    loop {
        let mut count = 0;
        done(call(into.as_mut_ptr(), into.len(), &mut count))?;
        let fits = count as usize <= into.len();
        into.resize(count as usize, R::default());
        if fits {
            return Ok(into);
        }
    }
}

impl Kernel {
    /// The blocks in memory, in the order in which they lie in the region.
    pub fn places(&self) -> Result<Vec<Place>> {
        let places = shown(|into, room, count| unsafe { raw::takhvoi_places(self.raw(), into, room, count) })?;
        Ok(places.iter().map(|it| Place { name: name_of(it.block), at: it.at, size: it.size, locks: it.locks }).collect())
    }

    /// Copies bytes of the region, from an offset on.
    pub fn region(&self, at: u32, into: &mut [u8]) -> Result<()> {
        done(unsafe { raw::takhvoi_region(self.raw(), at, into.as_mut_ptr(), into.len()) })
    }

    /// The chunks of a block in memory, which need not be locked.
    pub fn shown_chunks(&self, name: Name) -> Result<Vec<ShownChunk>> {
        shown(|into, room, count| unsafe { raw::takhvoi_chunks(self.raw(), name.block(), into, room, count) })
    }

    /// The blocks and groups of the VM file.
    pub fn entries(&self) -> Result<Vec<Entry>> {
        shown(|into, room, count| unsafe { raw::takhvoi_entries(self.raw(), into, room, count) })
    }

    /// The routines of an image, by their numbers.
    pub fn routines(&self, image: &Image) -> Result<Vec<RoutineEntry>> {
        let own = self.own(image)?;
        shown(|into, room, count| unsafe { raw::takhvoi_routines(self.raw(), own, into, room, count) })
    }

    /// Runs a routine as [`Kernel::run`] does, and gives the states before at most `most` steps, from step `first` on, counted from 0.
    pub fn trace(&self, routine: Routine<'_>, words: [u16; 8], lent: Lent<'_>, first: u32, most: usize) -> Result<(Outcome, Vec<State>)> {
        let (own, handles) = (self.own(routine.image)?, handles_of(self, lent)?);
        let (mut words, mut output, mut count, mut steps) = (words, [0; 1024], 0, 0);
        let mut states = vec![State::default(); most];
        done(unsafe { raw::takhvoi_file_flush(self.file()) })?;
        let status = unsafe {
            raw::takhvoi_trace(
                self.raw(),
                own,
                routine.number,
                words.as_mut_ptr(),
                handles.as_ptr(),
                output.as_mut_ptr(),
                output.len(),
                &mut count,
                &mut steps,
                first,
                states.as_mut_ptr(),
                most,
            )
        };
        done(unsafe { raw::takhvoi_file_flush(self.file()) })?;
        done(status)?;
        states.truncate(steps.saturating_sub(first) as usize);
        Ok((Outcome { words, count: count as usize, steps }, states))
    }
}

/// The line of each instruction of a text, from 1.
pub fn lines(text: impl AsRef<[u8]>) -> Result<Vec<u32>> {
    let (text, mut into, mut told) = (text.as_ref(), vec![0; 4096], 0);
    match unsafe { raw::takhvoi_lines(text.as_ptr(), text.len(), into.as_mut_ptr(), into.len(), &mut told) } {
        112 => Err(Error::BadText { line: told }),
        status => done(status).map(|()| {
            into.truncate(told as usize);
            into
        }),
    }
}

/// The findings about a text; none if the verifier accepts its image.
pub fn findings(text: impl AsRef<[u8]>) -> Result<Vec<Finding>> {
    const SHORT_BUFFER: u32 = 115;
    let text = text.as_ref();
    let (mut list, mut said) = (vec![raw::RawFinding::default(); 256], vec![0; 1 << 14]);
    loop {
        let (mut count, mut told) = (0, 0);
        let (into, room, bytes, size) = (list.as_mut_ptr(), list.len(), said.as_mut_ptr(), said.len());
        let status = unsafe { raw::takhvoi_findings(text.as_ptr(), text.len(), into, room, &mut count, bytes, size, &mut told) };
        if status != SHORT_BUFFER {
            done(status)?;
            return Ok(list[..count as usize].iter().map(|it| finding_of(it, &said)).collect());
        }
        list.resize(count as usize + 1, raw::RawFinding::default());
        said.resize(told as usize + 1, 0);
    }
}

fn finding_of(it: &raw::RawFinding, said: &[u8]) -> Finding {
    let some = |number| (number > 0).then_some(number);
    let sentence = &said[it.from as usize..(it.from + it.len) as usize];
    Finding {
        kind: it.kind,
        line: it.line,
        column: some(it.column),
        rule: some(it.rule),
        routine: it.routine,
        instruction: it.instruction,
        sentence: String::from_utf8_lossy(sentence).into_owned(),
    }
}

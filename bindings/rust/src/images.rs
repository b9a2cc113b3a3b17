//! Images, and runs of their routines.

use crate::blocks::Locked;
use crate::error::{done, Error, Result};
use crate::kernel::{told, Kernel, Name};
use crate::raw;

/// An image that the verifier accepted, of the kernel that loaded it. It stays there until [`Kernel::unload`], or until the kernel goes.
#[derive(Debug)]
pub struct Image {
    number: u32,
    serial: u64,
}

/// What a routine does to what is not its own, as bits; docs/GRANTS.md explains each.
pub mod effects {
    /// Outputs words.
    pub const OUTPUT: u32 = 1;
    /// Makes, locks, unlocks, frees or changes memory blocks.
    pub const MEMORY: u32 = 2;
    /// Locks memory blocks by their handles.
    pub const LOCKS_BY_HANDLE: u32 = 4;
    /// Finds, locks or reads blocks and groups of the VM file by handle, even lent ones, or reads user IDs or the map.
    pub const READS_FILE: u32 = 8;
    /// Makes, frees or changes blocks, groups or items of the VM file by handle, even lent ones.
    pub const CHANGES_FILE: u32 = 16;
    /// Names another map block or map item, or none.
    pub const MAP: u32 = 32;
    /// Updates, saves or reverts the VM file.
    pub const COMMITS: u32 = 64;
    /// The bits of all four slots.
    pub const READS_LENT: u32 = 0xF00;
    /// The bits of all four slots.
    pub const CHANGES_LENT: u32 = 0xF000;
}

/// A routine of an image.
#[derive(Clone, Copy, Debug)]
pub struct Routine<'i> {
    pub(crate) image: &'i Image,
    pub(crate) number: u16,
}

impl Image {
    /// The routine with a number; a run says where there is none.
    pub fn routine(&self, number: u16) -> Routine<'_> {
        Routine { image: self, number }
    }
}

/// The blocks of the VM file that are lent for the slots s0 to s3.
pub type Lent<'a> = [Option<&'a Locked<'a>>; 4];

/// What a run leaves.
#[derive(Clone, Copy, Debug, PartialEq, Eq)]
pub struct Outcome {
    /// The words w0 to w7.
    pub words: [u16; 8],
    /// How many words it put out.
    pub count: usize,
    /// How many instructions it took.
    pub steps: u32,
}

/// The handles that are lent, where all are of blocks of this kernel's VM file.
pub(crate) fn handles_of(kernel: &Kernel, lent: Lent<'_>) -> Result<[u16; 4]> {
    let mut handles = [0; 4];
    for (handle, block) in handles.iter_mut().zip(lent) {
        *handle = match block {
            None => 0,
            Some(Locked { kernel: owner, name: Name::File(handle) }) if std::ptr::eq(*owner, kernel) => *handle,
            Some(_) => return Err(Error::NotAdmitted),
        };
    }
    Ok(handles)
}

impl Kernel {
    /// Loads an image, which the verifier checks.
    pub fn load(&self, image: &[u8]) -> Result<Image> {
        let (mut number, mut place, mut rule) = (0, 0, 0);
        match unsafe { raw::takhvoi_load(self.raw(), image.as_ptr(), image.len(), &mut number, &mut place, &mut rule) } {
            112 => Err(Error::BadImage { offset: place }),
            113 => Err(Error::Refused { instruction: place, rule }),
            status => done(status).map(|()| Image { number, serial: self.serial }),
        }
    }

    /// Loads an image whose public routines, with those that they call, do only what has its bit in `grants`: see [`effects`].
    pub fn load_granted(&self, image: &[u8], grants: u32) -> Result<Image> {
        let (mut number, mut place, mut rule, mut routine, mut effect) = (0, 0, 0, 0, 0);
        let (bytes, len) = (image.as_ptr(), image.len());
        match unsafe {
            raw::takhvoi_load_granted(self.raw(), bytes, len, grants, &mut number, &mut place, &mut rule, &mut routine, &mut effect)
        } {
            112 => Err(Error::BadImage { offset: place }),
            113 => Err(Error::Refused { instruction: place, rule }),
            116 => Err(Error::NotGranted { routine, instruction: place, effect }),
            status => done(status).map(|()| Image { number, serial: self.serial }),
        }
    }

    /// What a routine does to what is not its own, with those that it calls: bits of [`effects`].
    pub fn effects_of(&self, routine: Routine<'_>) -> Result<u32> {
        let (own, mut bits) = (self.own(routine.image)?, 0);
        done(unsafe { raw::takhvoi_effects(self.raw(), own, routine.number, &mut bits) }).map(|()| bits)
    }

    /// How many steps a run of a routine takes at most.
    pub fn budget_of(&self, routine: Routine<'_>) -> Result<u32> {
        let (own, mut budget) = (self.own(routine.image)?, 0);
        done(unsafe { raw::takhvoi_budget(self.raw(), own, routine.number, &mut budget) }).map(|()| budget)
    }

    /// That this kernel has loaded the image.
    pub(crate) fn own(&self, image: &Image) -> Result<u32> {
        if image.serial == self.serial {
            Ok(image.number)
        } else {
            Err(Error::NotAdmitted)
        }
    }

    /// Frees an image.
    pub fn unload(&self, image: Image) -> Result<()> {
        done(unsafe { raw::takhvoi_unload(self.raw(), self.own(&image)?) })
    }

    /// The routine of an image with a name: no two have the same.
    pub fn routine<'i>(&self, image: &'i Image, name: impl AsRef<[u8]>) -> Result<Routine<'i>> {
        let (own, name) = (self.own(image)?, name.as_ref());
        let number = told(|number| unsafe { raw::takhvoi_routine(self.raw(), own, name.as_ptr(), name.len(), number) })?;
        Ok(image.routine(number))
    }

    /// Runs a routine. It gets the words w0 to w7, and is lent locked blocks of the VM file; no other block of the file is locked. The first
    /// words that it puts out come into the buffer, as many as there is room for.
    pub fn run(&self, routine: Routine<'_>, words: [u16; 8], lent: Lent<'_>, output: &mut [u16]) -> Result<Outcome> {
        let (own, handles) = (self.own(routine.image)?, handles_of(self, lent)?);
        let (mut words, mut count, mut steps) = (words, 0, 0);
        let (into, room) = (output.as_mut_ptr(), output.len());
        done(unsafe {
            raw::takhvoi_file_run(self.file(), own, routine.number, words.as_mut_ptr(), handles.as_ptr(), into, room, &mut count, &mut steps)
        })?;
        Ok(Outcome { words, count: count as usize, steps })
    }

    /// Runs a routine, and gives the words that it puts out, at most 1,024.
    pub fn output_of(&self, routine: Routine<'_>, words: [u16; 8], lent: Lent<'_>) -> Result<Vec<u16>> {
        let mut output = vec![0; 1024];
        let outcome = self.run(routine, words, lent, &mut output)?;
        output.truncate(outcome.count);
        Ok(output)
    }
}

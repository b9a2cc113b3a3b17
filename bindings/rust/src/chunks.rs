//! Chunks of a locked block, and arrays in them.

use crate::blocks::Locked;
use crate::error::{done, Error, Result};
use crate::kernel::told;
use crate::raw;
use std::ops::Deref;

/// A chunk that is read.
#[derive(Clone, Copy, Debug)]
pub struct Chunk<'b> {
    pub(crate) block: &'b Locked<'b>,
    pub(crate) handle: u16,
}

impl Chunk<'_> {
    /// Its handle.
    pub fn handle(&self) -> u16 {
        self.handle
    }

    /// How many bytes it has.
    #[allow(clippy::len_without_is_empty)]
    pub fn len(&self) -> Result<u16> {
        told(|len| unsafe { raw::takhvoi_lsize(self.block.kernel.raw(), self.block.name.block(), self.handle, len) })
    }

    /// Copies the bytes from `at` on, which fill the buffer.
    pub fn read(&self, at: u16, into: &mut [u8]) -> Result<()> {
        let kernel = self.block.kernel.raw();
        done(unsafe { raw::takhvoi_read(kernel, self.block.name.block(), self.handle, at, into.as_mut_ptr(), into.len()) })
    }

    /// All of its bytes.
    pub fn to_vec(&self) -> Result<Vec<u8>> {
        let mut bytes = vec![0; self.len()?.into()];
        self.read(0, &mut bytes)?;
        Ok(bytes)
    }
}

/// A chunk that is changed.
#[derive(Debug)]
pub struct ChunkMut<'b> {
    pub(crate) chunk: Chunk<'b>,
}

impl<'b> Deref for ChunkMut<'b> {
    type Target = Chunk<'b>;

    fn deref(&self) -> &Chunk<'b> {
        &self.chunk
    }
}

impl ChunkMut<'_> {
    /// Copies bytes over those from `at` on.
    pub fn write(&mut self, at: u16, from: &[u8]) -> Result<()> {
        let kernel = self.block.kernel.raw();
        done(unsafe { raw::takhvoi_write(kernel, self.block.name.block(), self.handle, at, from.as_ptr(), from.len()) })
    }

    /// Gives it so many bytes: its first ones that fit, and zeros behind them.
    pub fn resize(&mut self, len: u16) -> Result<()> {
        done(unsafe { raw::takhvoi_lrealloc(self.block.kernel.raw(), self.block.name.block(), self.handle, len) })
    }

    /// Inserts zero bytes.
    pub fn insert(&mut self, at: u16, len: u16) -> Result<()> {
        done(unsafe { raw::takhvoi_lins(self.block.kernel.raw(), self.block.name.block(), self.handle, at, len) })
    }

    /// Takes bytes out.
    pub fn remove(&mut self, at: u16, len: u16) -> Result<()> {
        done(unsafe { raw::takhvoi_ldel(self.block.kernel.raw(), self.block.name.block(), self.handle, at, len) })
    }

    /// Frees it: its handle is given again.
    pub fn free(self) -> Result<()> {
        done(unsafe { raw::takhvoi_lfree(self.block.kernel.raw(), self.block.name.block(), self.handle) })
    }
}

/// An array that is read.
#[derive(Clone, Copy, Debug)]
pub struct Array<'b> {
    pub(crate) block: &'b Locked<'b>,
    pub(crate) handle: u16,
}

impl Array<'_> {
    /// The handle of its chunk.
    pub fn handle(&self) -> u16 {
        self.handle
    }

    /// How many elements it has.
    pub fn count(&self) -> Result<u16> {
        told(|count| unsafe { raw::takhvoi_cacount(self.block.kernel.raw(), self.block.name.block(), self.handle, count) })
    }

    /// How many bytes an element has.
    pub fn element_len(&self, index: u16) -> Result<u16> {
        told(|len| unsafe { raw::takhvoi_casize(self.block.kernel.raw(), self.block.name.block(), self.handle, index, len) })
    }

    /// Copies bytes of an element from `at` on, which fill the buffer.
    pub fn read(&self, index: u16, at: u16, into: &mut [u8]) -> Result<()> {
        let kernel = self.block.kernel.raw();
        done(unsafe { raw::takhvoi_caread(kernel, self.block.name.block(), self.handle, index, at, into.as_mut_ptr(), into.len()) })
    }

    /// All bytes of an element.
    pub fn to_vec(&self, index: u16) -> Result<Vec<u8>> {
        let mut bytes = vec![0; self.element_len(index)?.into()];
        self.read(index, 0, &mut bytes)?;
        Ok(bytes)
    }
}

/// An array that is changed.
#[derive(Debug)]
pub struct ArrayMut<'b> {
    pub(crate) array: Array<'b>,
}

impl<'b> Deref for ArrayMut<'b> {
    type Target = Array<'b>;

    fn deref(&self) -> &Array<'b> {
        &self.array
    }
}

impl ArrayMut<'_> {
    /// Copies bytes over those of an element from `at` on.
    pub fn write(&mut self, index: u16, at: u16, from: &[u8]) -> Result<()> {
        let kernel = self.block.kernel.raw();
        done(unsafe { raw::takhvoi_cawrite(kernel, self.block.name.block(), self.handle, index, at, from.as_ptr(), from.len()) })
    }

    /// Appends an element with these bytes.
    pub fn push(&mut self, from: &[u8]) -> Result<()> {
        let last = self.count()?;
        let len = from.len().try_into().map_err(|_| Error::TooBig)?;
        done(unsafe { raw::takhvoi_caadd(self.block.kernel.raw(), self.block.name.block(), self.handle, len) })?;
        self.write(last, 0, from)
    }

    /// Inserts an element of zero bytes.
    pub fn insert(&mut self, index: u16, len: u16) -> Result<()> {
        done(unsafe { raw::takhvoi_cains(self.block.kernel.raw(), self.block.name.block(), self.handle, index, len) })
    }

    /// Gives an element so many bytes: its first ones that fit, and zeros behind them.
    pub fn resize(&mut self, index: u16, len: u16) -> Result<()> {
        done(unsafe { raw::takhvoi_caresize(self.block.kernel.raw(), self.block.name.block(), self.handle, index, len) })
    }

    /// Takes an element out.
    pub fn remove(&mut self, index: u16) -> Result<()> {
        done(unsafe { raw::takhvoi_cadel(self.block.kernel.raw(), self.block.name.block(), self.handle, index) })
    }

    /// Takes all elements out.
    pub fn clear(&mut self) -> Result<()> {
        done(unsafe { raw::takhvoi_cazero(self.block.kernel.raw(), self.block.name.block(), self.handle) })
    }
}

//! Blocks that are locked, and marked.

use crate::chunks::{Array, ArrayMut, Chunk, ChunkMut};
use crate::error::{done, Error, Result};
use crate::kernel::{listed, told, Kernel, Name};
use crate::raw;
use std::ops::Deref;

/// A lock on a block or group, which is given back when this goes. Its chunks are read through it.
#[derive(Debug)]
pub struct Locked<'k> {
    pub(crate) kernel: &'k Kernel,
    pub(crate) name: Name,
}

impl Drop for Locked<'_> {
    fn drop(&mut self) {
        unsafe { raw::takhvoi_unlock(self.kernel.raw(), self.name.block()) };
    }
}

impl Locked<'_> {
    /// The block's name.
    pub fn name(&self) -> Name {
        self.name
    }

    /// The handles of all its chunks; of a group, those of its items.
    pub fn chunks(&self) -> Result<Vec<u16>> {
        listed(|into, room, count| unsafe { raw::takhvoi_llist(self.kernel.raw(), self.name.block(), into, room, count) })
    }

    /// The chunk with a handle; its calls say where there is none.
    pub fn chunk(&self, chunk: u16) -> Chunk<'_> {
        Chunk { block: self, handle: chunk }
    }

    /// The array in the chunk with a handle; its calls say where there is none.
    pub fn array(&self, chunk: u16) -> Array<'_> {
        Array { block: self, handle: chunk }
    }

    /// Marks a block of the VM file, so that it can be changed and a commit keeps it. A block of memory wants no mark, and gets none.
    pub fn mark(&mut self) -> Result<Marked<'_>> {
        if let Name::File(handle) = self.name {
            done(unsafe { raw::takhvoi_vdirty(self.kernel.raw(), handle) })?;
        }
        Ok(Marked { block: self })
    }
}

/// A locked block that may change.
#[derive(Debug)]
pub struct Marked<'b> {
    block: &'b Locked<'b>,
}

impl<'b> Deref for Marked<'b> {
    type Target = Locked<'b>;

    fn deref(&self) -> &Locked<'b> {
        self.block
    }
}

impl Marked<'_> {
    /// Makes a chunk of zero bytes, and tells its handle.
    pub fn make_chunk(&mut self, len: u16) -> Result<u16> {
        told(|chunk| unsafe { raw::takhvoi_lalloc(self.kernel.raw(), self.name.block(), len, chunk) })
    }

    /// Makes a chunk with these bytes, and tells its handle.
    pub fn make_chunk_of(&mut self, bytes: &[u8]) -> Result<u16> {
        let len = bytes.len().try_into().map_err(|_| Error::TooBig)?;
        let chunk = self.make_chunk(len)?;
        self.chunk_mut(chunk).write(0, bytes)?;
        Ok(chunk)
    }

    /// Makes an array of elements of one size, or of sizes of their own where that is 0, and tells its chunk's handle.
    pub fn make_array(&mut self, element_size: u16) -> Result<u16> {
        told(|chunk| unsafe { raw::takhvoi_canew(self.kernel.raw(), self.name.block(), element_size, chunk) })
    }

    /// The chunk with a handle, to be changed.
    pub fn chunk_mut(&mut self, chunk: u16) -> ChunkMut<'_> {
        ChunkMut { chunk: self.chunk(chunk) }
    }

    /// The array in the chunk with a handle, to be changed.
    pub fn array_mut(&mut self, chunk: u16) -> ArrayMut<'_> {
        ArrayMut { array: self.array(chunk) }
    }

    /// Packs the block: what its chunks leave is given back.
    pub fn contract(&mut self) -> Result<()> {
        done(unsafe { raw::takhvoi_lcontract(self.kernel.raw(), self.name.block()) })
    }
}

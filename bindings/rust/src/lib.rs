//! Takhvoi for Rust: blocks that move, VM files, and routines that a verifier has checked.
//!
//! A [`Kernel`] has blocks of memory and those of its VM file. A block's chunks are read and changed by a [`Locked`], which gives the lock back
//! when it goes. The rules that the kernel would refuse at run time are errors of rustc, as far as borrows say them:
//!
//! - a chunk is had of a lock alone, and does not outlive it;
//! - nothing changes in a block of the VM file before it is marked: only a [`Marked`] has the calls that change;
//! - what was read lends nothing: bytes are copied, so a block may move at any time;
//! - no commit happens while a block of the VM file is locked, and no kernel is closed while one is.
//!
//! What the kernel permits stays possible: many blocks are locked at once, a block more than once, and blocks of memory stay locked over a
//! commit ([`Kernel::parts`]). What borrows cannot say comes as an [`Error`].
//!
//! ```
//! use takhvoi::{Kernel, Name, Sizes};
//!
//! # fn main() -> takhvoi::Result<()> {
//! let mut kernel = Kernel::in_memory(Sizes::default())?;
//! let mut block = kernel.make_file_block(1)?;
//! let name = block.name();
//! let chunk = block.mark()?.make_chunk_of(b"Curie")?;
//! assert_eq!(block.chunk(chunk).to_vec()?, b"Curie");
//! drop(block);
//! kernel.set_map_block(name.handle())?;
//! kernel.save()?;
//! # Ok(())
//! # }
//! ```
//!
//! A commit while a block is locked:
//!
//! ```compile_fail,E0502
//! # use takhvoi::{Kernel, Sizes};
//! # fn main() -> takhvoi::Result<()> {
//! let mut kernel = Kernel::in_memory(Sizes::default())?;
//! let block = kernel.make_file_block(1)?;
//! kernel.save()?;
//! block.chunk(16).len()?;
//! # Ok(())
//! # }
//! ```
//!
//! A chunk of a lock that was given back:
//!
//! ```compile_fail,E0505
//! # use takhvoi::{Kernel, Sizes};
//! # fn main() -> takhvoi::Result<()> {
//! let kernel = Kernel::in_memory(Sizes::default())?;
//! let mut block = kernel.make_block()?;
//! let made = block.mark()?.make_chunk(8)?;
//! let chunk = block.chunk(made);
//! drop(block);
//! chunk.len()?;
//! # Ok(())
//! # }
//! ```
//!
//! A change of a block that is not marked:
//!
//! ```compile_fail,E0599
//! # use takhvoi::{Kernel, Sizes};
//! # fn main() -> takhvoi::Result<()> {
//! let kernel = Kernel::in_memory(Sizes::default())?;
//! let block = kernel.make_file_block(1)?;
//! block.make_chunk(8)?;
//! # Ok(())
//! # }
//! ```
//!
//! A change while a chunk is being read:
//!
//! ```compile_fail,E0502
//! # use takhvoi::{Kernel, Sizes};
//! # fn main() -> takhvoi::Result<()> {
//! let kernel = Kernel::in_memory(Sizes::default())?;
//! let mut block = kernel.make_block()?;
//! let made = block.mark()?.make_chunk(8)?;
//! let chunk = block.chunk(made);
//! block.mark()?.chunk_mut(made).resize(4)?;
//! chunk.len()?;
//! # Ok(())
//! # }
//! ```
//!
//! A lock of a kernel that is closed, and a kernel in two threads at once:
//!
//! ```compile_fail,E0505
//! # use takhvoi::{Kernel, Sizes};
//! # fn main() -> takhvoi::Result<()> {
//! let kernel = Kernel::in_memory(Sizes::default())?;
//! let block = kernel.make_block()?;
//! drop(kernel);
//! block.chunk(16).len()?;
//! # Ok(())
//! # }
//! ```
//!
//! ```compile_fail,E0277
//! # use takhvoi::{Kernel, Sizes};
//! # fn main() -> takhvoi::Result<()> {
//! let kernel = Kernel::in_memory(Sizes::default())?;
//! std::thread::scope(|threads| {
//!     threads.spawn(|| kernel.is_sure());
//! });
//! # Ok(())
//! # }
//! ```
#![deny(missing_docs)]

mod blocks;
mod chunks;
mod error;
mod images;
mod kernel;
mod raw;
mod shown;
mod texts;

pub use blocks::{Locked, Marked};
pub use chunks::{Array, ArrayMut, Chunk, ChunkMut};
pub use error::{Error, Result};
pub use images::{effects, Image, Lent, Outcome, Routine};
pub use kernel::{Kernel, Memory, Name, Sizes, VmFile};
pub use shown::{findings, lines, Entry, Finding, Place, RoutineEntry, ShownChunk, State};
pub use texts::{assemble, compile, explain, explain_source, explain_text, list, Explanation};

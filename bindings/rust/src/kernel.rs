//! Kernels, and their calls on whole blocks.

use crate::blocks::Locked;
use crate::error::{done, Error, Result};
use crate::raw::{self, RawFile, RawKernel};
use std::cell::UnsafeCell;
use std::ffi::CString;
use std::ops::Deref;
use std::os::unix::ffi::OsStrExt;
use std::path::Path;
use std::sync::atomic::{AtomicU64, Ordering};

/// The name of a block: its owner, and its handle.
#[derive(Clone, Copy, Debug, PartialEq, Eq, Hash)]
pub enum Name {
    /// A block of memory.
    Memory(u16),
    /// A block of the VM file, or a group.
    File(u16),
}

impl Name {
    /// Its handle.
    pub fn handle(self) -> u16 {
        match self {
            Name::Memory(handle) | Name::File(handle) => handle,
        }
    }

    /// Its number in takhvoi.h.
    pub(crate) fn block(self) -> u32 {
        match self {
            Name::Memory(handle) => handle.into(),
            Name::File(handle) => raw::of_file(handle),
        }
    }
}

/// How many bytes a new kernel has.
#[derive(Clone, Copy, Debug, PartialEq, Eq)]
pub struct Sizes {
    /// Room for the current and the saved state of its VM file together: 512 to 16,777,216, a multiple of 512.
    pub area: u32,
    /// All memory for its blocks: 65,536 to 16,777,216.
    pub region: u32,
}

impl Default for Sizes {
    fn default() -> Sizes {
        Sizes { area: 1 << 16, region: 1 << 20 }
    }
}

/// A kernel. It goes to other threads, and is used by one at a time. When it goes, it is closed, and what no commit has kept is lost.
pub struct Kernel {
    file: UnsafeCell<RawFile>,
    pub(crate) serial: u64,
}

// A kernel owns its memory and its file, and nothing of it is of a thread.
unsafe impl Send for Kernel {}

impl std::fmt::Debug for Kernel {
    fn fmt(&self, out: &mut std::fmt::Formatter<'_>) -> std::fmt::Result {
        write!(out, "Kernel({})", self.serial)
    }
}

impl Drop for Kernel {
    fn drop(&mut self) {
        unsafe { raw::takhvoi_file_close(self.file()) };
    }
}

/// A path as C has it; no file has a name with a zero byte.
fn spelled(path: &Path) -> Result<CString> {
    CString::new(path.as_os_str().as_bytes()).map_err(|_| Error::NoFile)
}

/// What a call tells of one number, where it is done.
pub(crate) fn told(call: impl FnOnce(*mut u16) -> u32) -> Result<u16> {
    let mut number = 0;
    done(call(&mut number)).map(|()| number)
}

/// All handles that a call lists, in as much room as it wants.
pub(crate) fn listed(call: impl Fn(*mut u16, usize, *mut u32) -> u32) -> Result<Vec<u16>> {
    let mut into = vec![0; 1024];
    loop {
        let mut count = 0;
        done(call(into.as_mut_ptr(), into.len(), &mut count))?;
        let is_whole = count as usize <= into.len();
        into.resize(count as usize, 0);
        if is_whole {
            return Ok(into);
        }
    }
}

impl Kernel {
    fn none() -> Result<Kernel> {
        static NEXT: AtomicU64 = AtomicU64::new(0);
        let abi = unsafe { raw::takhvoi_abi() };
        if abi != raw::ABI {
            return Err(Error::OtherInterface);
        }
        Ok(Kernel { file: UnsafeCell::new(RawFile::NONE), serial: NEXT.fetch_add(1, Ordering::Relaxed) })
    }

    /// A kernel on a VM file in memory, which goes with it.
    pub fn in_memory(sizes: Sizes) -> Result<Kernel> {
        let kernel = Kernel::none()?;
        done(unsafe { raw::takhvoi_new(kernel.raw(), sizes.area, sizes.region) })?;
        Ok(kernel)
    }

    /// A kernel on a new file of the system, whose lock it has until it goes.
    pub fn create(path: impl AsRef<Path>, sizes: Sizes) -> Result<Kernel> {
        let (kernel, path) = (Kernel::none()?, spelled(path.as_ref())?);
        done(unsafe { raw::takhvoi_file_create(kernel.file(), path.as_ptr(), sizes.area, sizes.region) })?;
        Ok(kernel)
    }

    /// A kernel on a file that is there, with a region of so many bytes.
    pub fn open(path: impl AsRef<Path>, region: u32) -> Result<Kernel> {
        let (kernel, path, mut offset) = (Kernel::none()?, spelled(path.as_ref())?, 0);
        match done(unsafe { raw::takhvoi_file_open(kernel.file(), path.as_ptr(), region, &mut offset) }) {
            Err(Error::BadFile { .. }) => Err(Error::BadFile { offset }),
            other => other.map(|()| kernel),
        }
    }

    /// The kernel on its file as C has it.
    pub(crate) fn file(&self) -> *mut RawFile {
        self.file.get()
    }

    /// The kernel as C has it.
    pub(crate) fn raw(&self) -> *mut RawKernel {
        unsafe { std::ptr::addr_of_mut!((*self.file()).kernel) }
    }

    /// Its memory and its VM file apart, so that blocks of memory stay locked over a commit.
    ///
    /// ```
    /// # fn main() -> takhvoi::Result<()> {
    /// let mut kernel = takhvoi::Kernel::in_memory(Default::default())?;
    /// let (memory, mut file) = kernel.parts();
    /// let block = memory.make_block()?;
    /// file.save()?;
    /// assert_eq!(memory.locks(block.name().handle())?, 1);
    /// # Ok(())
    /// # }
    /// ```
    pub fn parts(&mut self) -> (Memory<'_>, VmFile<'_>) {
        (Memory { kernel: self }, VmFile { kernel: self })
    }

    /// Makes a block of memory, and locks it.
    pub fn make_block(&self) -> Result<Locked<'_>> {
        let handle = told(|handle| unsafe { raw::takhvoi_mnew(self.raw(), handle) })?;
        Ok(Locked { kernel: self, name: Name::Memory(handle) })
    }

    /// Makes a block of the VM file, locks it and marks it.
    pub fn make_file_block(&self, user_id: u16) -> Result<Locked<'_>> {
        let handle = told(|handle| unsafe { raw::takhvoi_vnew(self.raw(), user_id, handle) })?;
        Ok(Locked { kernel: self, name: Name::File(handle) })
    }

    /// Locks a block once more.
    pub fn lock(&self, name: Name) -> Result<Locked<'_>> {
        done(match name {
            Name::Memory(handle) => unsafe { raw::takhvoi_mlock(self.raw(), handle) },
            Name::File(handle) => unsafe { raw::takhvoi_vlock(self.raw(), handle) },
        })?;
        Ok(Locked { kernel: self, name })
    }

    /// Frees a block that is not locked.
    pub fn free(&self, name: Name) -> Result<()> {
        done(match name {
            Name::Memory(handle) => unsafe { raw::takhvoi_mfree(self.raw(), handle) },
            Name::File(handle) => unsafe { raw::takhvoi_vfree(self.raw(), handle) },
        })
    }

    /// How often a block or group is locked; 0 where there is none.
    pub fn locks(&self, name: Name) -> Result<u16> {
        told(|count| unsafe { raw::takhvoi_locks(self.raw(), name.block(), count) })
    }

    /// Whether a block of the VM file, or a group, is marked.
    pub fn is_marked(&self, handle: u16) -> Result<bool> {
        told(|marked| unsafe { raw::takhvoi_marked(self.raw(), handle, marked) }).map(|marked| marked != 0)
    }

    /// The handles of all blocks of memory.
    pub fn blocks(&self) -> Result<Vec<u16>> {
        listed(|into, room, count| unsafe { raw::takhvoi_mlist(self.raw(), into, room, count) })
    }

    /// The handles of all blocks and groups of the VM file. The user ID of a group is 65,280.
    pub fn file_blocks(&self) -> Result<Vec<u16>> {
        listed(|into, room, count| unsafe { raw::takhvoi_vlist(self.raw(), into, room, count) })
    }

    /// The items of a group, which is brought into memory.
    pub fn items(&self, group: u16) -> Result<Vec<u16>> {
        listed(|into, room, count| unsafe { raw::takhvoi_ilist(self.raw(), group, into, room, count) })
    }

    /// The first block of the VM file above a handle that has a user ID.
    pub fn find(&self, user_id: u16, above: u16) -> Result<Option<u16>> {
        some(told(|handle| unsafe { raw::takhvoi_vfind(self.raw(), above, user_id, handle) }))
    }

    /// The user ID of a block of the VM file.
    pub fn user_id(&self, handle: u16) -> Result<u16> {
        told(|user_id| unsafe { raw::takhvoi_vuid(self.raw(), handle, user_id) })
    }

    /// The map block, by which a program finds the others.
    pub fn map_block(&self) -> Result<Option<u16>> {
        some(told(|handle| unsafe { raw::takhvoi_vgetmap(self.raw(), handle) }))
    }

    /// Names the map block.
    pub fn set_map_block(&self, handle: u16) -> Result<()> {
        done(unsafe { raw::takhvoi_vsetmap(self.raw(), handle) })
    }

    /// Makes a group. The calls on its items bring it into memory and mark it by themselves.
    pub fn make_group(&self) -> Result<u16> {
        told(|group| unsafe { raw::takhvoi_gnew(self.raw(), group) })
    }

    /// Frees a group that is not locked, with its items.
    pub fn free_group(&self, group: u16) -> Result<()> {
        done(unsafe { raw::takhvoi_gfree(self.raw(), group) })
    }

    /// Makes an item of zero bytes.
    pub fn make_item(&self, group: u16, len: u16) -> Result<u16> {
        told(|item| unsafe { raw::takhvoi_inew(self.raw(), group, len, item) })
    }

    /// Gives an item so many bytes: its first ones that fit, and zeros behind them.
    pub fn resize_item(&self, group: u16, item: u16, len: u16) -> Result<()> {
        done(unsafe { raw::takhvoi_irealloc(self.raw(), group, item, len) })
    }

    /// Inserts zero bytes into an item.
    pub fn insert_in_item(&self, group: u16, item: u16, at: u16, len: u16) -> Result<()> {
        done(unsafe { raw::takhvoi_iins(self.raw(), group, item, at, len) })
    }

    /// Takes bytes out of an item.
    pub fn remove_in_item(&self, group: u16, item: u16, at: u16, len: u16) -> Result<()> {
        done(unsafe { raw::takhvoi_idel(self.raw(), group, item, at, len) })
    }

    /// Frees an item.
    pub fn free_item(&self, group: u16, item: u16) -> Result<()> {
        done(unsafe { raw::takhvoi_ifree(self.raw(), group, item) })
    }

    /// Locks the group of an item that is there: the item is the chunk with its handle.
    pub fn lock_item(&self, group: u16, item: u16) -> Result<Locked<'_>> {
        told(|len| unsafe { raw::takhvoi_ilock(self.raw(), group, item, len) })?;
        Ok(Locked { kernel: self, name: Name::File(group) })
    }

    /// The group and the item of the map item.
    pub fn map_item(&self) -> Result<Option<(u16, u16)>> {
        let (mut group, mut item) = (0, 0);
        done(unsafe { raw::takhvoi_igetmap(self.raw(), &mut group, &mut item) })?;
        Ok((group != 0).then_some((group, item)))
    }

    /// Names the map item.
    pub fn set_map_item(&self, group: u16, item: u16) -> Result<()> {
        done(unsafe { raw::takhvoi_isetmap(self.raw(), group, item) })
    }

    /// Whether the VM file is sure of what it keeps. Where it is not, it takes no commit, and is opened again.
    pub fn is_sure(&self) -> Result<bool> {
        told(|sure| unsafe { raw::takhvoi_is_sure(self.raw(), sure) }).map(|sure| sure != 0)
    }

    /// Lets all blocks in memory together have `more` bytes more than they have, at most the whole region, until the next such call. What would
    /// be more is refused, in a run too, as if the region had no room.
    pub fn limit(&self, more: u32) -> Result<()> {
        done(unsafe { raw::takhvoi_limit(self.raw(), more) })
    }

    /// Lets new blocks of memory get only handles up to `last`, until the next such call; 1,024 takes the limit away. One more block is refused, in
    /// a run too, as if all handles were in use.
    pub fn limit_blocks(&self, last: u16) -> Result<()> {
        done(unsafe { raw::takhvoi_limit_blocks(self.raw(), last) })
    }

    /// Commits what has changed; a revert takes it back until the next save. It happens whole or not at all.
    pub fn update(&mut self) -> Result<()> {
        self.parts().1.update()
    }

    /// Commits what has changed for good. It happens whole or not at all.
    pub fn save(&mut self) -> Result<()> {
        self.parts().1.save()
    }

    /// Goes back to what was last saved.
    pub fn revert(&mut self) -> Result<()> {
        self.parts().1.revert()
    }
}

/// A handle that stands for none where it is 0.
fn some(handle: Result<u16>) -> Result<Option<u16>> {
    handle.map(|handle| (handle != 0).then_some(handle))
}

/// The blocks of memory of a kernel.
#[derive(Clone, Copy, Debug)]
pub struct Memory<'k> {
    kernel: &'k Kernel,
}

impl<'k> Memory<'k> {
    /// Makes a block, and locks it.
    pub fn make_block(self) -> Result<Locked<'k>> {
        self.kernel.make_block()
    }

    /// Locks a block once more.
    pub fn lock(self, handle: u16) -> Result<Locked<'k>> {
        self.kernel.lock(Name::Memory(handle))
    }

    /// Frees a block that is not locked.
    pub fn free(self, handle: u16) -> Result<()> {
        self.kernel.free(Name::Memory(handle))
    }

    /// How often a block is locked; 0 where there is none.
    pub fn locks(self, handle: u16) -> Result<u16> {
        self.kernel.locks(Name::Memory(handle))
    }
}

/// The VM file of a kernel, with all calls of the kernel that want no more than a look at it.
#[derive(Debug)]
pub struct VmFile<'k> {
    kernel: &'k Kernel,
}

impl Deref for VmFile<'_> {
    type Target = Kernel;

    fn deref(&self) -> &Kernel {
        self.kernel
    }
}

impl VmFile<'_> {
    /// As [`Kernel::update`].
    pub fn update(&mut self) -> Result<()> {
        done(unsafe { raw::takhvoi_file_update(self.kernel.file()) })
    }

    /// As [`Kernel::save`].
    pub fn save(&mut self) -> Result<()> {
        done(unsafe { raw::takhvoi_file_save(self.kernel.file()) })
    }

    /// As [`Kernel::revert`].
    pub fn revert(&mut self) -> Result<()> {
        done(unsafe { raw::takhvoi_file_revert(self.kernel.file()) })
    }
}

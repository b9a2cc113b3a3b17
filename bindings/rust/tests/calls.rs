//! The calls, as a program uses them.

use takhvoi::{assemble, explain, explain_text, list, Error, Kernel, Locked, Name, Result, Sizes};

fn kernel() -> Kernel {
    Kernel::in_memory(Sizes::default()).expect("there is memory")
}

#[test]
fn blocks_are_locked_at_once() -> Result<()> {
    let kernel = kernel();
    let mut locked: Vec<Locked<'_>> = Vec::new();
    for owner in 0..4 {
        locked.push(if owner % 2 == 0 { kernel.make_block()? } else { kernel.make_file_block(owner)? });
    }
    let mut chunks = Vec::new();
    for block in &mut locked {
        chunks.push(block.mark()?.make_chunk_of(b"abc")?);
    }
    for (block, &chunk) in locked.iter().zip(&chunks) {
        assert_eq!(block.chunk(chunk).to_vec()?, b"abc");
    }
    let again = kernel.lock(locked[0].name())?;
    assert_eq!(kernel.locks(again.name())?, 2);
    drop(again);
    assert_eq!(kernel.locks(locked[0].name())?, 1);
    assert_eq!(kernel.free(locked[0].name()), Err(Error::Locked));
    // Another block comes and goes while these are locked.
    let other = kernel.make_block()?.name();
    kernel.free(other)
}

#[test]
fn memory_is_limited() -> Result<()> {
    let kernel = kernel();
    let mut block = kernel.make_block()?;
    kernel.limit(64)?;
    let other = kernel.make_block()?;
    assert_eq!(kernel.make_block().err(), Some(Error::NoRoom));
    assert_eq!(block.mark()?.make_chunk(984).err(), Some(Error::NoRoom));
    drop(other);
    kernel.limit(u32::MAX)?;
    block.mark()?.make_chunk(984)?;
    // Two blocks have handles: `other` was unlocked, not freed.
    kernel.limit_blocks(2)?;
    assert_eq!(kernel.make_block().err(), Some(Error::NoHandle));
    kernel.limit_blocks(3)?;
    drop(kernel.make_block()?);
    kernel.limit_blocks(1_024)
}

#[test]
fn a_commit_leaves_locks_of_memory() -> Result<()> {
    let mut kernel = kernel();
    let (memory, mut file) = kernel.parts();
    let mut scratch = memory.make_block()?;
    let chunk = scratch.mark()?.make_chunk_of(&[7])?;
    let name = file.make_file_block(3)?.name();
    file.set_map_block(name.handle())?;
    file.save()?;
    file.free(name)?;
    assert_eq!(file.find(3, 0)?, None);
    file.revert()?;
    assert_eq!((file.find(3, 0)?, file.map_block()?, file.user_id(name.handle())?), (Some(name.handle()), Some(name.handle()), 3));
    assert_eq!(scratch.chunk(chunk).to_vec()?, [7]);
    Ok(())
}

#[test]
fn a_lock_that_was_forgotten_keeps_commits_away() -> Result<()> {
    let mut kernel = kernel();
    std::mem::forget(kernel.make_file_block(1)?);
    assert_eq!(kernel.save(), Err(Error::FileLocked));
    Ok(())
}

#[test]
fn chunks_change() -> Result<()> {
    let kernel = kernel();
    let mut block = kernel.make_file_block(1)?;
    let mut marked = block.mark()?;
    let made = marked.make_chunk_of(b"abcdef")?;
    let mut chunk = marked.chunk_mut(made);
    chunk.remove(1, 2)?;
    chunk.insert(1, 1)?;
    chunk.write(1, b"x")?;
    assert_eq!(chunk.to_vec()?, b"axdef");
    chunk.resize(7)?;
    assert_eq!(chunk.to_vec()?, b"axdef\0\0");
    assert_eq!(chunk.write(5, b"xyz"), Err(Error::Short));
    assert_eq!(chunk.read(8, &mut []), Err(Error::Short));
    assert_eq!(chunk.remove(6, 2), Err(Error::Range));
    chunk.read(7, &mut [])?;
    chunk.free()?;
    assert_eq!(marked.chunk(made).len(), Err(Error::BadChunk));
    assert_eq!(marked.make_chunk_of(&[0; 65_536]), Err(Error::TooBig));
    marked.contract()
}

#[test]
fn arrays_change() -> Result<()> {
    let kernel = kernel();
    let mut block = kernel.make_block()?;
    let mut marked = block.mark()?;
    let made = marked.make_array(0)?;
    let mut array = marked.array_mut(made);
    for element in ["b", "", "dd"] {
        array.push(element.as_bytes())?;
    }
    array.insert(0, 1)?;
    array.write(0, 0, b"a")?;
    array.resize(2, 1)?;
    array.remove(1)?;
    let elements: Vec<_> = (0..array.count()?).map(|index| array.to_vec(index)).collect::<Result<_>>()?;
    assert_eq!(elements, [&b"a"[..], b"\0", b"dd"]);
    assert_eq!(array.element_len(3), Err(Error::BadElement));
    array.clear()?;
    assert_eq!(array.count()?, 0);
    Ok(())
}

#[test]
fn items_change() -> Result<()> {
    let mut kernel = kernel();
    let group = kernel.make_group()?;
    let item = kernel.make_item(group, 2)?;
    kernel.insert_in_item(group, item, 1, 3)?;
    kernel.remove_in_item(group, item, 0, 1)?;
    kernel.resize_item(group, item, 3)?;
    kernel.set_map_item(group, item)?;
    let mut locked = kernel.lock_item(group, item)?;
    locked.mark()?.chunk_mut(item).write(0, b"xyz")?;
    drop(locked);
    kernel.update()?;
    assert_eq!(kernel.map_item()?, Some((group, item)));
    assert_eq!(kernel.lock_item(group, item)?.chunk(item).to_vec()?, b"xyz");
    kernel.free_item(group, item)?;
    assert_eq!(kernel.lock_item(group, item).err(), Some(Error::BadChunk));
    kernel.free_group(group)
}

#[test]
fn a_routine_borrows_a_block() -> Result<()> {
    let kernel = kernel();
    let text = "routine add public budget 2\n ADD w0 w0 w1\n RET\nroutine first public budget 6\n in s0=vm@\n out s0=vm@\n LDI w1 16\n \
                DEREF s0 p0 w1 1 none\n LDB w0 p0 0\n OUT w0 none\nnone:\n RET\n";
    let image = kernel.load(&assemble(text)?)?;
    let add = kernel.routine(&image, "add")?;
    let outcome = kernel.run(add, [1, 2, 0, 0, 0, 0, 0, 0], [None; 4], &mut [])?;
    assert_eq!((outcome.words[0], outcome.count, outcome.steps), (3, 0, 2));
    assert_eq!(kernel.budget_of(add)?, 2);
    assert_eq!(kernel.routine(&image, "none").err(), Some(Error::NotAdmitted));
    let mut block = kernel.make_file_block(1)?;
    block.mark()?.make_chunk_of(b"*")?;
    let first = kernel.routine(&image, "first")?;
    assert_eq!(kernel.output_of(first, [0; 8], [Some(&block), None, None, None])?, [42]);
    assert_eq!(kernel.run(add, [0; 8], [None; 4], &mut []), Err(Error::NotAdmitted));
    // A block of another kernel, and one of memory, are lent to no routine.
    let other = self::kernel();
    let theirs = other.make_file_block(1)?;
    assert_eq!(kernel.output_of(first, [0; 8], [Some(&theirs), None, None, None]), Err(Error::NotAdmitted));
    assert_eq!(other.routine(&image, "add").err(), Some(Error::NotAdmitted));
    let scratch = kernel.make_block()?;
    assert_eq!(kernel.output_of(first, [0; 8], [Some(&scratch), None, None, None]), Err(Error::NotAdmitted));
    kernel.unload(image)
}

#[test]
fn memory_and_runs_are_shown() -> Result<()> {
    let kernel = kernel();
    let mut block = kernel.make_block()?;
    let chunk = block.mark()?.make_chunk_of(b"abc")?;
    let places = kernel.places()?;
    assert_eq!((places.len(), places[0].name, places[0].locks), (1, block.name(), 1));
    let shown = kernel.shown_chunks(block.name())?;
    let mut bytes = [0; 3];
    kernel.region(shown[0].at, &mut bytes)?;
    assert_eq!((shown.len(), shown[0].handle, &bytes), (1, u32::from(chunk), b"abc"));
    assert_eq!(kernel.shown_chunks(Name::File(1)), Err(Error::BadHandle));
    assert!(kernel.entries()?.is_empty());
    let text = "routine f public budget 3\n LDI w0 5\n ADD w0 w0 w0\n RET\n";
    let image = kernel.load(&takhvoi::assemble(text)?)?;
    assert_eq!((kernel.routines(&image)?.len(), takhvoi::lines(text)?), (1, vec![2, 3, 4]));
    assert!(takhvoi::findings(text)?.is_empty() && takhvoi::findings("x")?.len() == 1);
    let (outcome, states) = kernel.trace(image.routine(0), [0; 8], [None; 4], 1, 9)?;
    assert_eq!((outcome.steps, states.len(), states[1].words[0]), (3, 2, 10));
    Ok(())
}

#[test]
fn handles_are_listed() -> Result<()> {
    let kernel = kernel();
    let mut block = kernel.make_block()?;
    let chunks = [block.mark()?.make_chunk(2)?, block.mark()?.make_chunk(2)?];
    assert_eq!(block.chunks()?, chunks);
    assert_eq!(kernel.blocks()?, [block.name().handle()]);
    let group = kernel.make_group()?;
    let item = kernel.make_item(group, 1)?;
    assert_eq!(kernel.file_blocks()?, [group]);
    assert_eq!(kernel.items(group)?, [item]);
    assert_eq!(kernel.items(group + 1), Err(Error::BadHandle));
    Ok(())
}

#[test]
fn texts_and_images_say_what_is_at_fault() -> Result<()> {
    let image = assemble("routine f public budget 1\n RET\n")?;
    assert!(String::from_utf8_lossy(&list(&image)?).contains("routine f"));
    assert!(String::from_utf8_lossy(&explain(&image)?).contains("RET"));
    let said = explain_text("routine f public budget 1\n ldi w0 5\n")?;
    assert_eq!((said.line, said.column), (Some(2), Some(2)));
    assert_eq!(explain_text("routine f public budget 1\n RET\n")?.line, None);
    let kernel = kernel();
    assert_eq!(kernel.load(b"none").err(), Some(Error::BadImage { offset: 0 }));
    assert_eq!(list(&image[..image.len() - 1]).map_err(Error::number), Err(112));
    assert_eq!(assemble("routine f public budget x\n"), Err(Error::BadText { line: 1 }));
    assert_eq!(assemble("routine f public budget 5\nagain:\n JMP again\n"), Err(Error::NoRows { line: 1 }));
    Ok(())
}

#[test]
fn a_file_is_kept_and_locked() -> Result<()> {
    let folder = std::env::temp_dir().join(format!("takhvoi-{}", std::process::id()));
    std::fs::create_dir_all(&folder).expect("a folder is made");
    let path = folder.join("a.vm");
    let name = {
        let mut kernel = Kernel::create(&path, Sizes::default())?;
        let mut block = kernel.make_file_block(9)?;
        block.mark()?.make_chunk_of(b"kept")?;
        let name = block.name();
        drop(block);
        kernel.save()?;
        assert_eq!(Kernel::open(&path, 1 << 20).err(), Some(Error::FileInUse));
        assert_eq!(Kernel::create(&path, Sizes::default()).err(), Some(Error::FileIsThere));
        name
    };
    // The kernel goes to another thread.
    let kernel = Kernel::open(&path, 1 << 20)?;
    let kept = std::thread::spawn(move || kernel.lock(name)?.chunk(16).to_vec()).join().expect("the thread ends well")?;
    assert_eq!(kept, b"kept");
    std::fs::write(folder.join("none.vm"), "none").expect("a file is written");
    assert_eq!(Kernel::open(folder.join("none.vm"), 1 << 20).map(|_| ()).map_err(Error::number), Err(110));
    assert_eq!(Kernel::open(folder.join("there is none"), 1 << 20).err(), Some(Error::NoFile));
    assert_eq!(Kernel::in_memory(Sizes { area: 513, region: 1 << 20 }).err(), Some(Error::BadSize));
    assert_eq!(kernel_of(Name::Memory(1)), Err(Error::BadHandle));
    std::fs::remove_dir_all(&folder).expect("the folder is removed");
    Ok(())
}

fn kernel_of(name: Name) -> Result<()> {
    kernel().lock(name).map(|_| ())
}

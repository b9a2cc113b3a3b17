// Takhvoi for C++17, over takhvoi.h, with no code beside it: kernels that close themselves, locked blocks that unlock themselves.
//
// Each call answers a Result, which has a value or the fault. `value()` gives the value, and throws an Error where there is none; a program
// that is compiled with no exceptions tests `if (result)` first, and ends where it does not.
//
// What the types see to: a lock is given back; a chunk, an array or a routine is had of what stays, never of a temporary; a block is freed by its
// name, so that no use follows by mistake. What they leave to the program, as a std::lock_guard and its mutex do: a Kernel outlives the blocks,
// groups and images that it gave; it may be moved meanwhile. A kernel is used by one thread at a time.
#ifndef TAKHVOI_HPP
#define TAKHVOI_HPP
#include "takhvoi.h"
#include "takhvoi_result.hpp"
#include <array>
#include <cstdint>
#include <initializer_list>
#include <memory>
#include <new>
#include <string>
#include <string_view>
#include <utility>
#include <vector>

namespace takhvoi {

/// The name of a block: its handle, and whether it is one of the VM file.
class Name {
public:
    static constexpr Name of_memory(std::uint16_t handle) noexcept { return Name(handle); }
    static constexpr Name of_file(std::uint16_t handle) noexcept { return Name(0x10000u + handle); }

    constexpr std::uint16_t handle() const noexcept { return static_cast<std::uint16_t>(number_); }
    constexpr bool is_of_file() const noexcept { return number_ > 0xffff; }
    constexpr takhvoi_block block() const noexcept { return takhvoi_block{number_}; }
    friend constexpr bool operator==(Name a, Name b) noexcept { return a.number_ == b.number_; }
    friend constexpr bool operator!=(Name a, Name b) noexcept { return a.number_ != b.number_; }

private:
    constexpr explicit Name(std::uint32_t number) noexcept : number_(number) {}
    std::uint32_t number_;
};

namespace detail {

/// A chunk of a block that is locked.
class Place {
public:
    /// The chunk's handle.
    std::uint16_t handle() const noexcept { return chunk_; }

protected:
    Place(takhvoi_kernel *kernel, takhvoi_block block, std::uint16_t chunk) noexcept : kernel_(kernel), block_(block), chunk_(chunk) {}
    takhvoi_kernel *kernel_;
    takhvoi_block block_;
    std::uint16_t chunk_;
};

/// All handles that a call lists, in as much room as it wants.
template <typename Call> Result<std::vector<std::uint16_t>> listed(Call call) {
    std::vector<std::uint16_t> into(1024);
    for (;;) {
        std::uint32_t count = 0;
        const std::uint32_t status = call(into.data(), into.size(), &count);
        if (status != TAKHVOI_DONE) return Fault{status};
        const bool is_whole = count <= into.size();
        into.resize(count);
        if (is_whole) return into;
    }
}

/// What gives back a lock, an image, a kernel.
struct Unlock {
    takhvoi_block block;
    void operator()(takhvoi_kernel *kernel) const noexcept { (void)!takhvoi_unlock(kernel, block); }
};
struct Unload {
    std::uint32_t image;
    void operator()(takhvoi_file *file) const noexcept { (void)!takhvoi_unload(&file->kernel, image); }
};
struct Close {
    void operator()(takhvoi_file *file) const noexcept {
        (void)takhvoi_file_close(file);
        delete file;
    }
};

} // namespace detail

/// A chunk of a locked block, while it is locked. Any handle may be asked for: the calls say whether there is a chunk.
class Chunk : public detail::Place {
public:
    Result<std::uint16_t> size() const {
        return detail::told<std::uint16_t>([&](std::uint16_t *len) { return takhvoi_lsize(kernel_, block_, chunk_, len); });
    }
    /// Copies the bytes from `at` on into the room, which they fill.
    Result<void> read(std::uint16_t at, Room into) const {
        return detail::ended(takhvoi_read(kernel_, block_, chunk_, at, into.data(), into.size()));
    }
    /// All of its bytes.
    Result<std::vector<std::uint8_t>> read() const {
        return detail::whole([&] { return size(); }, [&](Room into) { return read(0, into); });
    }
    /// Copies the bytes over those from `at` on.
    Result<void> write(std::uint16_t at, Bytes from) const {
        return detail::ended(takhvoi_write(kernel_, block_, chunk_, at, from.data(), from.size()));
    }
    /// Gives it so many bytes: its first ones that fit, and zeros behind them.
    Result<void> resize(std::uint16_t len) const { return detail::ended(takhvoi_lrealloc(kernel_, block_, chunk_, len)); }
    /// Inserts zero bytes.
    Result<void> insert(std::uint16_t at, std::uint16_t len) const { return detail::ended(takhvoi_lins(kernel_, block_, chunk_, at, len)); }
    Result<void> erase(std::uint16_t at, std::uint16_t len) const { return detail::ended(takhvoi_ldel(kernel_, block_, chunk_, at, len)); }
    /// Frees it: its handle is given again.
    Result<void> free() const { return detail::ended(takhvoi_lfree(kernel_, block_, chunk_)); }

private:
    friend class LockedBlock;
    using Place::Place;
};

/// An array in a chunk of a locked block, while it is locked.
class Array : public detail::Place {
public:
    Result<std::uint16_t> count() const {
        return detail::told<std::uint16_t>([&](std::uint16_t *count) { return takhvoi_cacount(kernel_, block_, chunk_, count); });
    }
    Result<std::uint16_t> size(std::uint16_t index) const {
        return detail::told<std::uint16_t>([&](std::uint16_t *len) { return takhvoi_casize(kernel_, block_, chunk_, index, len); });
    }
    Result<void> read(std::uint16_t index, std::uint16_t at, Room into) const {
        return detail::ended(takhvoi_caread(kernel_, block_, chunk_, index, at, into.data(), into.size()));
    }
    /// All bytes of an element.
    Result<std::vector<std::uint8_t>> read(std::uint16_t index) const {
        return detail::whole([&] { return size(index); }, [&](Room into) { return read(index, 0, into); });
    }
    Result<void> write(std::uint16_t index, std::uint16_t at, Bytes from) const {
        return detail::ended(takhvoi_cawrite(kernel_, block_, chunk_, index, at, from.data(), from.size()));
    }
    /// Appends an element with these bytes.
    Result<void> append(Bytes from) const {
        if (from.size() > 0xffff) return Fault{TAKHVOI_TOO_BIG};
        auto last = count();
        if (!last) return last.fault();
        auto done = detail::ended(takhvoi_caadd(kernel_, block_, chunk_, static_cast<std::uint16_t>(from.size())));
        return done ? write(*last, 0, from) : done;
    }
    /// Inserts an element of zero bytes.
    Result<void> insert(std::uint16_t index, std::uint16_t len) const {
        return detail::ended(takhvoi_cains(kernel_, block_, chunk_, index, len));
    }
    Result<void> resize(std::uint16_t index, std::uint16_t len) const {
        return detail::ended(takhvoi_caresize(kernel_, block_, chunk_, index, len));
    }
    Result<void> erase(std::uint16_t index) const { return detail::ended(takhvoi_cadel(kernel_, block_, chunk_, index)); }
    Result<void> clear() const { return detail::ended(takhvoi_cazero(kernel_, block_, chunk_)); }

private:
    friend class LockedBlock;
    using Place::Place;
};

/// A lock on a block or group, which is given back at its end. It may be moved, not copied.
class LockedBlock {
public:
    Name name() const noexcept { return name_; }
    std::uint16_t handle() const noexcept { return name_.handle(); }
    /// Marks a block of the VM file, before its chunks are changed. A block of memory wants no mark.
    Result<void> mark() const { return name_.is_of_file() ? detail::ended(takhvoi_vdirty(kernel(), handle())) : Result<void>(); }

    /// Makes a chunk of zero bytes.
    Result<Chunk> make_chunk(std::uint16_t len) const & {
        auto made = detail::told<std::uint16_t>([&](std::uint16_t *chunk) { return takhvoi_lalloc(kernel(), block(), len, chunk); });
        if (!made) return made.fault();
        return chunk(*made);
    }
    /// Makes a chunk with these bytes.
    Result<Chunk> make_chunk_of(Bytes from) const & {
        if (from.size() > 0xffff) return Fault{TAKHVOI_TOO_BIG};
        auto made = make_chunk(static_cast<std::uint16_t>(from.size()));
        if (!made) return made;
        auto done = made->write(0, from);
        if (!done) return done.fault();
        return made;
    }
    /// Makes an array of elements of one size, or of sizes of their own where that is 0.
    Result<Array> make_array(std::uint16_t element_size) const & {
        auto made = detail::told<std::uint16_t>([&](std::uint16_t *chunk) { return takhvoi_canew(kernel(), block(), element_size, chunk); });
        if (!made) return made.fault();
        return array(*made);
    }
    /// The handles of all its chunks; of a group, those of its items.
    Result<std::vector<std::uint16_t>> chunks() const {
        return detail::listed(
            [&](std::uint16_t *into, std::size_t room, std::uint32_t *count) { return takhvoi_llist(kernel(), block(), into, room, count); });
    }
    Chunk chunk(std::uint16_t handle) const & noexcept { return Chunk(kernel(), block(), handle); }
    Array array(std::uint16_t handle) const & noexcept { return Array(kernel(), block(), handle); }
    /// Packs the block: what its chunks leave is given back.
    Result<void> contract() const { return detail::ended(takhvoi_lcontract(kernel(), block())); }

    // Of a temporary, which is unlocked at once, no chunk is had.
    Result<Chunk> make_chunk(std::uint16_t) && = delete;
    Result<Chunk> make_chunk_of(Bytes) && = delete;
    Result<Array> make_array(std::uint16_t) && = delete;
    Chunk chunk(std::uint16_t) && = delete;
    Array array(std::uint16_t) && = delete;

private:
    friend class Kernel;
    LockedBlock(takhvoi_kernel *kernel, Name name) noexcept : kernel_(kernel, {name.block()}), name_(name) {}
    takhvoi_kernel *kernel() const noexcept { return kernel_.get(); }
    takhvoi_block block() const noexcept { return name_.block(); }
    std::unique_ptr<takhvoi_kernel, detail::Unlock> kernel_;
    Name name_;
};

/// What a run leaves: the words w0 to w7, how many words it put out, and how many instructions it took.
struct Outcome {
    std::array<std::uint16_t, 8> words{};
    std::uint32_t count = 0;
    std::uint32_t steps = 0;
};

/// A public routine of an image, while that is loaded.
class Routine {
public:
    /// What it does to what is not its own, with the routines that it calls: bits TAKHVOI_EFFECT_...
    Result<std::uint32_t> effects() const {
        return detail::told<std::uint32_t>([&](std::uint32_t *bits) { return takhvoi_effects(&file_->kernel, image_, routine_, bits); });
    }
    /// How many steps a run of it takes at most.
    Result<std::uint32_t> budget() const {
        return detail::told<std::uint32_t>([&](std::uint32_t *steps) { return takhvoi_budget(&file_->kernel, image_, routine_, steps); });
    }
    using Words = std::array<std::uint16_t, 8>;
    /// The locked blocks of the VM file that are lent for s0, s1, s2, s3; nullptr for a slot that borrows none.
    using Lent = std::initializer_list<const LockedBlock *>;

    std::uint16_t number() const noexcept { return routine_; }
    /// The number of its image, and the file, as takhvoi.h has them.
    std::uint32_t image() const noexcept { return image_; }
    takhvoi_file *get() const noexcept { return file_; }
    /// Runs it. The first words that it puts out come into `output`, as many as there is room for.
    Result<Outcome> run(const Words &words, Lent lent, std::uint16_t *output, std::size_t room) const {
        std::uint16_t none = 0, handles[4] = {0, 0, 0, 0};
        std::size_t slot = 0;
        for (const LockedBlock *block : lent) {
            if (slot == 4 || (block && !block->name().is_of_file())) return Fault{TAKHVOI_NOT_ADMITTED};
            handles[slot++] = block ? block->handle() : std::uint16_t{0};
        }
        return detail::told<Outcome>([&](Outcome *outcome) {
            outcome->words = words;
            return takhvoi_file_run(file_, image_, routine_, outcome->words.data(), handles, room ? output : &none, room, &outcome->count,
                                    &outcome->steps);
        });
    }
    /// Runs it, and gives the words that it puts out, at most 1,024.
    Result<std::vector<std::uint16_t>> output_of(const Words &words, Lent lent = {}) const {
        std::vector<std::uint16_t> output(1024);
        auto outcome = run(words, lent, output.data(), output.size());
        if (!outcome) return outcome.fault();
        if (outcome->count < output.size()) output.resize(outcome->count);
        return output;
    }

private:
    friend class Image;
    Routine(takhvoi_file *file, std::uint32_t image, std::uint16_t routine) noexcept : file_(file), image_(image), routine_(routine) {}
    takhvoi_file *file_;
    std::uint32_t image_;
    std::uint16_t routine_;
};

/// An image that the verifier accepted, which is unloaded at its end. It may be moved, not copied.
class Image {
public:
    /// The routine with a name: no two of an image have the same.
    Result<Routine> routine(std::string_view name) const & {
        Bytes bytes(name);
        auto found = detail::told<std::uint16_t>(
            [&](std::uint16_t *number) { return takhvoi_routine(&file_->kernel, number_, bytes.data(), bytes.size(), number); });
        if (!found) return found.fault();
        return routine_at(*found);
    }
    Routine routine_at(std::uint16_t number) const & noexcept { return Routine(file_.get(), number_, number); }
    /// Its number, and the kernel, as takhvoi.h has them.
    std::uint32_t number() const noexcept { return number_; }
    takhvoi_kernel *kernel() const noexcept { return &file_->kernel; }
    Result<Routine> routine(std::string_view) && = delete;
    Routine routine_at(std::uint16_t) && = delete;

private:
    friend class Kernel;
    Image(takhvoi_file *file, std::uint32_t number) noexcept : file_(file, {number}), number_(number) {}
    std::unique_ptr<takhvoi_file, detail::Unload> file_;
    std::uint32_t number_;
};

/// A kernel, with its VM file and the images that were loaded. It is closed at its end, and what no commit has kept is lost.
class Kernel {
public:
    static constexpr std::uint32_t region_of_1_mib = 1 << 20;

    /// A kernel on a VM file in memory, which goes with it.
    static Result<Kernel> in_memory(std::uint32_t area, std::uint32_t region = region_of_1_mib) {
        return opened([&](takhvoi_file *file, std::uint64_t *) { return takhvoi_new(&file->kernel, area, region); });
    }
    /// A kernel on a new file of the system.
    static Result<Kernel> create(const std::string &path, std::uint32_t area, std::uint32_t region = region_of_1_mib) {
        return opened([&](takhvoi_file *file, std::uint64_t *) { return takhvoi_file_create(file, path.c_str(), area, region); });
    }
    /// A kernel on a file that is there. Where it is no VM file, the fault's place is the offset of the first field that is faulty or cut.
    static Result<Kernel> open(const std::string &path, std::uint32_t region = region_of_1_mib) {
        return opened([&](takhvoi_file *file, std::uint64_t *place) { return takhvoi_file_open(file, path.c_str(), region, place); });
    }
    /// The kernel as takhvoi.h has it.
    takhvoi_kernel *get() const noexcept { return &file_->kernel; }

    /// Makes a block of memory, and locks it.
    Result<LockedBlock> make_block() & {
        return locked(Name::of_memory, [&](std::uint16_t *handle) { return takhvoi_mnew(get(), handle); });
    }
    /// Makes a block of the VM file, locks it and marks it.
    Result<LockedBlock> make_file_block(std::uint16_t user_id) & {
        return locked(Name::of_file, [&](std::uint16_t *handle) { return takhvoi_vnew(get(), user_id, handle); });
    }
    Result<LockedBlock> lock(Name name) & {
        const std::uint16_t handle = name.handle();
        const std::uint32_t status = name.is_of_file() ? takhvoi_vlock(get(), handle) : takhvoi_mlock(get(), handle);
        if (status != TAKHVOI_DONE) return Fault{status};
        return LockedBlock(get(), name);
    }
    /// Frees a block that is not locked.
    Result<void> free(Name name) {
        return detail::ended((name.is_of_file() ? takhvoi_vfree : takhvoi_mfree)(get(), name.handle()));
    }
    /// How often a block or group is locked; 0 where there is none.
    Result<std::uint16_t> locks(Name name) const {
        return detail::told<std::uint16_t>([&](std::uint16_t *count) { return takhvoi_locks(get(), name.block(), count); });
    }

    /// The first block of the VM file above a handle that has a user ID.
    Result<Name> find(std::uint16_t user_id, std::uint16_t above = 0) const {
        return named([&](std::uint16_t *handle) { return takhvoi_vfind(get(), above, user_id, handle); });
    }
    Result<std::uint16_t> user_id(std::uint16_t handle) const {
        return detail::told<std::uint16_t>([&](std::uint16_t *user_id) { return takhvoi_vuid(get(), handle, user_id); });
    }
    Result<bool> is_marked(std::uint16_t handle) const {
        return flag([&](std::uint16_t *marked) { return takhvoi_marked(get(), handle, marked); });
    }
    /// The map block; its handle is 0 where there is none.
    Result<Name> map_block() const {
        return named([&](std::uint16_t *handle) { return takhvoi_vgetmap(get(), handle); });
    }
    Result<void> set_map_block(Name name) { return detail::ended(takhvoi_vsetmap(get(), name.handle())); }

    /// The handles of all blocks of memory; of all blocks and groups of the VM file; and of all items of a group.
    Result<std::vector<std::uint16_t>> blocks() const {
        return detail::listed([&](std::uint16_t *into, std::size_t room, std::uint32_t *count) { return takhvoi_mlist(get(), into, room, count); });
    }
    Result<std::vector<std::uint16_t>> file_blocks() const {
        return detail::listed([&](std::uint16_t *into, std::size_t room, std::uint32_t *count) { return takhvoi_vlist(get(), into, room, count); });
    }
    Result<std::vector<std::uint16_t>> items(std::uint16_t group) const {
        return detail::listed(
            [&](std::uint16_t *into, std::size_t room, std::uint32_t *count) { return takhvoi_ilist(get(), group, into, room, count); });
    }

    /// Makes a group of items. The calls on its items bring it into memory and mark it by themselves.
    Result<std::uint16_t> make_group() {
        return detail::told<std::uint16_t>([&](std::uint16_t *group) { return takhvoi_gnew(get(), group); });
    }
    Result<void> free_group(std::uint16_t group) { return detail::ended(takhvoi_gfree(get(), group)); }
    Result<std::uint16_t> make_item(std::uint16_t group, std::uint16_t len) {
        return detail::told<std::uint16_t>([&](std::uint16_t *item) { return takhvoi_inew(get(), group, len, item); });
    }
    Result<void> resize_item(std::uint16_t group, std::uint16_t item, std::uint16_t len) {
        return detail::ended(takhvoi_irealloc(get(), group, item, len));
    }
    Result<void> insert_in_item(std::uint16_t group, std::uint16_t item, std::uint16_t at, std::uint16_t len) {
        return detail::ended(takhvoi_iins(get(), group, item, at, len));
    }
    Result<void> erase_in_item(std::uint16_t group, std::uint16_t item, std::uint16_t at, std::uint16_t len) {
        return detail::ended(takhvoi_idel(get(), group, item, at, len));
    }
    Result<void> free_item(std::uint16_t group, std::uint16_t item) { return detail::ended(takhvoi_ifree(get(), group, item)); }
    /// Locks the group of an item that is there: the item is the chunk with its handle.
    Result<LockedBlock> lock_item(std::uint16_t group, std::uint16_t item) & {
        std::uint16_t len = 0;
        const std::uint32_t status = takhvoi_ilock(get(), group, item, &len);
        if (status != TAKHVOI_DONE) return Fault{status};
        return LockedBlock(get(), Name::of_file(group));
    }
    /// The group and the item of the map item; 0 and 0 where there is none.
    Result<std::pair<std::uint16_t, std::uint16_t>> map_item() const {
        using Item = std::pair<std::uint16_t, std::uint16_t>;
        return detail::told<Item>([&](Item *item) { return takhvoi_igetmap(get(), &item->first, &item->second); });
    }
    Result<void> set_map_item(std::uint16_t group, std::uint16_t item) { return detail::ended(takhvoi_isetmap(get(), group, item)); }

    /// Commits, for which no block of the VM file is locked. Each happens whole or not at all.
    Result<void> update() { return detail::ended(takhvoi_file_update(file_.get())); }
    Result<void> save() { return detail::ended(takhvoi_file_save(file_.get())); }
    Result<void> revert() { return detail::ended(takhvoi_file_revert(file_.get())); }
    /// Whether the VM file is sure of what it keeps. Where it is not, it takes no commit, and is opened again.
    Result<bool> is_sure() const {
        return flag([&](std::uint16_t *sure) { return takhvoi_is_sure(get(), sure); });
    }

    /// Lets all blocks in memory together have `more` bytes more than they have, at most the whole region, until the next such call.
    Result<void> limit(std::uint32_t more) { return detail::ended(takhvoi_limit(get(), more)); }
    /// Lets new blocks of memory get only handles up to `last`, until the next such call; 1,024 takes the limit away.
    Result<void> limit_blocks(std::uint16_t last) { return detail::ended(takhvoi_limit_blocks(get(), last)); }

    /// Loads an image, which the verifier checks. The fault's place is the offset of the first faulty byte (TAKHVOI_BAD_IMAGE), or the first
    /// instruction that its rule refuses (TAKHVOI_REFUSED).
    Result<Image> load(Bytes image) & {
        Fault fault;
        std::uint32_t number = 0;
        fault.status = takhvoi_load(get(), image.data(), image.size(), &number, &fault.place, &fault.rule);
        if (fault.status != TAKHVOI_DONE) return fault;
        return Image(file_.get(), number);
    }

    /// Loads an image whose public routines do only what has its bit in `grants` (TAKHVOI_EFFECT_..). The fault of TAKHVOI_NOT_GRANTED has the
    /// routine, the instruction as its place, and the effect.
    Result<Image> load_granted(Bytes image, std::uint32_t grants) & {
        Fault fault;
        std::uint32_t number = 0;
        fault.status = takhvoi_load_granted(get(), image.data(), image.size(), grants, &number, &fault.place, &fault.rule, &fault.routine,
                                            &fault.effect);
        if (fault.status != TAKHVOI_DONE) return fault;
        return Image(file_.get(), number);
    }

    // Of a temporary, which is closed at once, nothing is had.
    Result<LockedBlock> make_block() && = delete;
    Result<LockedBlock> make_file_block(std::uint16_t) && = delete;
    Result<LockedBlock> lock(Name) && = delete;
    Result<LockedBlock> lock_item(std::uint16_t, std::uint16_t) && = delete;
    Result<Image> load(Bytes) && = delete;
    Result<Image> load_granted(Bytes, std::uint32_t) && = delete;

private:
    explicit Kernel(takhvoi_file *file) noexcept : file_(file) {}
    template <typename Call> static Result<Kernel> opened(Call call) {
        Kernel kernel(new (std::nothrow) takhvoi_file TAKHVOI_FILE_NONE);
        if (!kernel.file_) return Fault{TAKHVOI_NO_MEMORY};
        Fault fault;
        fault.status = call(kernel.file_.get(), &fault.place);
        if (fault.status != TAKHVOI_DONE) return fault;
        return kernel;
    }
    template <typename Call> Result<LockedBlock> locked(Name (*name)(std::uint16_t), Call call) {
        auto made = detail::told<std::uint16_t>(call);
        if (!made) return made.fault();
        return LockedBlock(get(), name(*made));
    }
    template <typename Call> static Result<Name> named(Call call) {
        auto handle = detail::told<std::uint16_t>(call);
        if (!handle) return handle.fault();
        return Name::of_file(*handle);
    }
    template <typename Call> static Result<bool> flag(Call call) {
        auto is = detail::told<std::uint16_t>(call);
        if (!is) return is.fault();
        return *is != 0;
    }
    std::unique_ptr<takhvoi_file, detail::Close> file_;
};

namespace detail {

/// What a call makes of bytes, in as much room as it wants.
template <typename Made, typename Call> Result<Made> made(Bytes from, Call call) {
    Made into(std::size_t{1} << 16, 0);
    for (;;) {
        Fault fault;
        fault.status = call(from.data(), from.size(), reinterpret_cast<std::uint8_t *>(into.data()), into.size(), &fault.place);
        if (fault.status != TAKHVOI_DONE && fault.status != TAKHVOI_SHORT_BUFFER) return fault;
        into.resize(static_cast<std::size_t>(fault.place), 0);
        if (fault.status == TAKHVOI_DONE) return into;
    }
}

} // namespace detail

/// The image of an assembly text. The fault's place is the line of a fault (TAKHVOI_BAD_IMAGE), or of a routine for which no rows are found
/// (TAKHVOI_REFUSED).
inline Result<std::vector<std::uint8_t>> assemble(Bytes text) { return detail::made<std::vector<std::uint8_t>>(text, takhvoi_assemble); }
/// The image of a source of the structured language. The fault's place is the line of a fault (TAKHVOI_BAD_IMAGE).
inline Result<std::vector<std::uint8_t>> compile(Bytes source) { return detail::made<std::vector<std::uint8_t>>(source, takhvoi_compile); }
/// The listing of an image; the same with what is known at each instruction, and where it is refused, why.
inline Result<std::string> list(Bytes image) { return detail::made<std::string>(image, takhvoi_list); }
inline Result<std::string> explain(Bytes image) { return detail::made<std::string>(image, takhvoi_explain); }

/// What there is to say of a text. `line` is that of the first thing that is wrong, 0 if the verifier accepts its image; `column` counts from 1,
/// and is 0 if the whole line is meant.
struct Explanation {
    std::string text;
    std::uint64_t line;
    std::uint64_t column;
};
namespace detail {

/// What such a call says of a text.
template <typename Call> Result<Explanation> explained(Bytes text, Call call) {
    std::uint64_t line = 0, column = 0;
    auto said = made<std::string>(text, [&](const std::uint8_t *from, std::size_t size, std::uint8_t *into, std::size_t room, std::uint64_t *told) {
        return call(from, size, into, room, told, &line, &column);
    });
    if (!said) return said.fault();
    return Explanation{std::move(*said), line, column};
}

} // namespace detail

inline Result<Explanation> explain_text(Bytes text) { return detail::explained(text, takhvoi_explain_text); }
/// The first fault of a source of the structured language; empty, with line 0, if there is none.
inline Result<Explanation> explain_source(Bytes source) { return detail::explained(source, takhvoi_explain_source); }

} // namespace takhvoi

#include "takhvoi_shown.hpp"
#endif

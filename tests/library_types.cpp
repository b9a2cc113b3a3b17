// What takhvoi.hpp says beside the calls: locks are given back, moves leave nothing behind, empty bytes are no fault, faults have places.
// It is compiled with exceptions and without. usage: library_types
#include "takhvoi.hpp"
#include <cstdio>

using namespace takhvoi;

static_assert(!std::is_copy_constructible_v<Kernel> && std::is_nothrow_move_constructible_v<Kernel>);
static_assert(!std::is_copy_constructible_v<LockedBlock> && std::is_nothrow_move_constructible_v<LockedBlock>);
static_assert(!std::is_copy_constructible_v<Image> && std::is_nothrow_move_assignable_v<Image>);
static_assert(Name::of_file(7).handle() == 7 && Name::of_file(7) != Name::of_memory(7) && Name::of_memory(65535).handle() == 65535);

namespace {

int faults;

void check(bool holds, const char *what) {
    if (holds) return;
    std::printf("not so: %s\n", what);
    faults++;
}

bool is(const std::vector<std::uint8_t> &bytes, std::string_view text) {
    return std::string_view(reinterpret_cast<const char *>(bytes.data()), bytes.size()) == text;
}

void locks(Kernel &kernel) {
    LockedBlock block = kernel.make_block().value();
    const Name name = block.name();
    {
        LockedBlock again = kernel.lock(name).value();
        check(kernel.locks(name).value() == 2, "two locks");
        LockedBlock moved = std::move(again);
        check(kernel.locks(name).value() == 2, "a move leaves the lock");
        moved = kernel.make_block().value();
        check(kernel.locks(name).value() == 1, "an assignment gives the lock back");
    }
    check(kernel.free(name).status() == TAKHVOI_LOCKED, "a locked block is not freed");
    Kernel moved = std::move(kernel);
    check(block.make_chunk(3).has_value(), "a block stays where the kernel is moved");
    check(block.chunks().value() == std::vector<std::uint16_t>{16}, "its chunks");
    check(moved.blocks().value().size() == 2 && moved.file_blocks().value().empty(), "blocks");
    kernel = std::move(moved);
    { const LockedBlock last = std::move(block); }
    check(kernel.free(name).has_value(), "a block is freed");
    check(kernel.limit(0) && kernel.make_block().status() == TAKHVOI_NO_ROOM && kernel.limit(UINT32_MAX), "a limit on memory");
    check(kernel.limit_blocks(0) && kernel.make_block().status() == TAKHVOI_NO_HANDLE && kernel.limit_blocks(1024), "a limit on blocks");
}

void bytes(Kernel &kernel) {
    const LockedBlock block = kernel.make_file_block(5).value();
    const Chunk chunk = block.make_chunk_of("abcdef").value();
    std::array<char, 3> three{};
    check(chunk.read(2, three) && three[0] == 'c' && three[2] == 'e', "a read into an array");
    check(chunk.write(1, std::vector<std::uint8_t>{'x', 'y'}).has_value() && is(chunk.read().value(), "axydef"), "a write of a vector");
    check(chunk.write(6, "").has_value() && chunk.read(6, Room(nullptr, 0)).has_value(), "no bytes");
    check(chunk.write(5, "xy").status() == TAKHVOI_SHORT, "no write past the end");
    check(chunk.erase(0, 1) && chunk.insert(5, 1) && chunk.resize(7) && is(chunk.read().value(), std::string("xydef\0\0", 7)), "changes");
    check(chunk.free() && chunk.size().status() == TAKHVOI_BAD_CHUNK, "a freed chunk");
    check(block.make_chunk_of(std::string(65536, 'x')).status() == TAKHVOI_TOO_BIG, "no chunk of 65,536 bytes");
    const Array array = block.make_array(0).value();
    check(array.append("b") && array.insert(0, 2) && array.write(0, 0, "aa") && array.append(""), "elements");
    check(array.count().value() == 3 && is(array.read(0).value(), "aa") && array.read(2).value().empty(), "what elements have");
    check(array.resize(0, 1) && array.erase(1) && array.size(0).value() == 1 && array.clear() && array.count().value() == 0, "elements go");
}

void commits(Kernel &kernel) {
    const Name name = kernel.find(5).value();
    check(kernel.user_id(name.handle()).value() == 5 && kernel.is_marked(name.handle()).value(), "the block of the file");
    { const LockedBlock block = kernel.lock(name).value(); check(kernel.save().status() == TAKHVOI_FILE_LOCKED, "no save over a lock"); }
    check(kernel.set_map_block(name) && kernel.save() && !kernel.is_marked(name.handle()).value(), "a save");
    check(kernel.free(name) && kernel.find(5).value().handle() == 0 && kernel.update() && kernel.revert(), "a revert");
    check(kernel.map_block().value() == name && kernel.is_sure().value(), "what the revert brings back");
    const std::uint16_t group = kernel.make_group().value(), item = kernel.make_item(group, 2).value();
    check(kernel.insert_in_item(group, item, 2, 1) && kernel.erase_in_item(group, item, 0, 1) && kernel.set_map_item(group, item), "an item");
    {
        const LockedBlock locked = kernel.lock_item(group, item).value();
        check(locked.mark() && locked.chunk(item).write(0, "no") && is(locked.chunk(item).read().value(), "no"), "its bytes");
    }
    check(kernel.map_item().value() == std::make_pair(group, item) && kernel.resize_item(group, item, 9), "the map item");
    check(kernel.free_item(group, item) && kernel.free_group(group), "they go");
}

void routines(Kernel &kernel) {
    const auto image = assemble("routine add public budget 4\n ADD w0 w0 w1\n OUT w0 full\nfull:\n RET\n").value();
    const Image loaded = kernel.load(image).value();
    const Routine add = loaded.routine("add").value();
    std::uint16_t put[1] = {0};
    const Outcome outcome = add.run({20, 22}, {}, put, 1).value();
    check(outcome.words[0] == 42 && outcome.count == 1 && put[0] == 42 && outcome.steps == 3, "a run");
    check(add.run({1, 2}, {}, nullptr, 0).value().count == 1 && add.output_of({1, 2}).value().size() == 1, "a run without room");
    const LockedBlock memory = kernel.make_block().value();
    check(add.run({}, {&memory}, put, 1).status() == TAKHVOI_NOT_ADMITTED, "no block of memory is lent");
    check(add.budget().value() == 4 && loaded.routine_at(1).budget().status() == TAKHVOI_NOT_ADMITTED, "budgets");
    check(loaded.routine("sub").status() == TAKHVOI_NOT_ADMITTED, "no such routine");
    check(list(image).value().find("routine add") != std::string::npos && explain(image).value().find("ADD") != std::string::npos, "texts");
    auto said = explain_text("routine f public budget 1\n ldi w0 5\n");
    check(said.has_value() && said->line == 2 && said->column == 2 && !said->text.empty(), "what is wrong with a text");
    const auto compiled = compile("pub fn double(n) { out(n + n)?; }").value();
    const Image doubles = kernel.load(compiled).value();
    check(doubles.routine("double").value().output_of({21}).value() == std::vector<std::uint16_t>{42}, "a compiled source");
    const auto fault = explain_source("pub fn f() {\n    out(n)?;\n}\n").value();
    check(fault.line == 2 && fault.column == 9 && fault.text.back() == '\n', "the fault of a source");
    check(explain_source("pub fn f() { }").value().text.empty() && compile("x").fault().place == 1, "sources with and without a fault");
    const auto bad = assemble("routine f public budget 1\n x\n");
    check(bad.status() == TAKHVOI_BAD_IMAGE && bad.fault().place == 2, "the line of a fault");
    check(kernel.load("none").status() == TAKHVOI_BAD_IMAGE, "no image");
}

void shown() {
    Kernel kernel = Kernel::in_memory(1 << 16, 65536).value();
    const LockedBlock block = kernel.make_block().value();
    const Chunk chunk = block.make_chunk_of("abc").value();
    const auto blocks = places(kernel).value();
    check(blocks.size() == 1 && blocks[0].block.number == block.handle() && blocks[0].locks == 1, "a block has a place");
    const auto shown_chunks = chunks(kernel, block.name()).value();
    check(shown_chunks.size() == 1 && shown_chunks[0].handle == chunk.handle() && shown_chunks[0].len == 3, "a chunk has a place");
    check(is(region(kernel, shown_chunks[0].at, 3).value(), "abc") && region(kernel, 65536, 0).has_value(), "bytes of the region");
    check(region(kernel, 65535, 2).status() == TAKHVOI_BAD_SIZE, "no bytes past the region");
    check(chunks(kernel, Name::of_file(1)).status() == TAKHVOI_BAD_HANDLE && entries(kernel).value().empty(), "nothing of the file");
    const char *text = "routine f public budget 3\n LDI w0 5\n ADD w0 w0 w0\n RET\n";
    const Image image = kernel.load(assemble(text).value()).value();
    check(routines(image).value().size() == 1 && lines(text).value() == std::vector<std::uint32_t>{2, 3, 4}, "a routine and its lines");
    check(findings(text).value().empty() && findings("x").value().size() == 1 && !findings("x")->front().sentence.empty(), "findings");
    const auto traced = trace(image.routine_at(0), {}, {}, 1, 9).value();
    check(traced.states.size() == 2 && traced.states[1].words[0] == 10 && traced.outcome.steps == 3, "the states of a run");
}

void exceptions() {
#if defined(__cpp_exceptions)
    try {
        Kernel::open("/none/there").value();
        check(false, "there is no such file");
    } catch (const Error &error) {
        check(error.status() == TAKHVOI_NO_FILE && std::string_view(error.what()) == "no such file or folder", "what an error says");
    }
#endif
}

} // namespace

int main() {
    Kernel kernel = Kernel::in_memory(1 << 16).value();
    check(Kernel::in_memory(513).status() == TAKHVOI_BAD_SIZE, "no area of 513 bytes");
    check(Kernel::open("/none/there").status() == TAKHVOI_NO_FILE, "no file");
    locks(kernel);
    bytes(kernel);
    commits(kernel);
    routines(kernel);
    shown();
    exceptions();
    std::puts(faults ? "faults" : "all is so");
}

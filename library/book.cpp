// The address book of book.c in C++: the same file, the same words, the same answers.
#include "takhvoi.hpp"
#include <cstdio>
#include <cstring>
#include <fstream>
#include <iterator>

namespace {

using takhvoi::Array, takhvoi::Error, takhvoi::Kernel, takhvoi::LockedBlock, takhvoi::Name;

constexpr std::uint32_t area = 1 << 16;
constexpr std::uint16_t user_id = 1;
// The chunk that has the array: the first one of a new block.
constexpr std::uint16_t entries = 16;

Kernel open_book(const char *path) {
    auto opened = Kernel::open(path);
    if (opened || opened.status() != TAKHVOI_NO_FILE) return std::move(opened).value();
    Kernel kernel = Kernel::create(path, area).value();
    Name name = Name::of_file(0);
    {
        LockedBlock block = kernel.make_file_block(user_id).value();
        block.make_array(0).value();
        name = block.name();
    }
    kernel.set_map_block(name).value();
    kernel.save().value();
    return kernel;
}

void add(Kernel &kernel, std::string_view person, std::string_view number) {
    {
        LockedBlock block = kernel.lock(kernel.map_block().value()).value();
        block.mark().value();
        block.array(entries).append(std::string(person) + '\0' + std::string(number)).value();
    }
    kernel.save().value();
}

void list(Kernel &kernel) {
    const LockedBlock block = kernel.lock(kernel.map_block().value()).value();
    const Array array = block.array(entries);
    for (std::uint16_t i = 0; i < array.count().value(); i++) {
        auto entry = array.read(i).value();
        entry.push_back(0);
        const char *person = reinterpret_cast<const char *>(entry.data());
        std::printf("%s %s\n", person, person + std::strlen(person) + 1);
    }
}

// Says where a text or an image is at fault.
template <typename T> T accepted(takhvoi::Result<T> result, const char *where) {
    if (result.status() == TAKHVOI_BAD_IMAGE || result.status() == TAKHVOI_REFUSED)
        std::fprintf(stderr, "at %s %llu: ", where, static_cast<unsigned long long>(result.fault().place));
    return std::move(result).value();
}

void run(Kernel &kernel, const char *path, char **given) {
    std::ifstream file(path, std::ios::binary);
    if (!file) throw Error({TAKHVOI_NO_FILE});
    const std::string text{std::istreambuf_iterator<char>(file), {}};
    const auto bytes = accepted(takhvoi::assemble(text), "line");
    const auto image = accepted(kernel.load(bytes), "instruction");
    takhvoi::Routine::Words words{};
    for (std::size_t i = 0; i < words.size() && given[i]; i++) words[i] = static_cast<std::uint16_t>(std::atoi(given[i]));
    const LockedBlock block = kernel.lock(kernel.map_block().value()).value();
    const takhvoi::Routine first = image.routine_at(0);
    for (std::uint16_t word : first.output_of(words, {&block}).value()) std::printf("%u\n", word);
}

} // namespace

int main(int argc, char **argv) try {
    if (argc < 3) return 2;
    Kernel kernel = open_book(argv[1]);
    const std::string_view what = argv[2];
    if (argc == 5 && what == "add") add(kernel, argv[3], argv[4]);
    else if (argc == 3 && what == "list") list(kernel);
    else if (argc >= 4 && what == "run") run(kernel, argv[3], argv + 4);
    else throw Error({TAKHVOI_NOT_ADMITTED});
} catch (const Error &error) {
    std::fprintf(stderr, "book: %s\n", error.what());
    return 1;
}

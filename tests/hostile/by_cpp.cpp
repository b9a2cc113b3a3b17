// Loads the routines of strangers of a folder, each under the grants of its row of the table and then under all, and runs it on a new file:
// `hostile FOLDER FILE`. tests/hostile/judge.sh says what it prints.
#include "takhvoi.hpp"
#include <cstdio>
#include <fstream>
#include <iostream>
#include <iterator>
#include <sstream>

namespace {

constexpr std::uint32_t area = 1 << 16, all = 0xff7f;

struct Row {
    std::string name;
    std::uint32_t grants;
    std::vector<std::uint16_t> lent;
};

std::vector<std::uint16_t> numbers(const std::string &list) {
    std::vector<std::uint16_t> found;
    std::istringstream in(list == "-" ? "" : list);
    for (std::string one; std::getline(in, one, ',');) found.push_back(static_cast<std::uint16_t>(std::stoul(one)));
    return found;
}

std::string listed(const std::vector<std::uint16_t> &words) {
    std::string list;
    for (std::uint16_t word : words) list += (list.empty() ? "" : ",") + std::to_string(word);
    return list.empty() ? "-" : list;
}

class Host {
public:
    Host(std::string folder, std::string path) : folder_(std::move(folder)), path_(std::move(path)) {}

    void judge(const Row &row) const {
        std::remove(path_.c_str());
        {
            auto kernel = takhvoi::Kernel::create(path_, area).value();
            own(kernel, "setup");
            kernel.save().value();
            own(kernel, "prepare");
            const auto used = kernel.lock(takhvoi::Name::of_memory(1)).value();
            const auto image = kernel.load_granted(image_of(row.name), row.grants);
            const takhvoi::Fault fault = image ? takhvoi::Fault{} : image.fault();
            if (fault.status != TAKHVOI_NOT_GRANTED) throw takhvoi::Error(fault);
            std::cout << row.name << ' ' << fault.effect << ' ' << fault.routine << ' ' << fault.place << ' ' << own(kernel, "look");
            std::cout << ' ' << attack(kernel, row) << ' ' << own(kernel, "look");
        }
        auto kernel = takhvoi::Kernel::open(path_).value();
        std::cout << ' ' << own(kernel, "look") << '\n';
    }

private:
    std::vector<std::uint8_t> image_of(const std::string &name) const {
        std::ifstream in(folder_ + "/" + name + ".asm");
        const std::string text{std::istreambuf_iterator<char>(in), {}};
        return takhvoi::assemble(std::string_view(text)).value();
    }

    // Runs one of the host's own routines: what it puts out.
    std::string own(takhvoi::Kernel &kernel, const char *name) const {
        const auto image = kernel.load(image_of("host")).value();
        return listed(image.routine(name).value().output_of({}).value());
    }

    // Runs the stranger's routine with everything granted: what it puts out.
    std::string attack(takhvoi::Kernel &kernel, const Row &row) const {
        const auto image = kernel.load_granted(image_of(row.name), all).value();
        std::vector<takhvoi::LockedBlock> blocks;
        for (std::uint16_t handle : row.lent) blocks.push_back(kernel.lock(takhvoi::Name::of_file(handle)).value());
        const auto at = [&](std::size_t slot) { return slot < blocks.size() ? &blocks[slot] : nullptr; };
        return listed(image.routine(row.name).value().output_of({}, {at(0), at(1)}).value());
    }

    std::string folder_, path_;
};

} // namespace

int main(int argc, char **argv) {
    if (argc != 3) return 2;
    const Host host(argv[1], argv[2]);
    std::ifstream table(std::string(argv[1]) + "/table");
    for (std::string line; std::getline(table, line);) {
        std::string name, words, lent;
        std::uint32_t bits = 0;
        if (line.front() != '#' && std::istringstream(line) >> name >> words >> bits >> lent) host.judge({name, bits, numbers(lent)});
    }
    return 0;
}

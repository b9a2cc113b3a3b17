// Part of takhvoi.hpp: what a debugger or an editor shows. The records are those of takhvoi.h.
#ifndef TAKHVOI_SHOWN_HPP
#define TAKHVOI_SHOWN_HPP
#include "takhvoi.hpp"

namespace takhvoi {
namespace detail {

/// All records that a call writes, in as much room as it wants.
template <typename Record, typename Call> Result<std::vector<Record>> shown(Call call) {
    std::vector<Record> into(256);
    for (;;) {
        std::uint32_t count = 0;
        const std::uint32_t status = call(into.data(), into.size(), &count);
        if (status != TAKHVOI_DONE) return Fault{status};
        const bool fits = count <= into.size();
        into.resize(count);
        if (fits) return into;
    }
}

/// What stands for the room of nothing, since no pointer may be null.
template <typename Record> Record *room_of(std::vector<Record> &into) {
    static Record nothing;
    return into.empty() ? &nothing : into.data();
}

} // namespace detail

/// The blocks in memory, in the order in which they lie in the region.
inline Result<std::vector<takhvoi_place>> places(const Kernel &kernel) {
    return detail::shown<takhvoi_place>(
        [&](takhvoi_place *into, std::size_t room, std::uint32_t *count) { return takhvoi_places(kernel.get(), into, room, count); });
}

/// So many bytes of the region, from an offset on.
inline Result<std::vector<std::uint8_t>> region(const Kernel &kernel, std::uint32_t at, std::size_t len) {
    std::vector<std::uint8_t> into(len);
    const std::uint32_t status = takhvoi_region(kernel.get(), at, detail::room_of(into), len);
    if (status != TAKHVOI_DONE) return Fault{status};
    return into;
}

/// The chunks of a block in memory, which need not be locked.
inline Result<std::vector<takhvoi_chunk>> chunks(const Kernel &kernel, Name name) {
    return detail::shown<takhvoi_chunk>([&](takhvoi_chunk *into, std::size_t room, std::uint32_t *count) {
        return takhvoi_chunks(kernel.get(), name.block(), into, room, count);
    });
}

/// The blocks and groups of the VM file.
inline Result<std::vector<takhvoi_entry>> entries(const Kernel &kernel) {
    return detail::shown<takhvoi_entry>(
        [&](takhvoi_entry *into, std::size_t room, std::uint32_t *count) { return takhvoi_entries(kernel.get(), into, room, count); });
}

/// The routines of an image.
inline Result<std::vector<takhvoi_routine_entry>> routines(const Image &image) {
    return detail::shown<takhvoi_routine_entry>([&](takhvoi_routine_entry *into, std::size_t room, std::uint32_t *count) {
        return takhvoi_routines(image.kernel(), image.number(), into, room, count);
    });
}

/// The line of each instruction of a text. The fault's place is the first faulty line.
inline Result<std::vector<std::uint32_t>> lines(Bytes text) {
    std::vector<std::uint32_t> into(4096);
    Fault fault;
    fault.status = takhvoi_lines(text.data(), text.size(), into.data(), into.size(), &fault.place);
    if (fault.status != TAKHVOI_DONE) return fault;
    into.resize(static_cast<std::size_t>(fault.place));
    return into;
}

/// A finding about a text, with its sentence.
struct Finding {
    takhvoi_finding at;
    std::string sentence;
};
/// The findings about a text; none if the verifier accepts its image.
inline Result<std::vector<Finding>> findings(Bytes text) {
    std::vector<takhvoi_finding> list(256);
    std::string said(1 << 14, 0);
    for (;;) {
        std::uint32_t count = 0;
        std::uint64_t told = 0;
        const std::uint32_t status = takhvoi_findings(text.data(), text.size(), list.data(), list.size(), &count,
                                                      reinterpret_cast<std::uint8_t *>(said.data()), said.size(), &told);
        if (status != TAKHVOI_DONE && status != TAKHVOI_SHORT_BUFFER) return Fault{status};
        if (status == TAKHVOI_SHORT_BUFFER) {
            list.resize(count + std::size_t{1});
            said.resize(static_cast<std::size_t>(told) + 1);
            continue;
        }
        std::vector<Finding> found;
        for (std::uint32_t n = 0; n < count; n++) found.push_back(Finding{list[n], said.substr(list[n].from, list[n].len)});
        return found;
    }
}

/// What a run leaves, and the states before its steps.
struct Traced {
    Outcome outcome;
    std::vector<takhvoi_state> states;
};
/// Runs a routine, and gives the states before at most `most` steps, from step `first` on.
inline Result<Traced> trace(const Routine &routine, const Routine::Words &words, const std::array<std::uint16_t, 4> &lent, std::uint32_t first,
                            std::size_t most) {
    const std::uint32_t before = takhvoi_file_flush(routine.get());
    if (before != TAKHVOI_DONE) return Fault{before};
    Traced traced{};
    traced.outcome.words = words;
    traced.states.resize(most);
    std::uint16_t output = 0;
    std::uint32_t status = takhvoi_trace(&routine.get()->kernel, routine.image(), routine.number(), traced.outcome.words.data(), lent.data(), &output, 1,
                                         &traced.outcome.count, &traced.outcome.steps, first, detail::room_of(traced.states), most);
    const std::uint32_t flushed = takhvoi_file_flush(routine.get());
    if (status == TAKHVOI_DONE) status = flushed;
    if (status != TAKHVOI_DONE) return Fault{status};
    const std::size_t noted = traced.outcome.steps > first ? traced.outcome.steps - first : 0;
    if (noted < most) traced.states.resize(noted);
    return traced;
}

} // namespace takhvoi
#endif

// What the calls of takhvoi.hpp answer, and the bytes that they are given.
#ifndef TAKHVOI_RESULT_HPP
#define TAKHVOI_RESULT_HPP
#include "takhvoi.h"
#include <cstdint>
#include <cstdlib>
#include <exception>
#include <optional>
#include <string_view>
#include <type_traits>
#include <utility>
#include <vector>

namespace takhvoi {

/// Why a call was not done: a number of takhvoi.h, and for files, images and texts the place of the fault, and the verifier's rule, or the
/// routine with an effect that is not granted.
struct Fault {
    std::uint32_t status = TAKHVOI_DONE;
    std::uint64_t place = 0;
    std::uint32_t rule = 0;
    std::uint16_t routine = 0;
    std::uint32_t effect = 0;

    const char *text() const noexcept { return takhvoi_error_text(status); }
};

/// A fault that was thrown.
class Error : public std::exception {
public:
    explicit Error(Fault fault) noexcept : fault_(fault) {}
    const char *what() const noexcept override { return fault_.text(); }
    const Fault &fault() const noexcept { return fault_; }
    std::uint32_t status() const noexcept { return fault_.status; }

private:
    Fault fault_;
};

/// Throws a fault, or ends the program where there are no exceptions.
[[noreturn]] inline void fail(const Fault &fault) {
#if defined(__cpp_exceptions) || defined(_CPPUNWIND)
    throw Error(fault);
#else
    (void)fault;
    std::abort();
#endif
}

/// A value, or the fault that came in its place.
template <typename T> class [[nodiscard]] Result {
public:
    Result(T value) : value_(std::move(value)) {}
    Result(Fault fault) : fault_(fault) {}

    explicit operator bool() const noexcept { return value_.has_value(); }
    bool has_value() const noexcept { return value_.has_value(); }
    /// The fault; its status is TAKHVOI_DONE where there is a value.
    const Fault &fault() const noexcept { return fault_; }
    std::uint32_t status() const noexcept { return fault_.status; }

    T &value() & { return need(), *value_; }
    const T &value() const & { return need(), *value_; }
    T value() && { return need(), std::move(*value_); }
    T value_or(T other) && { return value_ ? std::move(*value_) : std::move(other); }
    /// The value, where it has been tested that there is one.
    T &operator*() & noexcept { return *value_; }
    T *operator->() noexcept { return &*value_; }

private:
    void need() const {
        if (!value_) fail(fault_);
    }
    std::optional<T> value_;
    Fault fault_;
};

/// That it is done, or the fault.
template <> class [[nodiscard]] Result<void> {
public:
    Result() = default;
    Result(Fault fault) : fault_(fault) {}

    explicit operator bool() const noexcept { return fault_.status == TAKHVOI_DONE; }
    bool has_value() const noexcept { return fault_.status == TAKHVOI_DONE; }
    const Fault &fault() const noexcept { return fault_; }
    std::uint32_t status() const noexcept { return fault_.status; }
    void value() const {
        if (!has_value()) fail(fault_);
    }

private:
    Fault fault_;
};

namespace detail {

/// What a call tells at a place that it is given, where it was done.
template <typename T, typename Call> Result<T> told(Call call) {
    T value{};
    const std::uint32_t status = call(&value);
    if (status != TAKHVOI_DONE) return Fault{status};
    return value;
}
inline Result<void> ended(std::uint32_t status) { return Result<void>(Fault{status}); }

/// What stands for the bytes of something empty, since no pointer may be null.
inline std::uint8_t *nothing() noexcept {
    static std::uint8_t byte;
    return &byte;
}

template <typename C> using Pointer = decltype(std::declval<C &>().data());
template <typename C, typename = void> constexpr bool has_bytes = false;
template <typename C> constexpr bool has_bytes<C, std::void_t<Pointer<C>>> = sizeof(*Pointer<C>()) == 1;
template <typename C> constexpr bool has_room = has_bytes<C> && !std::is_const_v<std::remove_pointer_t<Pointer<C>>>;

/// All bytes of what has a size and is read from a place on.
template <typename Size, typename Read> Result<std::vector<std::uint8_t>> whole(Size size, Read read) {
    auto len = size();
    if (!len) return len.fault();
    std::vector<std::uint8_t> bytes(*len);
    auto done = read(bytes);
    if (!done) return done.fault();
    return bytes;
}

} // namespace detail

/// Bytes of something else, to be read: of a text, a vector, an array.
class Bytes {
public:
    Bytes(const std::uint8_t *data, std::size_t size) noexcept : data_(size ? data : detail::nothing()), size_(size) {}
    Bytes(const char *text) noexcept : Bytes(std::string_view(text)) {}
    template <typename C, typename = std::enable_if_t<detail::has_bytes<const C>>>
    Bytes(const C &from) noexcept : Bytes(reinterpret_cast<const std::uint8_t *>(from.data()), from.size()) {}

    const std::uint8_t *data() const noexcept { return data_; }
    std::size_t size() const noexcept { return size_; }

private:
    const std::uint8_t *data_;
    std::size_t size_;
};

/// Bytes of something else, to be written over.
class Room {
public:
    Room(std::uint8_t *data, std::size_t size) noexcept : data_(size ? data : detail::nothing()), size_(size) {}
    template <typename C, typename = std::enable_if_t<detail::has_room<C>>>
    Room(C &into) noexcept : Room(reinterpret_cast<std::uint8_t *>(into.data()), into.size()) {}

    std::uint8_t *data() const noexcept { return data_; }
    std::size_t size() const noexcept { return size_; }

private:
    std::uint8_t *data_;
    std::size_t size_;
};

} // namespace takhvoi
#endif

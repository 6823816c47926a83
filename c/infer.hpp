/* The library for C++17 and later, over infer.h and infer_file.h, whose comments explain each call.
 *
 *     const std::vector<unsigned char> front = ...;
 *     if (const auto found = infer::get(front))
 *         std::cout << found->mime_type << '\n';
 *
 * Call anything that is missing here as in C. Nothing here throws unless its comment says so, and
 * what allocates returns a std::string. */
#ifndef INFER_HPP
#define INFER_HPP

#include "infer.h"
#include "infer_file.h"

#include <algorithm>
#include <array>
#include <cerrno>
#include <cstddef>
#include <cstdint>
#include <istream>
#include <iterator>
#include <optional>
#include <stdexcept>
#include <string>
#include <string_view>
#include <system_error>
#include <type_traits>
#include <utility>

namespace infer {

/* A view of bytes, as the calls take them: of a std::string_view, a std::vector, a std::span or any other contiguous
 * range of elements of one byte, or of a place and a size. A text that ends in a zero does not convert, since it would
 * not say how many bytes there are: write "GIF89a"sv. */
class bytes {
public:
    constexpr bytes() noexcept = default;
    constexpr bytes(const void *data, std::size_t size) noexcept : data_(data), size_(size) {}
    constexpr bytes(std::string_view text) noexcept : data_(text.data()), size_(text.size()) {}
    template <class Range, class Element = std::remove_pointer_t<decltype(std::data(std::declval<const Range &>()))>,
              class = std::enable_if_t<sizeof(Element) == 1 && std::is_trivially_copyable_v<Element>>>
    constexpr bytes(const Range &range) noexcept : data_(std::data(range)), size_(std::size(range)) {}
    bytes(const char *) = delete;
    template <std::size_t size> bytes(const char (&)[size]) = delete;

    constexpr const void *data() const noexcept { return data_; }
    constexpr std::size_t size() const noexcept { return size_; }

private:
    const void *data_ = nullptr;
    std::size_t size_ = 0;
};

/* A type. The texts belong to the library and last as long as it is loaded. */
struct type {
    std::string_view mime_type, extension;
    infer_class_code class_code;

    std::string_view class_name() const noexcept { return infer_class_name_text(class_code); }
    friend bool operator==(const type &a, const type &b) noexcept { return a.mime_type == b.mime_type && a.extension == b.extension && a.class_code == b.class_code; }
    friend bool operator!=(const type &a, const type &b) noexcept { return !(a == b); }
};

/* The type of a row, and nothing if no row has this number. */
inline std::optional<type> of_row(std::int32_t row) noexcept {
    const auto class_code = static_cast<infer_class_code>(infer_class(row));
    if (class_code == INFER_NO_ROW) return std::nullopt;
    return type{infer_mime_type_text(row), infer_extension_text(row), class_code};
}

/* The answer, and the wider answer. */
inline std::optional<type> get(bytes of) noexcept { return of_row(infer_position(of.data(), of.size())); }
inline std::optional<type> get_more(bytes of) noexcept { return of_row(infer_more_position(of.data(), of.size())); }

/* Whether no bytes that may follow can change them. */
inline bool is_decided(bytes of) noexcept { return infer_is_decided(of.data(), of.size()); }
inline bool is_more_decided(bytes of) noexcept { return infer_more_is_decided(of.data(), of.size()); }

/* The answer, and whether it is final. It is never final below 1024 bytes. */
inline std::pair<std::optional<type>, bool> verdict(bytes of) noexcept {
    bool is_final = false;
    const auto row = infer_verdict(of.data(), of.size(), &is_final);
    return {of_row(row), is_final};
}

/* Whether some built-in type with that extension or MIME type matches the bytes. It need not be the answer. */
inline bool is(bytes of, std::string_view extension) noexcept { return infer_is(of.data(), of.size(), extension.data(), extension.size()); }
inline bool is_mime(bytes of, std::string_view mime_type) noexcept { return infer_is_mime(of.data(), of.size(), mime_type.data(), mime_type.size()); }

/* The IANA name of the encoding of a text, and nothing for other bytes. */
inline std::optional<std::string> encoding(bytes of) {
    std::array<char, INFER_TEXT_SIZE> out{};
    const std::size_t size = infer_encoding(of.data(), of.size(), out.data(), out.size());
    if (size == 0) return std::nullopt;
    return std::string(out.data(), size);
}

namespace detail {
/* Asks about a path. In C one with a zero inside would be that of another file. */
template <class Ask> void ask_path(const std::string &path, Ask ask) {
    const int fault = path.find('\0') != std::string::npos ? EINVAL : ask(path.c_str()) != 0 ? errno : 0;
    if (fault != 0) throw std::system_error(fault, std::generic_category(), path);
}

inline std::optional<type> of_path(int ask(const char *, std::int32_t *), const std::string &path) {
    std::int32_t row = -1;
    ask_path(path, [&](const char *name) { return ask(name, &row); });
    return of_row(row);
}

/* The first bytes of a stream from its position, which is restored if the stream can go back. How far it went is not the
 * count of bytes if it is one of text. */
inline std::string front_of(std::istream &from) {
    std::string front(INFER_FRONT, '\0');
    if (!from.good()) return {};
    const auto place = from.rdbuf()->pubseekoff(0, std::ios_base::cur, std::ios_base::in);
    const std::streamsize count = std::max<std::streamsize>(0, from.rdbuf()->sgetn(front.data(), static_cast<std::streamsize>(front.size())));
    if (place != std::istream::pos_type(std::istream::off_type(-1))) from.rdbuf()->pubseekpos(place, std::ios_base::in);
    front.resize(static_cast<std::size_t>(count));
    return front;
}
} // namespace detail

/* The same by the first 8192 bytes of a regular file. An errno of infer_path is thrown as a std::system_error,
 * and EINVAL for a path with a zero inside. */
inline std::optional<type> get_path(const std::string &path) { return detail::of_path(infer_path, path); }
inline std::optional<type> get_more_path(const std::string &path) { return detail::of_path(infer_more_path, path); }

/* The same by the next 8192 bytes of a stream. A stream that can go back keeps its position; any other loses these
 * bytes. */
inline std::optional<type> get_from(std::istream &from) { return get(detail::front_of(from)); }
inline std::optional<type> get_more_from(std::istream &from) { return get_more(detail::front_of(from)); }

/* The type of bytes that come in pieces, of which the first 8192 are kept. It allocates nothing. */
class sniffer {
public:
    void push(bytes piece) noexcept {
        const std::size_t count = std::min(piece.size(), kept_.size() - size_);
        std::copy_n(static_cast<const unsigned char *>(piece.data()), count, kept_.begin() + static_cast<std::ptrdiff_t>(size_));
        size_ += count;
    }
    bytes kept() const noexcept { return {kept_.data(), size_}; }
    std::optional<type> get() const noexcept { return infer::get(kept()); }
    std::optional<type> get_more() const noexcept { return infer::get_more(kept()); }
    bool is_decided() const noexcept { return infer::is_decided(kept()); }
    bool is_full() const noexcept { return size_ == kept_.size(); }

private:
    std::array<unsigned char, INFER_FRONT> kept_{};
    std::size_t size_ = 0;
};

/* A type that a name and bytes give. The extension is empty if no row has the type; see infer_named_type for an own name. */
struct named_type {
    std::string mime_type, extension;
    bool is_own_name;
};

/* What a name and bytes give: what the name did, the resulting type, the first type that the name stands for, and the wider
 * answer, which the bytes have whatever the name is. */
struct named_answer {
    infer_standing standing;
    std::optional<named_type> type, type_of_name;
    std::optional<infer::type> type_of_bytes;

    std::string_view standing_text() const noexcept { return infer_standing_text(standing); }
};

namespace detail {
inline std::optional<named_type> of_named(const infer_named_type &it) {
    if (it.mime_type[0] == '\0') return std::nullopt;
    return named_type{it.mime_type, it.extension, it.is_own_name};
}

inline named_answer of_answer(const infer_named_answer &it) {
    return {static_cast<infer_standing>(it.standing), of_named(it.told), of_named(it.name), of_row(it.row)};
}
} // namespace detail

/* The answer by a file's name and its first bytes. The bytes win: a name only chooses among what they leave open. */
inline named_answer named(std::string_view name, bytes of) {
    infer_named_answer answer{};
    infer_named(name.data(), name.size(), of.data(), of.size(), &answer);
    return detail::of_answer(answer);
}

/* The same by a path and the first 8192 bytes of its regular file. An errno of infer_named_path is thrown as a
 * std::system_error, and EINVAL for a path with a zero inside. */
inline named_answer named_path(const std::string &path) {
    infer_named_answer answer{};
    detail::ask_path(path, [&](const char *name) { return infer_named_path(name, &answer); });
    return detail::of_answer(answer);
}

/* What is odd about a name: a sum of `enum infer_oddity`, and 0 if nothing is. */
inline std::uint32_t oddities(std::string_view name) noexcept { return infer_oddities(name.data(), name.size()); }

/* A text that describes no types: line and column of its first mistake, both from 1, and the reason as what(). */
class types_error : public std::invalid_argument {
public:
    types_error(std::size_t line, std::size_t column, const char *reason) : std::invalid_argument(reason), line_(line), column_(column) {}
    std::size_t line() const noexcept { return line_; }
    std::size_t column() const noexcept { return column_; }

private:
    std::size_t line_, column_;
};

/* Types of your own, which a text describes, one per line, in the notation of docs/NOTATION.md. */
class types {
public:
    struct found {
        std::string mime_type, extension;
        infer_class_code class_code;
    };

    /* Throws a types_error if the text describes no types. */
    explicit types(std::string text) : text_(std::move(text)) {
        std::size_t line = 0, column = 0;
        std::array<char, INFER_TEXT_SIZE> reason{};
        if (infer_types_check(text_.data(), text_.size(), &line, &column, reason.data(), reason.size()) != 0)
            throw types_error(line, column, reason.data());
    }

    /* The first of these types whose parent is the built-in answer and that matches the bytes, or else the wider
     * answer. */
    std::optional<found> get(bytes of) const {
        std::array<char, INFER_TYPES_TEXT_SIZE> mime_type{}, extension{};
        const std::int32_t class_code = infer_types_get(text_.data(), text_.size(), of.data(), of.size(), mime_type.data(), mime_type.size(), extension.data(), extension.size());
        if (class_code == INFER_NO_ROW) return std::nullopt;
        return found{mime_type.data(), extension.data(), static_cast<infer_class_code>(class_code)};
    }

    /* The number of the line, from 1, that describes this type, and nothing if it is the wider answer. */
    std::optional<std::size_t> line(bytes of) const noexcept {
        const std::size_t number = infer_types_line(text_.data(), text_.size(), of.data(), of.size());
        return number > 0 ? std::optional(number) : std::nullopt;
    }

    /* The text. */
    const std::string &text() const noexcept { return text_; }

private:
    std::string text_;
};

/* What a line is asked for. As it is made, the usual: `own` are types that come first, and `content_type` is what a browser
 * was told. */
struct label_options {
    infer_label_look look = INFER_LABEL_NAME_AND_BYTES;
    infer_label_form form = INFER_LABEL_TEXT;
    std::uint32_t flags = 0;
    const types *own = nullptr;
    std::string_view content_type = {};
    std::size_t size = 0;
};

namespace detail {
/* A text that a call writes, which is asked again if there was no room for it. */
template <class Write> std::string written(Write write) {
    std::string text(255, '\0');
    const std::size_t room = text.size(), size = write(text.data(), room + 1);
    text.resize(size);
    if (size > room) write(text.data(), size + 1);
    return text;
}
} // namespace detail

/* The line of a file, as the program infer_label prints it, with its end; and in `told`, if there is one, what it tells. */
inline std::string label_line(std::string_view name, bytes of, const label_options &options = {}, infer_label_told *told = nullptr) {
    const std::string_view own = options.own ? std::string_view(options.own->text()) : std::string_view(), type = options.content_type;
    const infer_label_options asked = {static_cast<std::uint32_t>(options.look), static_cast<std::uint32_t>(options.form), options.flags, own.data(), own.size(), type.data(), type.size(), options.size};
    return detail::written([&](char *out, std::size_t size) { return infer_label_line(name.data(), name.size(), of.data(), of.size(), &asked, told, out, size); });
}

/* The line of a file of which only a text is told: why it could not be read, or what it is if it has no bytes. */
inline std::string label_note(std::string_view name, infer_label_noted note, std::string_view text, const label_options &options = {}) {
    return detail::written([&](char *out, std::size_t size) {
        return infer_label_note(name.data(), name.size(), static_cast<std::uint32_t>(note), text.data(), text.size(), static_cast<std::uint32_t>(options.form), options.flags, out, size);
    });
}

} // namespace infer

#endif

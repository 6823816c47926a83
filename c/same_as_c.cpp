/* Asks infer.hpp what infer.h says too, of bytes of every kind, and counts the differences.
 * usage: same_as_c FOLDER, an empty one. */
#include "infer.hpp"

#include <cstdio>
#include <cstdlib>
#include <cstring>
#include <fstream>
#include <iostream>
#include <random>
#include <sstream>
#include <unistd.h>
#include <vector>
#if __cplusplus >= 202002L
#include <span>
#endif

using namespace std::string_view_literals;

static int compared, differing;

static void wants(const char *what, bool is_so) {
    compared++;
    if (!is_so) {
        differing++;
        std::printf("%s\n", what);
    }
}

/* What is no view of bytes is refused by the compiler. */
static_assert(!std::is_constructible_v<infer::bytes, const char *> && !std::is_constructible_v<infer::bytes, const char (&)[7]>);
static_assert(!std::is_constructible_v<infer::bytes, std::vector<int>> && !std::is_constructible_v<infer::bytes, std::wstring> && !std::is_constructible_v<infer::bytes, int>);
static_assert(std::is_nothrow_constructible_v<infer::bytes, std::vector<unsigned char>> && std::is_nothrow_constructible_v<infer::bytes, std::string>);
static_assert(std::is_trivially_copyable_v<infer::bytes> && std::is_trivially_copyable_v<infer::type>);

static bool is_jpeg(const std::optional<infer::type> &it) {
    return it && it->mime_type == "image/jpeg" && it->extension == "jpg" && it->class_code == INFER_IMAGE && it->class_name() == "image";
}

static void views() {
    const unsigned char array[] = {0xFF, 0xD8, 0xFF, 0xE0};
    const std::vector<unsigned char> vector(array, array + 4);
    const std::vector<std::byte> of_bytes(8, std::byte{0xFF});
    const std::string text("\xFF\xD8\xFF\xE0");
    wants("views of one buffer", is_jpeg(infer::get(array)) && is_jpeg(infer::get(vector)) && is_jpeg(infer::get(text)) && is_jpeg(infer::get({array, 4})));
    wants("a view of a string_view", is_jpeg(infer::get(std::string_view(text))) && is_jpeg(infer::get("\xFF\xD8\xFF"sv)));
    wants("views of nothing", !infer::get(infer::bytes()) && !infer::get(std::string()) && !infer::get(std::vector<char>()) && !infer::get({nullptr, 0}));
    wants("bytes that are of no type", !infer::get(of_bytes));
#if __cplusplus >= 202002L
    wants("views of spans", is_jpeg(infer::get(std::span(vector))) && is_jpeg(infer::get(std::span<const unsigned char, 4>(array))) && !infer::get(std::as_bytes(std::span(vector)).first(2)));
#endif
    wants("a zero inside", infer::get("\0asm\1\0\0\0"sv)->extension == "wasm" && infer::get(std::string("\0asm\1\0\0\0", 8))->extension == "wasm");
    wants("types are alike", infer::get(array) == infer::get(vector) && infer::get("GIF89a"sv) != infer::get(vector) && *infer::get("GIF89a"sv) != *infer::get(vector));
}

static void calls() {
    wants("the wider answer", infer::get_more("<svg></svg>"sv)->mime_type == "image/svg+xml" && !infer::get("<svg></svg>"sv));
    wants("encodings", infer::encoding("text"sv) == "us-ascii" && infer::encoding("caf\xC3\xA9"sv) == "utf-8" && !infer::encoding("\0"sv) && !infer::encoding(""sv));
    wants("some type", infer::is("MZ"sv, "dll") && infer::is_mime("GIF89a"sv, "image/gif") && !infer::is("MZ"sv, "DLL") && !infer::is("MZ"sv, {}));
    wants("rows", !infer::of_row(-1) && !infer::of_row(INT32_MAX) && !infer::of_row(INT32_MIN) && infer::of_row(0));
    std::mt19937 chance(7);
    std::size_t known = 0;
    for (int round = 0; round < 20000; round++) {
        std::vector<unsigned char> data(chance() % 300);
        for (auto &byte : data)
            byte = static_cast<unsigned char>(chance());
        if (round % 2 == 0) {
            data.resize(INFER_SAMPLE_SIZE);
            data.resize(infer_sample(static_cast<std::int32_t>(chance() % infer_more_row_count()), data.data(), data.size()));
            /* Of half of the samples one bit is another. */
            if (!data.empty() && round % 4 == 0) data[chance() % data.size()] ^= static_cast<unsigned char>(1U << chance() % 8);
        }
        const auto row = infer_more_position(data.data(), data.size());
        const auto found = infer::get_more(data);
        known += found.has_value();
        const bool is_same = found.has_value() == (row >= 0) && (!found || (found->mime_type == infer_mime_type_text(row) && found->extension == infer_extension_text(row)));
        if (!is_same || infer::is_decided(data) != infer_is_decided(data.data(), data.size()) || infer::is_more_decided(data) != infer_more_is_decided(data.data(), data.size()))
            wants("a buffer has another answer than in C", false);
    }
    wants("many of these buffers have a type", known > 5000);
}

static void names() {
    const auto found = infer::named("main.py", "import os"sv);
    wants("a name refines", found.standing == INFER_NAME_REFINES && found.standing_text() == "name refines" && found.type->mime_type == "text/x-python" && found.type->extension == "py");
    wants("what each says alone", found.type_of_name->mime_type == "text/x-python" && found.type_of_bytes->mime_type == "text/plain");
    wants("a name contradicts", infer::named("photo.jpg", "GIF89a"sv).standing == INFER_CONTRADICTS);
    const auto none = infer::named("x.unknown", "\0\1"sv);
    wants("nothing", none.standing == INFER_NOTHING && !none.type && !none.type_of_name && !none.type_of_bytes);
    wants("an own name", infer::named("x.dz", "\x1F\x8B\b"sv).type->is_own_name && infer::named("x.dz", "\x1F\x8B\b"sv).type->extension.empty());
    wants("oddities", infer::oddities("shell.php.jpg") == INFER_ODD_TWO && infer::oddities("a\0.png "sv) == (INFER_ODD_CONTROL | INFER_ODD_END) && infer::oddities({}) == 0);
    wants("no standing", *infer_standing_text(-1) == 0 && *infer_standing_text(7) == 0 && std::string_view(infer_standing_text(INFER_NOTHING)) == "nothing");
    wants("verdicts", is_jpeg(infer::verdict("\xFF\xD8\xFF"sv).first) && !infer::verdict("\xFF\xD8\xFF"sv).second && infer::verdict(std::string("\xFF\xD8\xFF") + std::string(1021, '\0')).second);
    std::ofstream("main.jpg", std::ios::binary) << "GIF89a";
    wants("a path has a name", infer::named_path("main.jpg").standing == INFER_CONTRADICTS);
    int faults = 0;
    for (const std::string_view path : {"none"sv, "main.jpg\0.png"sv}) {
        try {
            infer::named_path(std::string(path));
        } catch (const std::system_error &fault) {
            faults += fault.code().value() == (path == "none" ? ENOENT : EINVAL);
        }
    }
    wants("paths without a file", faults == 2);
}

/* A buffer of a stream that gives a byte at a time and cannot go back. */
class once : public std::streambuf {
public:
    explicit once(std::string text) : text_(std::move(text)) {}

private:
    std::string text_;
    std::size_t at_ = 0;
    int_type underflow() override {
        if (at_ == text_.size()) return traits_type::eof();
        setg(text_.data() + at_, text_.data() + at_, text_.data() + at_ + 1);
        at_++;
        return traits_type::to_int_type(text_[at_ - 1]);
    }
};

/* A buffer of a stream of text as Windows has it: CR LF are one byte, and a place counts both. */
class of_text : public std::streambuf {
public:
    explicit of_text(std::string raw) : raw_(std::move(raw)) {}

private:
    std::string raw_;
    std::size_t at_ = 0;
    char last_ = 0;
    int_type underflow() override {
        if (at_ == raw_.size()) return traits_type::eof();
        at_ += raw_.compare(at_, 2, "\r\n") == 0;
        last_ = raw_[at_++];
        setg(&last_, &last_, &last_ + 1);
        return traits_type::to_int_type(last_);
    }
    pos_type seekpos(pos_type place, std::ios_base::openmode) override {
        setg(nullptr, nullptr, nullptr);
        at_ = static_cast<std::size_t>(std::streamoff(place));
        return place;
    }
    pos_type seekoff(off_type distance, std::ios_base::seekdir, std::ios_base::openmode mode) override {
        return distance == 0 ? pos_type(static_cast<std::streamoff>(at_)) : seekpos(static_cast<std::streamoff>(at_) + distance, mode);
    }
};

static void streams_and_files() {
    const std::string jpeg("\xFF\xD8\xFF\xE0"), late = std::string(8190, ' ') + "<p>";
    std::ofstream("photo", std::ios::binary) << jpeg << std::string(20000, '\0');
    std::ifstream file("photo", std::ios::binary);
    wants("a file", is_jpeg(infer::get_path("photo")) && is_jpeg(infer::get_from(file)) && file.tellg() == std::streampos(0) && is_jpeg(infer::get_more_from(file)));
    file.seekg(1);
    wants("a file from where it stands", !infer::get_from(file) && file.tellg() == std::streampos(1));
    std::ofstream("drawing", std::ios::binary) << "<svg></svg>";
    wants("the wider answer of a file", infer::get_more_path("drawing")->extension == "svg" && !infer::get_path("drawing"));
    std::istringstream text(late), spaces(late.substr(1));
    wants("8192 bytes of a stream", !infer::get_from(text) && infer::get_from(spaces)->extension == "html" && text.good() && text.tellg() == std::streampos(0));
    once front(jpeg + "rest");
    std::istream slow(&front);
    std::string rest;
    wants("a stream that cannot go back", is_jpeg(infer::get_from(slow)) && !(slow >> rest));
    of_text lines("a\r\n" + jpeg + "\r\n\r\nrest");
    std::istream of_lines(&lines);
    std::getline(of_lines, rest);
    wants("a stream of text", rest == "a" && is_jpeg(infer::get_from(of_lines)) && std::getline(of_lines, rest) && rest == jpeg);
    std::istream none(nullptr);
    std::istringstream failed(jpeg);
    failed.setstate(std::ios::failbit);
    wants("streams without bytes", !infer::get_from(none) && !infer::get_from(failed));
    int faults = 0;
    for (const std::string_view path : {"none"sv, ""sv, "."sv, "/dev/null"sv, "photo\0.exe"sv}) {
        try {
            infer::get_path(std::string(path));
        } catch (const std::system_error &fault) {
            const int wanted[] = {ENOENT, ENOENT, EISDIR, ENOTSUP, EINVAL};
            faults += fault.code() == std::error_code(wanted[faults], std::generic_category()) && std::strstr(fault.what(), path.data()) != nullptr;
        }
    }
    wants("faults of paths", faults == 5);
}

static void pieces() {
    const std::string jpeg = std::string("\xFF\xD8\xFF\xE0") + std::string(57, '\0');
    infer::sniffer sniffer;
    wants("no piece", !infer::get(sniffer.kept()) && !sniffer.is_full());
    for (std::size_t at = 0; at < jpeg.size(); at++) {
        wants("it is decided by its last byte", !infer::is_decided(sniffer.kept()));
        sniffer.push({jpeg.data() + at, 1});
    }
    wants("the type of pieces", is_jpeg(infer::get(sniffer.kept())) && infer::is_decided(sniffer.kept()) && sniffer.kept().size() == jpeg.size());
    sniffer.push(infer::bytes());
    for (int round = 0; round < 3; round++)
        sniffer.push(std::vector<char>(5000));
    wants("no more than 8192 bytes are kept", sniffer.is_full() && sniffer.kept().size() == INFER_FRONT && is_jpeg(infer::get(sniffer.kept())));
}

static void own_types() {
    const infer::types own("# mine\nqoi image/qoi image - 4: @0 \"qoif\"\nsvg image/svg+xml image - root: svg with \"safe\"\n");
    const auto qoi = own.get("qoif"sv);
    wants("an own type", qoi && qoi->mime_type == "image/qoi" && qoi->extension == "qoi" && qoi->class_code == INFER_IMAGE);
    wants("lines", own.line("qoif"sv) == 2U && own.line("<svg safe></svg>"sv) == 3U && !own.line("<svg></svg>"sv) && own.get("<svg></svg>"sv)->extension == "svg");
    wants("the wider answer, or none", own.get("GIF89a"sv)->extension == "gif" && !own.get("\0?"sv) && infer::types("").get("MZ"sv)->extension == "exe");
    try {
        infer::types("qoi image/qoi picture - 4: @0 00");
        wants("a mistake is thrown", false);
    } catch (const infer::types_error &mistake) {
        wants("a mistake", mistake.line() == 1 && mistake.column() == 15 && std::strcmp(mistake.what(), "unknown class") == 0);
    }
}

/* The line that C writes of a name and bytes, and what it tells. */
static std::string line_of_c(std::string_view name, infer::bytes of, const infer_label_options &options, infer_label_told &told) {
    std::array<char, 4096> out{};
    return {out.data(), infer_label_line(name.data(), name.size(), of.data(), of.size(), &options, &told, out.data(), out.size())};
}

static void lines() {
    const std::string long_name = std::string(700, 'a') + ".png";
    const infer::types own("qoi image/qoi image - 4: @0 \"qoif\"");
    wants("the usual line", infer::label_line("main.py", "import os\n"sv) == "main.py: text/x-python py, us-ascii\n" && infer::label_line({}, {}) == ": empty\n");
    for (const std::string_view name : {""sv, "a.png"sv, "\0\xFF"sv, std::string_view(long_name)})
        for (const infer::bytes of : {infer::bytes(), infer::bytes("\xFF\xD8\xFF"sv), infer::bytes("qoif"sv), infer::bytes("<p>"sv)})
            for (std::uint32_t asked = 0; asked < 5 * 4 * 8 * 2; asked++) {
                const infer::label_options options = {static_cast<infer_label_look>(asked % 5), static_cast<infer_label_form>(asked / 5 % 4), asked / 20 % 8, asked < 160 ? nullptr : &own, "image/png", 7};
                const infer_label_options in_c = {asked % 5, asked / 5 % 4, asked / 20 % 8, own.text().data(), asked < 160 ? 0 : own.text().size(), "image/png", 9, 7};
                infer_label_told told{}, told_in_c{};
                const bool is_same = infer::label_line(name, of, options, &told) == line_of_c(name, of, in_c, told_in_c);
                if (!is_same || told.standing != told_in_c.standing || told.is_known != told_in_c.is_known) wants("a line is another than in C", false);
            }
    infer::label_options json;
    json.form = INFER_LABEL_JSON;
    wants("notes", infer::label_note("a", INFER_LABEL_FAULT, "gone") == "a: gone\n" && infer::label_note("a", INFER_LABEL_KIND, "fifo", json) == "{\"name\":\"a\",\"kind\":\"fifo\"}\n");
    wants("a long note", infer::label_note(long_name, INFER_LABEL_KIND, "fifo") == long_name + ": fifo\n");
}

int main(int argc, char **argv) {
    if (argc != 2 || chdir(argv[1]) != 0) return std::puts("usage: same_as_c FOLDER"), 2;
    views();
    calls();
    streams_and_files();
    names();
    pieces();
    own_types();
    lines();
    std::printf("%d answers of C++ compared, %d differ\n", compared, differing);
    return differing != 0;
}

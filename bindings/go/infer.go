// Package infer tells the type of a file from its first bytes, by the library libinfer.
package infer

/*
#cgo CFLAGS: -O1 -g0
#include "library.h"

// For an argument of the type void * Go allocates, and for one that C writes to. These have none.
static int32_t position(const uint8_t *buf, size_t len) { return infer_position(buf, len); }
static int32_t more_position(const uint8_t *buf, size_t len) { return infer_more_position(buf, len); }
static int64_t verdict(const uint8_t *buf, size_t len) {
	bool is_final;
	int32_t row = infer_verdict(buf, len, &is_final);
	return (int64_t)row * 2 + is_final;
}
struct name {
	char text[INFER_TEXT_SIZE];
	size_t size;
};
static struct name encoding(const uint8_t *buf, size_t len) {
	struct name found;
	found.size = infer_encoding(buf, len, found.text, sizeof found.text);
	return found;
}
static struct name content_type(const uint8_t *buf, size_t len) {
	struct name found;
	found.size = infer_detect_content_type(buf, len, found.text, sizeof found.text);
	return found;
}
static bool is_decided(const uint8_t *buf, size_t len) { return infer_is_decided(buf, len); }
static bool more_is_decided(const uint8_t *buf, size_t len) { return infer_more_is_decided(buf, len); }
static bool may_become(const uint8_t *buf, size_t len, int32_t row) { return infer_may_become(buf, len, row); }
static bool more_may_become(const uint8_t *buf, size_t len, int32_t row) { return infer_more_may_become(buf, len, row); }
static bool is(const uint8_t *buf, size_t len, _GoString_ text) { return infer_is(buf, len, _GoStringPtr(text), _GoStringLen(text)); }
static bool is_mime(const uint8_t *buf, size_t len, _GoString_ text) { return infer_is_mime(buf, len, _GoStringPtr(text), _GoStringLen(text)); }
static bool is_supported(_GoString_ text) { return infer_is_supported(_GoStringPtr(text), _GoStringLen(text)); }
static bool is_mime_supported(_GoString_ text) { return infer_is_mime_supported(_GoStringPtr(text), _GoStringLen(text)); }
static size_t sample(int32_t row, uint8_t *out, size_t size) { return infer_sample(row, out, size); }
static bool is_app(const uint8_t *buf, size_t len) { return infer_is_app(buf, len); }
static bool is_archive(const uint8_t *buf, size_t len) { return infer_is_archive(buf, len); }
static bool is_audio(const uint8_t *buf, size_t len) { return infer_is_audio(buf, len); }
static bool is_book(const uint8_t *buf, size_t len) { return infer_is_book(buf, len); }
static bool is_document(const uint8_t *buf, size_t len) { return infer_is_document(buf, len); }
static bool is_font(const uint8_t *buf, size_t len) { return infer_is_font(buf, len); }
static bool is_image(const uint8_t *buf, size_t len) { return infer_is_image(buf, len); }
static bool is_video(const uint8_t *buf, size_t len) { return infer_is_video(buf, len); }
*/
import "C"

import (
	"bufio"
	"encoding/json"
	"errors"
	"io"
	"io/fs"
	"os"
	"sync"
	"sync/atomic"
	"syscall"
	"unsafe"

	_ "hoarvelt.example/infer/aliases"
	_ "hoarvelt.example/infer/dist"
)

// Front is how many bytes of a reader or a file are looked at.
const Front = 8192

// Class is the class of a type, such as "image".
type Class string

// The classes.
const (
	App      Class = "app"
	Archive  Class = "archive"
	Audio    Class = "audio"
	Book     Class = "book"
	Document Class = "doc"
	Font     Class = "font"
	Image    Class = "image"
	Text     Class = "text"
	Video    Class = "video"
)

// Type is a type: its MIME type, its usual extension without a dot, and its class.
type Type struct {
	MIMEType  string `json:"mime"`
	Extension string `json:"extension"`
	Class     Class  `json:"class"`
}

// String gives the MIME type.
func (t Type) String() string { return t.MIMEType }

// MarshalJSON gives null for no type.
func (t Type) MarshalJSON() ([]byte, error) {
	type plain Type
	if t == (Type{}) {
		return []byte("null"), nil
	}
	return json.Marshal(plain(t))
}

var version = readVersion()

func readVersion() string {
	var out [C.INFER_TEXT_SIZE]C.char
	C.infer_version(&out[0], C.INFER_TEXT_SIZE)
	return C.GoString(&out[0])
}

// Version gives the version of the library, such as "0.1.0".
func Version() string { return version }

// The built-in types, and then the further ones.
var allTypes = rows()
var types = allTypes[:int(C.infer_row_count())]

func rows() []Type {
	all := make([]Type, int(C.infer_more_row_count()))
	var out [256]C.char
	for i := range all {
		row := C.int32_t(i)
		C.infer_mime_type(row, &out[0], 256)
		all[i].MIMEType = C.GoString(&out[0])
		C.infer_extension(row, &out[0], 256)
		all[i].Extension = C.GoString(&out[0])
		C.infer_class_name(C.infer_class(row), &out[0], 256)
		all[i].Class = Class(C.GoString(&out[0]))
	}
	return all
}

// Types lists all types that Detect knows, in the order in which they are asked.
func Types() []Type {
	return append([]Type(nil), types...)
}

// MoreTypes lists all types that DetectMore knows: those of Types, and then the further ones.
func MoreTypes() []Type {
	return append([]Type(nil), allTypes...)
}

func typeOf(row int) (Type, bool) {
	if row < 0 {
		return Type{}, false
	}
	return allTypes[row], true
}

func first(b []byte) *C.uint8_t {
	if len(b) == 0 {
		return nil
	}
	return (*C.uint8_t)(unsafe.Pointer(&b[0]))
}

// Detect tells the type of the bytes, and whether there is one.
func Detect(b []byte) (Type, bool) {
	return typeOf(int(C.position(first(b), C.size_t(len(b)))))
}

// DetectMore tells the type of the wider answer, which knows further types too: the first below the answer of Detect that
// accepts the bytes, and that answer if there is none.
func DetectMore(b []byte) (Type, bool) {
	return typeOf(int(C.more_position(first(b), C.size_t(len(b)))))
}

// The names that Encoding gives. Those that are listed cost it no allocation.
const (
	ASCII   = "us-ascii"
	UTF8    = "utf-8"
	UTF16LE = "utf-16le"
	UTF16BE = "utf-16be"
)

// Encoding tells how a text is encoded, by its IANA name, and false if the bytes are no text or of another encoding. A
// character that is cut at the end makes no difference.
func Encoding(b []byte) (name string, ok bool) {
	found := C.encoding(first(b), C.size_t(len(b)))
	told := unsafe.Slice((*byte)(unsafe.Pointer(&found.text[0])), int(found.size))
	for _, known := range [...]string{ASCII, UTF8, UTF16LE, UTF16BE} {
		if string(told) == known {
			return known, true
		}
	}
	return string(told), len(told) > 0
}

// DetectContentType tells the MIME type of a file that begins with these bytes, as the function of this name in net/http
// does, byte for byte.
func DetectContentType(b []byte) string {
	found := C.content_type(first(b), C.size_t(len(b)))
	return contentType(unsafe.Slice((*byte)(unsafe.Pointer(&found.text[0])), int(found.size)))
}

// The content types that were told so far. There are few, and each is allocated once.
var contentTypes atomic.Pointer[map[string]string]

func contentType(text []byte) string {
	known := map[string]string{}
	if all := contentTypes.Load(); all != nil {
		known = *all
	}
	if told, ok := known[string(text)]; ok {
		return told
	}
	more := map[string]string{}
	for name := range known {
		more[name] = name
	}
	told := string(text)
	more[told] = told
	contentTypes.Store(&more)
	return told
}

// Verdict tells what Detect does, and whether it is final: no bytes that may follow can change it then.
func Verdict(b []byte) (found Type, ok bool, final bool) {
	both := int64(C.verdict(first(b), C.size_t(len(b))))
	found, ok = typeOf(int(both >> 1))
	return found, ok, both&1 == 1
}

// IsDecided tells whether no bytes that may follow can change what Detect answers, exactly.
func IsDecided(b []byte) bool { return bool(C.is_decided(first(b), C.size_t(len(b)))) }

// IsMoreDecided tells the same of DetectMore. It can be false although none can.
func IsMoreDecided(b []byte) bool { return bool(C.more_is_decided(first(b), C.size_t(len(b)))) }

// MayBecome tells whether some bytes that may follow make some type of Types with this extension accept. It need not be
// the answer of Detect then.
func MayBecome(b []byte, extension string) bool {
	for row := range types {
		if types[row].Extension == extension && bool(C.may_become(first(b), C.size_t(len(b)), C.int32_t(row))) {
			return true
		}
	}
	return false
}

// MoreMayBecome tells the same of the types of MoreTypes. Of a further one it can be true although no bytes do.
func MoreMayBecome(b []byte, extension string) bool {
	for row := range allTypes {
		if allTypes[row].Extension == extension && bool(C.more_may_become(first(b), C.size_t(len(b)), C.int32_t(row))) {
			return true
		}
	}
	return false
}

var errCount = errors.New("infer: a reader said that it gave less than no bytes, or more than it had room for")

var fronts = sync.Pool{New: func() any { return new([Front]byte) }}

// DetectReader tells the type of the first 8192 bytes of a reader, which are gone from it then. It takes no others.
func DetectReader(r io.Reader) (Type, bool, error) { return detectReader(r, Detect) }

// DetectMoreReader tells the same by DetectMore.
func DetectMoreReader(r io.Reader) (Type, bool, error) { return detectReader(r, DetectMore) }

func detectReader(r io.Reader, detect func([]byte) (Type, bool)) (Type, bool, error) {
	front := fronts.Get().(*[Front]byte)
	defer fronts.Put(front)
	count, err := readFront(r, front[:])
	if err != nil {
		return Type{}, false, err
	}
	found, ok := detect(front[:count])
	return found, ok, nil
}

// readFront fills the bytes or ends with the reader. One that says that it gave less than none or more than there is room
// for would have the caller look elsewhere.
func readFront(r io.Reader, front []byte) (count int, err error) {
	for count < len(front) && err == nil {
		var given int
		given, err = r.Read(front[count:])
		if given < 0 || given > len(front)-count {
			return 0, errCount
		}
		count += given
	}
	if err == io.EOF || count == len(front) {
		err = nil
	}
	return count, err
}

// DetectWhole tells what DetectReader does, and gives a reader of the whole: those bytes and then the rest. If a read
// fails, it gives what came before. A *bufio.Reader of at least 8192 bytes is given back itself, with nothing taken from it.
func DetectWhole(r io.Reader) (found Type, ok bool, whole *bufio.Reader, err error) {
	return detectWhole(r, Detect)
}

// DetectMoreWhole tells the same by DetectMore.
func DetectMoreWhole(r io.Reader) (found Type, ok bool, whole *bufio.Reader, err error) {
	return detectWhole(r, DetectMore)
}

func detectWhole(r io.Reader, detect func([]byte) (Type, bool)) (found Type, ok bool, whole *bufio.Reader, err error) {
	whole = bufio.NewReaderSize(r, Front)
	front, err := whole.Peek(Front)
	if err != nil && err != io.EOF {
		return Type{}, false, whole, err
	}
	found, ok = detect(front)
	return found, ok, whole, nil
}

// DetectFile tells the type of the first 8192 bytes of a regular file. It opens no other, and waits for no FIFO.
func DetectFile(path string) (Type, bool, error) { return detectFile(system{}, path, Detect) }

// DetectMoreFile tells the same by DetectMore.
func DetectMoreFile(path string) (Type, bool, error) { return detectFile(system{}, path, DetectMore) }

// DetectFS tells the type of the first 8192 bytes of a regular file of a file system, such as one that is embedded.
func DetectFS(fsys fs.FS, name string) (Type, bool, error) { return detectFile(fsys, name, Detect) }

// DetectMoreFS tells the same by DetectMore.
func DetectMoreFS(fsys fs.FS, name string) (Type, bool, error) {
	return detectFile(fsys, name, DetectMore)
}

// The files of the system by any path, opened so that none waits if it has become a FIFO.
type system struct{}

func (system) Open(path string) (fs.File, error) {
	return os.OpenFile(path, os.O_RDONLY|syscall.O_NONBLOCK|syscall.O_NOCTTY, 0)
}

func (system) Stat(path string) (fs.FileInfo, error) { return os.Stat(path) }

func detectFile(fsys fs.FS, path string, detect func([]byte) (Type, bool)) (Type, bool, error) {
	about, err := fs.Stat(fsys, path)
	if err != nil {
		return Type{}, false, err
	}
	// A device can act as soon as it is opened.
	if err := refuseUnlessRegular(about, path); err != nil {
		return Type{}, false, err
	}
	file, err := fsys.Open(path)
	if err != nil {
		return Type{}, false, err
	}
	defer file.Close()
	// The path may name another file by now.
	if about, err = file.Stat(); err == nil {
		err = refuseUnlessRegular(about, path)
	}
	if err != nil {
		return Type{}, false, err
	}
	return detectReader(file, detect)
}

func refuseUnlessRegular(about os.FileInfo, path string) error {
	if about.Mode().IsRegular() {
		return nil
	}
	if about.IsDir() {
		return &os.PathError{Op: "open", Path: path, Err: syscall.EISDIR}
	}
	return &os.PathError{Op: "open", Path: path, Err: syscall.ENOTSUP}
}

// Is tells whether some type with this extension accepts the bytes. It need not be the answer of Detect.
func Is(b []byte, extension string) bool {
	return bool(C.is(first(b), C.size_t(len(b)), extension))
}

// IsMIMEType tells whether some type with this MIME type accepts the bytes. It need not be the answer of Detect.
func IsMIMEType(b []byte, mimeType string) bool {
	return bool(C.is_mime(first(b), C.size_t(len(b)), mimeType))
}

// IsSupported tells whether some type has this extension.
func IsSupported(extension string) bool { return bool(C.is_supported(extension)) }

// IsMIMETypeSupported tells whether some type has this MIME type.
func IsMIMETypeSupported(mimeType string) bool { return bool(C.is_mime_supported(mimeType)) }

// IsApp tells whether some program's type accepts the bytes. As of the seven below, it need not be the answer of Detect.
func IsApp(b []byte) bool {
	return bool(C.is_app(first(b), C.size_t(len(b))))
}

// IsArchive tells whether some archive's type accepts the bytes.
func IsArchive(b []byte) bool {
	return bool(C.is_archive(first(b), C.size_t(len(b))))
}

// IsAudio tells whether some sound's type accepts the bytes.
func IsAudio(b []byte) bool {
	return bool(C.is_audio(first(b), C.size_t(len(b))))
}

// IsBook tells whether some book's type accepts the bytes.
func IsBook(b []byte) bool {
	return bool(C.is_book(first(b), C.size_t(len(b))))
}

// IsDocument tells whether some document's type accepts the bytes.
func IsDocument(b []byte) bool {
	return bool(C.is_document(first(b), C.size_t(len(b))))
}

// IsFont tells whether some font's type accepts the bytes.
func IsFont(b []byte) bool {
	return bool(C.is_font(first(b), C.size_t(len(b))))
}

// IsImage tells whether some image's type accepts the bytes.
func IsImage(b []byte) bool {
	return bool(C.is_image(first(b), C.size_t(len(b))))
}

// IsVideo tells whether some film's type accepts the bytes.
func IsVideo(b []byte) bool {
	return bool(C.is_video(first(b), C.size_t(len(b))))
}

// Sample gives a short buffer of which the type in MoreTypes with this number is the answer, or the wider answer, and nothing
// if there is none.
func Sample(number int) []byte {
	if number < 0 || number >= len(allTypes) {
		return nil
	}
	out := make([]byte, C.sample(C.int32_t(number), nil, 0))
	C.sample(C.int32_t(number), first(out), C.size_t(len(out)))
	return out
}

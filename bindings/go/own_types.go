package infer

/*
#include "library.h"

// For what C writes to Go allocates. These have none.
struct mistake {
	size_t line, column, size;
	char reason[INFER_TEXT_SIZE];
};
static struct mistake types_check(const uint8_t *text, size_t len) {
	struct mistake found;
	found.size = infer_types_check(text, len, &found.line, &found.column, found.reason, sizeof found.reason);
	return found;
}
struct own_type {
	int32_t class_code;
	char mime_type[INFER_TYPES_TEXT_SIZE], extension[INFER_TYPES_TEXT_SIZE];
};
static struct own_type types_get(const uint8_t *text, size_t text_len, const uint8_t *buf, size_t len) {
	struct own_type found;
	found.class_code = infer_types_get(text, text_len, buf, len, found.mime_type, sizeof found.mime_type, found.extension, sizeof found.extension);
	return found;
}
static size_t types_line(const uint8_t *text, size_t text_len, const uint8_t *buf, size_t len) { return infer_types_line(text, text_len, buf, len); }
*/
import "C"

import (
	"bytes"
	"fmt"
	"io"
	"os"
	"syscall"
	"unsafe"
)

// OwnTypes are types that a text describes. They may be asked from any goroutine.
type OwnTypes struct {
	text []byte
}

// A TypesError is the first mistake of a text that describes no types: the line and the column, both from 1, where a
// column counts bytes, and what is wrong there.
type TypesError struct {
	Line, Column int
	Reason       string
}

func (e *TypesError) Error() string {
	return fmt.Sprintf("line %d, column %d: %s", e.Line, e.Column, e.Reason)
}

// The names of the classes by their numbers.
var classes = [...]Class{App, Archive, Audio, Book, Document, Font, Image, Text, Video}

// NewTypes gives the types that the text describes, one a line, in the notation of docs/NOTATION.md. The error is a
// *TypesError.
func NewTypes(text []byte) (*OwnTypes, error) {
	found := C.types_check(first(text), C.size_t(len(text)))
	if found.size > 0 {
		return nil, &TypesError{int(found.line), int(found.column), C.GoString(&found.reason[0])}
	}
	return &OwnTypes{append([]byte(nil), text...)}, nil
}

// What a file of types may have, as a device has no end.
const longestText = 1 << 20

func readText(path string) ([]byte, error) {
	file, err := os.Open(path)
	if err != nil {
		return nil, err
	}
	defer file.Close()
	text, err := io.ReadAll(io.LimitReader(file, longestText+1))
	if err == nil && len(text) > longestText {
		err = &os.PathError{Op: "read", Path: path, Err: syscall.EFBIG}
	}
	return text, err
}

// LoadTypes gives those of the text in a file, which has at most 1 MiB. A mistake of the text is a *TypesError, which the
// error wraps.
func LoadTypes(path string) (*OwnTypes, error) {
	text, err := readText(path)
	if err != nil {
		return nil, err
	}
	own, err := NewTypes(text)
	if err != nil {
		return nil, fmt.Errorf("%s: %w", path, err)
	}
	return own, nil
}

// Detect tells the first of these types that stands below the answer of the function Detect and accepts the bytes, and
// the answer of DetectMore if there is none.
func (own *OwnTypes) Detect(b []byte) (Type, bool) {
	found := C.types_get(first(own.text), C.size_t(len(own.text)), first(b), C.size_t(len(b)))
	if found.class_code < 0 {
		return Type{}, false
	}
	return Type{written(&found.mime_type), written(&found.extension), classes[found.class_code]}, true
}

// Line tells the number, from 1, of the line whose type Detect answers, and false if that is the answer of DetectMore. So a
// type of your own is told from one of the library that shows the same.
func (own *OwnTypes) Line(b []byte) (number int, ok bool) {
	line := C.types_line(first(own.text), C.size_t(len(own.text)), first(b), C.size_t(len(b)))
	return int(line), line > 0
}

// written gives the text that C wrote, with a zero after it.
func written(room *[C.INFER_TYPES_TEXT_SIZE]C.char) string {
	all := unsafe.Slice((*byte)(unsafe.Pointer(room)), len(room))
	return string(all[:bytes.IndexByte(all, 0)])
}

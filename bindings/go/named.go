package infer

/*
#include "library.h"

static struct infer_named_answer named(_GoString_ name, const uint8_t *buf, size_t len) {
	struct infer_named_answer found;
	infer_named(_GoStringPtr(name), _GoStringLen(name), buf, len, &found);
	return found;
}

static uint32_t oddities(_GoString_ name) { return infer_oddities(_GoStringPtr(name), _GoStringLen(name)); }

static size_t line(_GoString_ name, const uint8_t *buf, size_t len, char *out, size_t size) {
	infer_label_options options = {0};
	return infer_label_line(_GoStringPtr(name), _GoStringLen(name), buf, len, &options, NULL, out, size);
}
*/
import "C"

import (
	"encoding/json"
	"fmt"
	"io/fs"
	"strings"
)

// Standing is what a name did beside the bytes of its file.
type Standing int

// The standings.
const (
	// Agree says that the bytes are of the type that the name has.
	Agree Standing = iota
	// NameRefines says that they may begin a file of the type that the name has, which is told.
	NameRefines
	// BytesRefine says that they are of a finer kind of the type that the name has. Theirs is told.
	BytesRefine
	// BytesAlone says that the name says nothing, and the bytes have a type.
	BytesAlone
	// NameAlone says that no type accepts the bytes, and that they may be of the type that the name has.
	NameAlone
	// Contradicts says that the bytes are not of a type that the name has.
	Contradicts
	// Nothing says that neither says anything.
	Nothing
)

var standings = [...]string{"agree", "name refines", "bytes refine", "bytes alone", "name alone", "contradicts", "nothing"}

// String gives the standing in words, as "name refines".
func (s Standing) String() string {
	if s < 0 || int(s) >= len(standings) {
		return "no standing"
	}
	return standings[s]
}

// MarshalText gives the standing in words, so that JSON has these.
func (s Standing) MarshalText() ([]byte, error) { return []byte(s.String()), nil }

// UnmarshalText takes the words.
func (s *Standing) UnmarshalText(text []byte) error {
	for standing, words := range standings {
		if string(text) == words {
			*s = Standing(standing)
			return nil
		}
	}
	return fmt.Errorf("infer: no standing: %q", text)
}

// NamedType is a type that DetectNamed tells. If there is none its MIME type is empty, and so is the extension of one of
// which only names tell. One with an own name nobody else names: it tells files apart, and is not to be sent.
type NamedType struct {
	MIMEType  string `json:"mime"`
	Extension string `json:"extension"`
	IsOwnName bool   `json:"own"`
}

// String gives the MIME type.
func (t NamedType) String() string { return t.MIMEType }

// MarshalJSON gives null for no type, and for the extension of one that has none.
func (t NamedType) MarshalJSON() ([]byte, error) {
	if t.MIMEType == "" {
		return []byte("null"), nil
	}
	var extension *string
	if t.Extension != "" {
		extension = &t.Extension
	}
	return json.Marshal(struct {
		MIMEType  string  `json:"mime"`
		Extension *string `json:"extension"`
		IsOwnName bool    `json:"own"`
	}{t.MIMEType, extension, t.IsOwnName})
}

// Named is what a name and bytes tell: the standing, the type, the type that the name has first, whatever the bytes are,
// and the type that DetectMore tells of the bytes.
type Named struct {
	Standing    Standing  `json:"standing"`
	Type        NamedType `json:"type"`
	TypeOfName  NamedType `json:"type_of_name"`
	TypeOfBytes Type      `json:"type_of_bytes"`
}

func namedType(texts *C.struct_infer_named_type) NamedType {
	return NamedType{C.GoString(&texts.mime_type[0]), C.GoString(&texts.extension[0]), bool(texts.is_own_name)}
}

// DetectNamed tells what a file's name and its first bytes tell. The bytes win: a name only chooses among what they leave
// open.
func DetectNamed(name string, b []byte) Named {
	found := C.named(name, first(b), C.size_t(len(b)))
	ofBytes, _ := typeOf(int(found.row))
	return Named{Standing(found.standing), namedType(&found.told), namedType(&found.name), ofBytes}
}

// Oddity is what is odd about a name: a sum of these, and 0 if nothing is. A name with one of the first two misleads whoever
// sees it, so a gate should refuse it. Honest names have two extensions too, such as initial.json.gz.
type Oddity uint32

// The oddities.
const (
	// OddControl is a control character of ASCII.
	OddControl Oddity = 1 << iota
	// OddDirection is a mark of writing direction: after one, gnp.exe is shown as exe.png.
	OddDirection
	// OddEnd is a dot or a blank at the end of the base name, which Windows removes.
	OddEnd
	// OddTwoExtensions is another extension before the last, as in shell.php.jpg.
	OddTwoExtensions
)

var oddities = [...]string{"a control character", "a mark of direction", "an odd end", "two extensions"}

// String gives the oddities in words, as "an odd end, two extensions".
func (o Oddity) String() string {
	var found []string
	for i, words := range oddities {
		if o&(1<<i) != 0 {
			found = append(found, words)
		}
	}
	return strings.Join(found, ", ")
}

// Oddities tells what is odd about a name. It changes nothing of what DetectNamed tells.
func Oddities(name string) Oddity { return Oddity(C.oddities(name)) }

// Line is the line that infer_label prints of a file's name and its first bytes, without its end. Nothing of a name moves a
// cursor or is hidden.
func Line(name string, b []byte) string {
	size := C.line(name, first(b), C.size_t(len(b)), nil, 0)
	out := make([]C.char, size+1)
	C.line(name, first(b), C.size_t(len(b)), &out[0], size+1)
	return C.GoStringN(&out[0], C.int(size-1))
}

// DetectNamedFile tells the same of the first 8192 bytes of a regular file, whose name the path is.
func DetectNamedFile(path string) (Named, error) { return detectNamedFile(system{}, path) }

// DetectNamedFS tells the same of a regular file of a file system.
func DetectNamedFS(fsys fs.FS, name string) (Named, error) { return detectNamedFile(fsys, name) }

func detectNamedFile(fsys fs.FS, path string) (found Named, err error) {
	_, _, err = detectFile(fsys, path, func(front []byte) (Type, bool) {
		found = DetectNamed(path, front)
		return Type{}, false
	})
	return found, err
}

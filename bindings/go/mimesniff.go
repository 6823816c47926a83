package infer

/*
#include "library.h"

struct mime {
	char text[INFER_MIME_SIZE];
	size_t size;
};
static struct mime mime_parse(_GoString_ text) {
	struct mime found;
	found.size = infer_mime_parse(_GoStringPtr(text), _GoStringLen(text), found.text, sizeof found.text);
	return found;
}
static struct mime mime_extract(_GoString_ text) {
	struct mime found;
	found.size = infer_mime_extract(_GoStringPtr(text), _GoStringLen(text), found.text, sizeof found.text);
	return found;
}
static struct mime mime_compute(_GoString_ text, uint32_t flags, int32_t context, const uint8_t *buf, size_t len) {
	struct mime found;
	found.size = infer_mime_compute(_GoStringPtr(text), _GoStringLen(text), flags, context, buf, len, found.text, sizeof found.text);
	return found;
}
static bool mime_is_decided(_GoString_ text, uint32_t flags, const uint8_t *buf, size_t len) {
	return infer_mime_is_decided(_GoStringPtr(text), _GoStringLen(text), flags, buf, len);
}
static bool mime_may_be_scriptable(const uint8_t *buf, size_t len) { return infer_mime_may_be_scriptable(buf, len); }
static uint32_t mime_groups(_GoString_ text) { return infer_mime_groups(_GoStringPtr(text), _GoStringLen(text)); }
static bool mime_is_nosniff(_GoString_ text) { return infer_mime_is_nosniff(_GoStringPtr(text), _GoStringLen(text)); }
static bool mime_is_blocked(_GoString_ text, int32_t of) { return infer_mime_is_blocked(_GoStringPtr(text), _GoStringLen(text), of); }
static bool mime_is_old_server(_GoString_ text) { return infer_mime_is_old_server(_GoStringPtr(text), _GoStringLen(text)); }
*/
import "C"

// Context is what bytes are loaded for.
type Context int32

// The contexts.
const (
	InPage Context = iota
	InImage
	InAudioOrVideo
	InFont
	InPlugin
	InStyle
	InScript
	InTextTrack
	InCacheManifest
)

// Destination is what a response is fetched for.
type Destination int32

// The destinations. Scripts are workers and worklets too.
const (
	ForScript Destination = iota
	ForStyle
	ForOther
)

// MIMEGroup is a sum of the groups of the MIME Sniffing Standard. Parameters count for none.
type MIMEGroup uint32

// The groups. A document of GroupScriptable may run scripts: XML, HTML and PDF.
const (
	GroupImage MIMEGroup = 1 << iota
	GroupAudioOrVideo
	GroupFont
	GroupZIP
	GroupArchive
	GroupXML
	GroupHTML
	GroupScriptable
	GroupJavaScript
	GroupJSON
)

// Supplied is what is known of bytes before they are looked at: the value of Content-Type, whether sniffing is forbidden,
// whether that value is one that old servers sent of every file, and what the bytes are loaded for.
type Supplied struct {
	ContentType          string
	NoSniff, IsOldServer bool
	Context              Context
}

func (s Supplied) flags() C.uint32_t {
	var flags C.uint32_t
	if s.NoSniff {
		flags |= C.INFER_MIME_NO_SNIFF
	}
	if s.IsOldServer {
		flags |= C.INFER_MIME_OLD_SERVER
	}
	return flags
}

func mimeText(found *C.struct_mime) (string, bool) {
	return C.GoStringN(&found.text[0], C.int(found.size)), found.size > 0
}

// ComputeType tells the type that a browser computes of what is known and of the first 1445 bytes. It is false if nothing is
// told and nothing is found, which is never so of a page.
func ComputeType(b []byte, supplied Supplied) (mimeType string, ok bool) {
	found := C.mime_compute(supplied.ContentType, supplied.flags(), C.int32_t(supplied.Context), first(b), C.size_t(len(b)))
	return mimeText(&found)
}

// IsComputeDecided tells whether no bytes that may follow change what ComputeType tells of a page. True is certain.
func IsComputeDecided(b []byte, supplied Supplied) bool {
	return bool(C.mime_is_decided(supplied.ContentType, supplied.flags(), first(b), C.size_t(len(b))))
}

// MayBeScriptable tells whether some bytes that may follow make a browser that was told no type run scripts. False is certain.
func MayBeScriptable(b []byte) bool {
	return bool(C.mime_may_be_scriptable(first(b), C.size_t(len(b))))
}

// ParseMIMEType gives the MIME type of a text as the standard writes it, such as "text/html;charset=utf-8", and false if
// there is none. Each byte counts as the code point with its number, as in a header.
func ParseMIMEType(text string) (mimeType string, ok bool) {
	found := C.mime_parse(text)
	return mimeText(&found)
}

// ExtractMIMEType gives the MIME type that Fetch extracts from all values of Content-Type, with ", " between them.
func ExtractMIMEType(values string) (mimeType string, ok bool) {
	found := C.mime_extract(values)
	return mimeText(&found)
}

// MIMEGroups tells the groups that a MIME type is in.
func MIMEGroups(mimeType string) MIMEGroup { return MIMEGroup(C.mime_groups(mimeType)) }

// IsNosniff tells whether the value of X-Content-Type-Options forbids to sniff. Several values have ", " between them.
func IsNosniff(value string) bool { return bool(C.mime_is_nosniff(value)) }

// IsBlocked tells whether a response that forbids to sniff is blocked, by the value of Content-Type.
func IsBlocked(contentType string, of Destination) bool {
	return bool(C.mime_is_blocked(contentType, C.int32_t(of)))
}

// IsOldServer tells whether the value of the last Content-Type is one that old servers sent of every file.
func IsOldServer(contentType string) bool { return bool(C.mime_is_old_server(contentType)) }

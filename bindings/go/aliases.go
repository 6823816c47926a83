package infer

/*
#include "library.h"

static const struct infer_alias *alias_at(size_t at) { return &infer_aliases[at]; }
*/
import "C"

// AliasKind is the kind of an alias.
type AliasKind int

// The kinds of aliases: another extension or MIME type of a type, the MIME type that browsers want, and the extension of
// a format of its own whose first bytes are those of a wider one.
const (
	OtherExtension AliasKind = C.INFER_ALIAS_EXTENSION
	OtherMIMEType  AliasKind = C.INFER_ALIAS_MIME_TYPE
	Browser        AliasKind = C.INFER_ALIAS_BROWSER
	BuiltOn        AliasKind = C.INFER_ALIAS_BUILT_ON
)

// Alias is another name of a type, in lower case.
type Alias struct {
	Kind AliasKind
	Name string
}

var targets = aliases()

func aliases() map[Alias]string {
	all := make(map[Alias]string, C.INFER_ALIAS_COUNT)
	for i := C.size_t(0); i < C.INFER_ALIAS_COUNT; i++ {
		it := C.alias_at(i)
		all[Alias{AliasKind(it.kind), C.GoString(it.alias)}] = C.GoString(it.target)
	}
	return all
}

// Target tells the extension of the type that an alias leads to, and whether there is such an alias.
func Target(kind AliasKind, name string) (extension string, ok bool) {
	extension, ok = targets[Alias{kind, name}]
	return extension, ok
}

// Aliases gives every alias, and the extension of its type.
func Aliases() map[Alias]string {
	all := make(map[Alias]string, len(targets))
	for alias, target := range targets {
		all[alias] = target
	}
	return all
}

package infer

/*
#include "library.h"

struct evidence {
	int32_t row, built_in;
	infer_needs needs;
	infer_range ranges[INFER_MOST_RANGES];
};
static struct evidence evidence(const uint8_t *buf, size_t len) {
	struct evidence found;
	found.row = found.built_in = infer_evidence(buf, len, found.ranges, INFER_MOST_RANGES, &found.needs);
	return found;
}
static struct evidence more_evidence(const uint8_t *buf, size_t len) {
	struct evidence found;
	found.row = infer_more_evidence(buf, len, found.ranges, INFER_MOST_RANGES, &found.needs);
	found.built_in = infer_position(buf, len);
	return found;
}
*/
import "C"

// Range is bytes that decide an answer: where the first of them stands, how many they are, how far each other is behind the
// one before, which is 1 but for a search, the type of which they tell, and whether it accepts by them: this is the answer,
// or the built-in one that it makes more exact. Otherwise they rule it out. The type of the first byte is empty: it rules out
// all types that begin with another.
type Range struct {
	Place, Len, Step int
	Type             Type
	Accepts          bool
}

// Evidence is what decides an answer: the answer, which is empty if there is none, bytes, how many ranges of them are wanted,
// the least length that is needed, and whether just the length that there is is needed. If fewer ranges are there than are
// wanted, they are not enough.
type Evidence struct {
	Type    Type
	Ranges  []Range
	Wanted  int
	Least   int
	IsExact bool
}

// DetectEvidence tells what decides the answer of Detect: all bytes that have these in the same places, and such a length, have
// it too.
func DetectEvidence(b []byte) Evidence {
	found := C.evidence(first(b), C.size_t(len(b)))
	return evidenceOf(&found)
}

// DetectMoreEvidence tells the same of DetectMore.
func DetectMoreEvidence(b []byte) Evidence {
	found := C.more_evidence(first(b), C.size_t(len(b)))
	return evidenceOf(&found)
}

func evidenceOf(found *C.struct_evidence) Evidence {
	told, _ := typeOf(int(found.row))
	evidence := Evidence{Type: told, Wanted: int(found.needs.wanted), Least: int(found.needs.least), IsExact: bool(found.needs.is_exact)}
	for i := 0; i < evidence.Wanted && i < len(found.ranges); i++ {
		it := &found.ranges[i]
		of, isOne := typeOf(int(it.row))
		evidence.Ranges = append(evidence.Ranges, Range{int(it.place), int(it.len), int(it.step), of, isOne && (it.row == found.row || it.row == found.built_in)})
	}
	return evidence
}

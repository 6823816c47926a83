//go:build !race

package infer

import (
	"bytes"
	"math/rand"
	"net/http"
	"testing"
)

const isRace = false

// What net/http tells of a million buffers: those of the vectors, with bytes in front, changed and cut.
func TestContentTypes(t *testing.T) {
	var seeds [][]byte
	for _, line := range lines(t, "content_types.tsv") {
		seeds = append(seeds, decode(t, line[0]))
	}
	chance := rand.New(rand.NewSource(2))
	for round := 0; round < 1_000_000; round++ {
		data := append(bytes.Repeat([]byte{"\t\n\f\r "[chance.Intn(5)]}, chance.Intn(3)*chance.Intn(3)), seeds[chance.Intn(len(seeds))]...)
		if len(data) > 0 && chance.Intn(2) == 0 {
			data[chance.Intn(len(data))%40] = byte(chance.Intn(256))
		}
		data = data[:len(data)-chance.Intn(len(data)+1)*chance.Intn(2)]
		if got, want := DetectContentType(data), http.DetectContentType(data); got != want {
			t.Fatalf("%q: %q, and in net/http %q", data, got, want)
		}
	}
}

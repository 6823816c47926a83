package infer

import (
	"bufio"
	"bytes"
	"encoding/hex"
	"encoding/json"
	"errors"
	"io"
	"io/fs"
	"math"
	"math/rand"
	"os"
	"path/filepath"
	"reflect"
	"runtime/debug"
	"strconv"
	"strings"
	"sync"
	"syscall"
	"testing"
	"testing/fstest"
	"testing/iotest"
	"time"
	"unicode/utf8"
)

var (
	jpeg = []byte("\xFF\xD8\xFF\xE0")
	want = Type{"image/jpeg", "jpg", Image}
)

func lines(t *testing.T, name string) [][]string {
	text, err := os.ReadFile(filepath.Join("..", "..", "vectors", filepath.FromSlash(name)))
	if err != nil {
		t.Fatal(err)
	}
	var all [][]string
	for _, line := range strings.Split(strings.TrimSuffix(string(text), "\n"), "\n") {
		all = append(all, strings.Split(line, "\t"))
	}
	return all
}

func wantedRows(t *testing.T) []Type {
	var all []Type
	for _, line := range lines(t, "rows.tsv") {
		all = append(all, Type{line[1], line[2], Class(strings.ToLower(line[0]))})
	}
	return all
}

func decode(t *testing.T, tokens string) []byte {
	var all []byte
	for _, token := range strings.Fields(strings.TrimPrefix(tokens, "-")) {
		digits, times, found := strings.Cut(token, "*")
		part, err := hex.DecodeString(digits)
		count := 1
		if err == nil && found {
			count, err = strconv.Atoi(times)
		}
		if err != nil {
			t.Fatal(err)
		}
		all = append(all, bytes.Repeat(part, count)...)
	}
	return all
}

func TestWiderAnswers(t *testing.T) {
	for _, line := range lines(t, "further/vectors.tsv") {
		data := decode(t, line[1])
		got, ok := DetectMore(data)
		told := "unknown"
		if ok {
			told = got.MIMEType + " " + got.Extension
		}
		if told != line[3] {
			t.Error(line[0], got)
		}
		if class, _, further := strings.Cut(line[2], "/"); further {
			if got.Class != Class(strings.ToLower(class)) {
				t.Error(line[0], got)
			}
		} else if other, known := Detect(data); got != other || ok != known {
			t.Error(line[0], got, other)
		}
	}
}

func TestEncodings(t *testing.T) {
	for _, it := range []struct{ data, want string }{
		{"plain\ttext\r\n\x1B[0m", ASCII}, {"caf\xC3\xA9", UTF8}, {"caf\xC3", UTF8}, {"\xEF\xBB\xBF", UTF8}, {"\xF0\x9F\x93", UTF8},
		{"\xFF\xFEa\x00", UTF16LE}, {"\xFE\xFF\x00a", UTF16BE}, {"\xFF\xFE", UTF16LE},
		{"", ""}, {"caf\xE9 ", ""}, {"a\x00b", ""}, {"\xED\xA0\x80", ""}, {"\xC0\x80", ""}, {"\xF4\x90\x80\x80", ""}, {"\xEF\xBB\xBF\xFF", ""},
	} {
		if got, ok := Encoding([]byte(it.data)); got != it.want || ok != (it.want != "") {
			t.Errorf("%q: %q %v", it.data, got, ok)
		}
	}
	// What Go itself takes for UTF-8 is, if no byte of it is one that text has not.
	chance := rand.New(rand.NewSource(1))
	for round := 0; round < 100_000; round++ {
		var data []byte
		for count := chance.Intn(12); count > 0; count-- {
			data = utf8.AppendRune(data, []rune{'a', 0x7F, 0x80, 0x7FF, 0x800, 0xD7FF, 0xE000, 0xFFFF, 0x10000, 0x10FFFF}[chance.Intn(10)])
		}
		if len(data) > 0 && chance.Intn(2) == 0 {
			data[chance.Intn(len(data))] = 0x80 | byte(chance.Intn(0x80))
		}
		// A space ends what is cut, and no mark of UTF-16 can stand first.
		data = append(append([]byte{' '}, data...), ' ')
		want := ""
		if utf8.Valid(data) {
			want = UTF8
		}
		if len([]rune(string(data))) == len(data) && utf8.Valid(data) {
			want = ASCII
		}
		if got, _ := Encoding(data); got != want {
			t.Fatalf("%q: %q", data, got)
		}
	}
}

type vector struct {
	name string
	data []byte
	want Type
	ok   bool
}

func vectors(t *testing.T) []vector {
	named := map[string]Type{}
	for _, line := range lines(t, "rows.tsv") {
		named[line[0]+"/"+line[2]] = Type{line[1], line[2], Class(strings.ToLower(line[0]))}
	}
	var all []vector
	for _, line := range lines(t, "vectors.tsv") {
		it := vector{name: line[0], data: decode(t, line[3])}
		it.want, it.ok = named[line[2]]
		all = append(all, it)
	}
	return all
}

func TestRows(t *testing.T) {
	rows := wantedRows(t)
	if len(Types()) != len(rows) {
		t.Fatal(len(Types()))
	}
	samples := 0
	for i, found := range Types() {
		if found != rows[i] {
			t.Error(found, rows[i])
		}
		if !IsSupported(found.Extension) || !IsMIMETypeSupported(found.MIMEType) {
			t.Error(found)
		}
		data := Sample(i)
		if len(data) == 0 {
			continue
		}
		samples++
		if got, ok := Detect(data); !ok || got != rows[i] || !Is(data, got.Extension) || !IsMIMEType(data, got.MIMEType) {
			t.Error(got, rows[i])
		}
	}
	// Two rows have the signature of an earlier one, and so no sample.
	if samples != len(rows)-2 || Sample(-1) != nil || Sample(len(MoreTypes())) != nil {
		t.Error(samples)
	}
	if IsSupported("txt") || IsMIMETypeSupported("text/plain") || IsSupported("") || IsSupported("\xFF") {
		t.Error("supported")
	}
}

func TestMoreTypes(t *testing.T) {
	rows := wantedRows(t)
	builtIn := len(rows)
	for _, line := range lines(t, "further/rows.tsv") {
		rows = append(rows, Type{line[1], line[2], Class(strings.ToLower(line[0]))})
	}
	all := MoreTypes()
	if len(all) != len(rows) || Version() == "" || strings.Count(Version(), ".") != 2 {
		t.Fatal(len(all), len(rows), Version())
	}
	for number, kind := range all {
		if kind != rows[number] || kind.String() != kind.MIMEType {
			t.Error(kind, rows[number])
		}
		detect, mayBecome := DetectMore, MoreMayBecome
		if number < builtIn {
			detect, mayBecome = Detect, MayBecome
		}
		data := Sample(number)
		if got, ok := detect(data); len(data) > 0 && (!ok || got != kind) {
			t.Error(got, kind)
		}
		// What can come of a beginning is said, and what is decided stays. (No other goroutine runs, so no race can be found here.)
		whole, _ := Detect(data)
		wholeMore, _ := DetectMore(data)
		for at := 0; at <= len(data) && len(data) > 0 && !isRace; at++ {
			front := data[:at]
			if !mayBecome(front, kind.Extension) {
				t.Error(kind, at)
			}
			if got, _ := Detect(front); got != whole && IsDecided(front) {
				t.Error(kind, at)
			}
			if got, _ := DetectMore(front); got != wholeMore && IsMoreDecided(front) {
				t.Error(kind, at)
			}
		}
	}
	grown := append(append([]byte{}, jpeg...), make([]byte, 57)...)
	if IsDecided(nil) || IsDecided(jpeg) || !IsDecided(grown) || IsMoreDecided(jpeg) || !IsMoreDecided(grown) {
		t.Error("decided")
	}
	if MayBecome([]byte("G"), "jpg") || !MayBecome([]byte(" <"), "html") || MayBecome(nil, "svg") || !MoreMayBecome(nil, "svg") || MoreMayBecome(nil, "none") {
		t.Error("may become")
	}
}

func TestJSON(t *testing.T) {
	text, err := json.Marshal(want)
	if string(text) != `{"mime":"image/jpeg","extension":"jpg","class":"image"}` || err != nil {
		t.Error(string(text), err)
	}
	var back Type
	if err := json.Unmarshal(text, &back); back != want || err != nil {
		t.Error(back, err)
	}
}

func TestVectors(t *testing.T) {
	for _, it := range vectors(t) {
		if got, ok := Detect(it.data); got != it.want || ok != it.ok {
			t.Error(it.name, got)
		}
		if got, ok, _ := Verdict(it.data); got != it.want || ok != it.ok {
			t.Error(it.name, got)
		}
		if got, ok, err := DetectReader(iotest.OneByteReader(bytes.NewReader(it.data))); err != nil || len(it.data) <= Front && (got != it.want || ok != it.ok) {
			t.Error(it.name, got, err)
		}
	}
}

func TestClasses(t *testing.T) {
	asks := []func([]byte) bool{IsApp, IsArchive, IsAudio, IsBook, IsDocument, IsFont, IsImage, IsVideo}
	docx := append([]byte("PK\x03\x04"), append(make([]byte, 26), "word/"...)...)
	buffers := [][]byte{[]byte("MZ"), []byte("BZh"), []byte("ID3"), append(make([]byte, 60), "BOOKMOBI"...), docx, []byte("OTTO\x00"), jpeg, []byte("FLV\x01")}
	for i, ask := range asks {
		for k, data := range buffers {
			// A document of Office is an archive too.
			if ask(data) != (i == k || i == 1 && k == 4) {
				t.Error(i, k)
			}
		}
		if ask(nil) {
			t.Error(i)
		}
	}
}

func TestQuestions(t *testing.T) {
	if !Is([]byte("MZ"), "dll") || Is(jpeg, "JPG") || Is(nil, "jpg") || Is(jpeg, "") || IsMIMEType(jpeg, "image/png") || IsMIMEType(nil, "") {
		t.Error("questions")
	}
	if _, ok := Detect(nil); ok {
		t.Error("empty")
	}
	if _, _, final := Verdict(append(jpeg, make([]byte, 1019)...)); final {
		t.Error("final too soon")
	}
	if got, ok, final := Verdict(append(jpeg, make([]byte, 1020)...)); got != want || !ok || !final {
		t.Error("not final")
	}
	if _, ok, final := Verdict(bytes.Repeat([]byte(" "), 5000)); ok || final {
		t.Error("final spaces")
	}
}

const ownTypes = "# extension MIME type class parent signature\n" +
	"qoi   image/qoi        image -   14: @0 \"qoif\"\n" +
	"myapp application/x-my app   zip 42: @30 \"manifest.my\"\n" +
	"flow  text/x-flow      text  xml root: flow or flows\n"

func TestOwnTypes(t *testing.T) {
	own, err := NewTypes([]byte(ownTypes))
	none, fault := NewTypes(nil)
	if err != nil || fault != nil {
		t.Fatal(err, fault)
	}
	zip := append(append([]byte("PK\x03\x04"), make([]byte, 26)...), "manifest.my?"...)
	for _, it := range []struct {
		data []byte
		want Type
	}{{append([]byte("qoif"), make([]byte, 10)...), Type{"image/qoi", "qoi", Image}}, {zip, Type{"application/x-my", "myapp", App}}, {[]byte("<?xml version='1.0'?><flows>"), Type{"text/x-flow", "flow", Text}}, {jpeg, want}} {
		if got, ok := own.Detect(it.data); got != it.want || !ok {
			t.Error(got, it.want)
		}
	}
	for line, data := range map[int]string{2: "qoif" + strings.Repeat("\x00", 10), 4: "<?xml version='1.0'?><flows>", 0: "GIF89a"} {
		if got, ok := own.Line([]byte(data)); got != line || ok != (line > 0) {
			t.Error(line, got)
		}
	}
	// What they do not know, the wider answer may.
	for _, line := range lines(t, "further/vectors.tsv") {
		data := decode(t, line[1])
		wider, known := DetectMore(data)
		for _, types := range []*OwnTypes{own, none} {
			if _, own := types.Line(data); own {
				continue
			}
			if got, ok := types.Detect(data); got != wider || ok != known {
				t.Error(line[0], got, wider)
			}
		}
	}
	path := filepath.Join(t.TempDir(), "types")
	if err := os.WriteFile(path, []byte(ownTypes), 0o600); err != nil {
		t.Fatal(err)
	}
	if loaded, err := LoadTypes(path); err != nil || !bytes.Equal(loaded.text, own.text) {
		t.Error(err)
	}
	if _, err := LoadTypes(path + "-not"); !errors.Is(err, os.ErrNotExist) {
		t.Error(err)
	}
	for _, long := range []string{path, "/dev/zero"} {
		if err := os.WriteFile(path, bytes.Repeat([]byte("#"), 1<<20), 0o600); err != nil {
			t.Fatal(err)
		}
		if _, err := LoadTypes(path); err != nil {
			t.Error(err)
		}
		if err := os.Truncate(path, 1<<40); err != nil {
			t.Fatal(err)
		}
		if _, err := LoadTypes(long); !errors.Is(err, syscall.EFBIG) {
			t.Error(long, err)
		}
	}
}

func TestMistakes(t *testing.T) {
	path := filepath.Join(t.TempDir(), "types")
	for _, it := range []struct {
		text string
		want TypesError
	}{
		{"qoi image/qoi picture - 14: @0 00", TypesError{1, 15, "unknown class"}},
		{"\n\nqoi image/qoi image - 14: @0 \"qoif\n", TypesError{3, 30, "quotes do not close"}},
		{"\xEF\xBB\xBFa b/c app - 1: @0 00", TypesError{1, 1, "no extension"}},
		{"a b/c app - 1: @0 00 00", TypesError{1, 22, "place past the length"}},
		{ownTypes + "a", TypesError{5, 2, "a type has an extension, a MIME type, a class, a parent and a signature"}},
	} {
		var got *TypesError
		if own, err := NewTypes([]byte(it.text)); own != nil || !errors.As(err, &got) || *got != it.want {
			t.Errorf("%q: %v", it.text, err)
		}
		if err := os.WriteFile(path, []byte(it.text), 0o600); err != nil {
			t.Fatal(err)
		}
		if _, err := LoadTypes(path); !errors.As(err, &got) || err.Error() != path+": "+it.want.Error() {
			t.Error(err)
		}
	}
}

func TestReaders(t *testing.T) {
	late := append(bytes.Repeat([]byte(" "), 8190), "<p>"...)
	reader := bytes.NewReader(late)
	if _, ok, err := DetectReader(reader); ok || err != nil || reader.Len() != 1 {
		t.Error(ok, err, reader.Len())
	}
	fault := errors.New("fault")
	if _, ok, err := DetectReader(io.MultiReader(bytes.NewReader(jpeg), iotest.ErrReader(fault))); ok || err != fault {
		t.Error(ok, err)
	}
	path := filepath.Join(t.TempDir(), "photo")
	if err := os.WriteFile(path, jpeg, 0o600); err != nil {
		t.Fatal(err)
	}
	if got, ok, err := DetectFile(path); got != want || !ok || err != nil {
		t.Error(got, ok, err)
	}
	if _, _, err := DetectFile(path + "-not"); !errors.Is(err, os.ErrNotExist) {
		t.Error(err)
	}
	if _, _, err := DetectFile(filepath.Dir(path)); err == nil {
		t.Error("a folder is read")
	}
}

func TestMoreReadersAndFiles(t *testing.T) {
	signature := "-----BEGIN PGP SIGNATURE-----"
	reader := strings.NewReader(signature)
	if got, ok, err := DetectMoreReader(reader); got.Extension != "sig" || !ok || err != nil || reader.Len() != 0 {
		t.Error(got, ok, err)
	}
	got, ok, whole, err := DetectMoreWhole(strings.NewReader(signature))
	if all, fault := io.ReadAll(whole); got.Extension != "sig" || !ok || err != nil || fault != nil || string(all) != signature {
		t.Error(got, ok, err, fault)
	}
	path := filepath.Join(t.TempDir(), "signature")
	if err := os.WriteFile(path, []byte(signature), 0o600); err != nil {
		t.Fatal(err)
	}
	if got, ok, err := DetectMoreFile(path); got.Extension != "sig" || !ok || err != nil {
		t.Error(got, ok, err)
	}
	for name, fsys := range map[string]fs.FS{"signature": os.DirFS(filepath.Dir(path)), "a/b": fstest.MapFS{"a/b": {Data: []byte(signature)}}} {
		if got, ok, err := DetectMoreFS(fsys, name); got.Extension != "sig" || !ok || err != nil {
			t.Error(name, got, ok, err)
		}
		if got, ok, err := DetectFS(fsys, name); got.Extension != "pem" || !ok || err != nil {
			t.Error(name, got, ok, err)
		}
		for _, wrong := range []string{"none", "../signature", "/etc/passwd", ""} {
			if _, ok, err := DetectFS(fsys, wrong); ok || err == nil {
				t.Error(name, wrong)
			}
		}
		if _, _, err := DetectFS(fsys, "."); !errors.Is(err, syscall.EISDIR) {
			t.Error(name, err)
		}
	}
	if err := syscall.Mkfifo(path+"-fifo", 0o600); err != nil {
		t.Skip(err)
	}
	if _, _, err := DetectFS(os.DirFS(filepath.Dir(path)), "signature-fifo"); !errors.Is(err, syscall.ENOTSUP) {
		t.Error(err)
	}
}

// nameOf gives a name, some bytes of which are written as \xHH.
func nameOf(t *testing.T, text string) string {
	parts := strings.Split(text, `\x`)
	name := parts[0]
	for _, part := range parts[1:] {
		digits, err := hex.DecodeString(part[:2])
		if err != nil {
			t.Fatal(err)
		}
		name += string(digits) + part[2:]
	}
	return name
}

func TestNames(t *testing.T) {
	all := lines(t, "named.tsv")
	for _, line := range all {
		data := decode(t, line[1])
		found := DetectNamed(nameOf(t, line[0]), data)
		told := found.Type.String()
		if told == "" {
			told = "-"
		}
		if ofBytes, _ := DetectMore(data); found.Standing.String() != line[2] || told != line[3] || found.TypeOfBytes != ofBytes {
			t.Error(line[0], line[1], found)
		}
	}
	if len(all) < 900 {
		t.Error(len(all))
	}
	if got := Line("main\n.py", []byte("import os\n")); got != `main\u000a.py: text/x-python py, us-ascii` {
		t.Error(got)
	}
	if got := DetectNamed("a.dz", []byte("\x1F\x8B\x08")); got.Type != (NamedType{"application/x-dictzip", "", true}) {
		t.Error(got)
	}
	if got := DetectNamed("a.png\x00.txt", jpeg); got != (Named{BytesAlone, NamedType{"image/jpeg", "jpg", false}, NamedType{}, want}) {
		t.Error(got)
	}
	if got := Standing(7).String() + Standing(-1).String(); got != "no standingno standing" {
		t.Error(got)
	}
}

func TestNamedJSON(t *testing.T) {
	for wanted, found := range map[string]Named{
		`{"standing":"agree","type":{"mime":"image/jpeg","extension":"jpg","own":false},"type_of_name":{"mime":"image/jpeg","extension":"jpg","own":false},"type_of_bytes":{"mime":"image/jpeg","extension":"jpg","class":"image"}}`: DetectNamed("a.jpg", jpeg),
		`{"standing":"nothing","type":null,"type_of_name":null,"type_of_bytes":null}`: DetectNamed("x.unknown", []byte("\x00\x01")),
	} {
		text, err := json.Marshal(found)
		if string(text) != wanted || err != nil {
			t.Error(string(text), err)
		}
		var back Named
		if err := json.Unmarshal(text, &back); back != found || err != nil {
			t.Error(back, err)
		}
	}
	if text, err := json.Marshal(DetectNamed("a.dz", []byte("\x1F\x8B\x08")).Type); string(text) != `{"mime":"application/x-dictzip","extension":null,"own":true}` || err != nil {
		t.Error(string(text), err)
	}
	var standing Standing
	if err := json.Unmarshal([]byte(`"lies"`), &standing); err == nil {
		t.Error("a standing that is none")
	}
}

func TestOddities(t *testing.T) {
	for name, wanted := range map[string]Oddity{
		"": 0, "a.png": 0, "a.tar.gz": 0, "a\n.png": OddControl, "a\x00.png": OddControl, "\u202egnp.exe": OddDirection, "a.png ": OddEnd, "shell.php.": OddEnd,
		"shell.php.jpg": OddTwoExtensions, "\x7f\u2066.php.jpg": OddControl | OddDirection | OddTwoExtensions,
	} {
		if got := Oddities(name); got != wanted {
			t.Errorf("%q: %v", name, got)
		}
	}
	if got := (OddEnd | OddTwoExtensions).String() + Oddity(0).String(); got != "an odd end, two extensions" {
		t.Error(got)
	}
}

func TestNamedFiles(t *testing.T) {
	folder := t.TempDir()
	path := filepath.Join(folder, "a.png")
	if err := os.WriteFile(path, jpeg, 0o600); err != nil {
		t.Fatal(err)
	}
	got, err := DetectNamedFile(path)
	if err != nil || got.Standing != Contradicts || got.TypeOfName.MIMEType != "image/png" || got.TypeOfBytes != want {
		t.Error(got, err)
	}
	for _, fsys := range []fs.FS{os.DirFS(folder), fstest.MapFS{"a.png": {Data: jpeg}}} {
		if same, err := DetectNamedFS(fsys, "a.png"); err != nil || same != got {
			t.Error(same, err)
		}
	}
	for _, wrong := range []string{folder, path + "/b", filepath.Join(folder, "none.py")} {
		if _, err := DetectNamedFile(wrong); err == nil {
			t.Error(wrong)
		}
	}
}

// toldRange is a range by its length, its place, and the extension of its type.
type toldRange struct {
	length, place int
	extension     string
}

func toldRanges(ranges []Range) (told []toldRange) {
	for _, it := range ranges {
		told = append(told, toldRange{it.Len, it.Place, it.Type.Extension})
	}
	return told
}

func TestEvidence(t *testing.T) {
	png := append([]byte("\x89PNG\r\n\x1A\n"), make([]byte, 292)...)
	tar := make([]byte, 300)
	tar[0] = 0x89
	copy(tar[257:], "ustar")
	byFirst, byMobi, byPNG := toldRange{1, 0, ""}, toldRange{1, 60, "mobi"}, toldRange{4, 0, "png"}
	for _, it := range []struct {
		b       []byte
		tell    func([]byte) Evidence
		ranges  []toldRange
		least   int
		isExact bool
	}{
		{nil, DetectEvidence, nil, 0, true},
		{[]byte("MZ"), DetectEvidence, []toldRange{{2, 0, "exe"}}, 2, false},
		{jpeg, DetectEvidence, []toldRange{{3, 0, "jpg"}}, 3, true},
		{jpeg, DetectMoreEvidence, []toldRange{{3, 0, "jpg"}, {1, 3, "jls"}}, 3, true},
		// From 61 bytes on there is one at 60, which is no B of BOOKMOBI.
		{png[:60], DetectEvidence, []toldRange{byPNG}, 4, true},
		{png[:61], DetectEvidence, []toldRange{byPNG, byMobi}, 4, false},
		{png, DetectEvidence, []toldRange{byPNG, byMobi}, 4, false},
		{png, DetectMoreEvidence, []toldRange{byPNG, byMobi, {300, 0, "apng"}}, 4, true},
		{tar, DetectEvidence, []toldRange{{5, 257, "tar"}, byFirst, byMobi, {1, 1, "png"}, {1, 8, "webp"}, {5, 0, "heif"}, {1, 12, "mov"}}, 262, false},
	} {
		found := it.tell(it.b)
		if !reflect.DeepEqual(toldRanges(found.Ranges), it.ranges) || found.Wanted != len(it.ranges) || found.Least != it.least || found.IsExact != it.isExact {
			t.Errorf("%q: %v", it.b, found)
		}
		for _, of := range found.Ranges {
			if of.Accepts != (of.Type == found.Type) {
				t.Errorf("%q: %v", it.b, of)
			}
		}
	}
}

// TestWhatIsNoEvidence changes all other bytes, and the length as far as it may be another. No answer changes.
func TestWhatIsNoEvidence(t *testing.T) {
	chance := rand.New(rand.NewSource(68))
	for number := range MoreTypes() {
		b := Sample(number)
		for _, ask := range []struct {
			detect func([]byte) (Type, bool)
			tell   func([]byte) Evidence
		}{{Detect, DetectEvidence}, {DetectMore, DetectMoreEvidence}} {
			found, needed := ask.tell(b), 0
			if of, _ := ask.detect(b); of != found.Type || found.Wanted != len(found.Ranges) {
				t.Errorf("%q: %v", b, found)
			}
			for _, it := range append(found.Ranges, Range{Len: found.Least, Step: 1}) {
				if behind := it.Place + (it.Len-1)*it.Step + 1; behind > needed {
					needed = behind
				}
			}
			for round := 0; round < 8; round++ {
				size := len(b)
				if !found.IsExact {
					size = needed + chance.Intn(400)
				}
				other := make([]byte, size)
				chance.Read(other)
				for _, it := range found.Ranges {
					for k, place := 0, it.Place; k < it.Len; k, place = k+1, place+it.Step {
						other[place] = b[place]
					}
				}
				if of, _ := ask.detect(other); of != found.Type {
					t.Errorf("%q beside %q: %v", other, b, of)
				}
			}
		}
	}
}

// lying gives no bytes and says that it gave some.
type lying int

func (count lying) Read([]byte) (int, error) { return int(count), nil }

func TestLyingReaders(t *testing.T) {
	for _, count := range []lying{-1, Front + 1, math.MaxInt, math.MinInt} {
		if _, ok, err := DetectReader(count); ok || err == nil {
			t.Error(count, ok, err)
		}
		if _, ok, err := DetectReader(io.MultiReader(bytes.NewReader(jpeg), count)); ok || err == nil {
			t.Error(count, ok, err)
		}
	}
}

// What is no regular file is a fault at once, whoever writes to it.
func TestFilesOfOtherKinds(t *testing.T) {
	path := filepath.Join(t.TempDir(), "fifo")
	if err := syscall.Mkfifo(path, 0o600); err != nil {
		t.Skip(err)
	}
	for path, want := range map[string]error{path: syscall.ENOTSUP, "/dev/null": syscall.ENOTSUP, filepath.Dir(path): syscall.EISDIR} {
		path, ended := path, make(chan error, 1)
		go func() {
			_, _, err := DetectFile(path)
			ended <- err
		}()
		select {
		case err := <-ended:
			if !errors.Is(err, want) || !strings.Contains(err.Error(), path) {
				t.Error(path, err)
			}
		case <-time.After(2 * time.Minute):
			t.Error(path, "holds the call")
		}
	}
}

func TestBytesBesidePointers(t *testing.T) {
	type record struct {
		next *record
		data [4]byte
	}
	it := &record{next: new(record), data: [4]byte{0xFF, 0xD8, 0xFF, 0xE0}}
	if got, _ := Detect(it.data[:]); got != want || !IsImage(it.data[:]) {
		t.Error(got)
	}
}

func TestWholeReaders(t *testing.T) {
	data := append(append([]byte{}, jpeg...), make([]byte, 3*Front)...)
	late := append(bytes.Repeat([]byte(" "), 8190), "<p>"...)
	for _, it := range []struct {
		data []byte
		ok   bool
	}{{data, true}, {data[:Front], true}, {jpeg, true}, {nil, false}, {late, false}} {
		for _, r := range []io.Reader{bytes.NewReader(it.data), iotest.OneByteReader(bytes.NewReader(it.data)), iotest.DataErrReader(bytes.NewReader(it.data))} {
			_, ok, whole, err := DetectWhole(r)
			if all, fault := io.ReadAll(whole); ok != it.ok || err != nil || fault != nil || !bytes.Equal(all, it.data) {
				t.Error(len(it.data), ok, err, fault, len(all))
			}
		}
	}
	large := bufio.NewReaderSize(bytes.NewReader(data), 2*Front)
	if found, _, whole, _ := DetectWhole(large); found != want || whole != large {
		t.Error(found)
	}
	fault := errors.New("fault")
	_, ok, whole, err := DetectWhole(io.MultiReader(bytes.NewReader(jpeg), iotest.ErrReader(fault)))
	if all, after := io.ReadAll(whole); ok || err != fault || after != fault || !bytes.Equal(all, jpeg) {
		t.Error(ok, err, after, all)
	}
}

// What the page says of allocations.
func TestAllocations(t *testing.T) {
	defer debug.SetGCPercent(debug.SetGCPercent(-1))
	extension, reader, text := strings.Clone("jpg"), bytes.NewReader(jpeg), []byte("plain text")
	large := bufio.NewReaderSize(reader, Front)
	own, _ := NewTypes([]byte(ownTypes))
	calls := map[string]struct {
		count float64
		call  func()
	}{
		"Detect":              {0, func() { Detect(jpeg) }},
		"DetectMore":          {0, func() { DetectMore(jpeg) }},
		"Encoding":            {0, func() { Encoding(text) }},
		"DetectContentType":   {0, func() { DetectContentType(jpeg) }},
		"IsDecided":           {0, func() { IsDecided(jpeg) }},
		"IsMoreDecided":       {0, func() { IsMoreDecided(jpeg) }},
		"MayBecome":           {0, func() { MayBecome(jpeg, extension) }},
		"MoreMayBecome":       {0, func() { MoreMayBecome(jpeg, extension) }},
		"String":              {0, func() { _ = want.String() }},
		"Line":                {0, func() { own.Line(jpeg) }},
		"Verdict":             {0, func() { Verdict(jpeg) }},
		"Is":                  {0, func() { Is(jpeg, extension) }},
		"IsMIMEType":          {0, func() { IsMIMEType(jpeg, extension) }},
		"IsSupported":         {0, func() { IsSupported(extension) }},
		"IsMIMETypeSupported": {0, func() { IsMIMETypeSupported(extension) }},
		"IsApp":               {0, func() { IsApp(jpeg) }},
		"IsArchive":           {0, func() { IsArchive(jpeg) }},
		"IsAudio":             {0, func() { IsAudio(jpeg) }},
		"IsBook":              {0, func() { IsBook(jpeg) }},
		"IsDocument":          {0, func() { IsDocument(jpeg) }},
		"IsFont":              {0, func() { IsFont(jpeg) }},
		"IsImage":             {0, func() { IsImage(jpeg) }},
		"IsVideo":             {0, func() { IsVideo(jpeg) }},
		"Target":              {0, func() { Target(OtherExtension, extension) }},
		"DetectReader":        {0, func() { reader.Reset(jpeg); DetectReader(reader) }},
		"DetectWhole":         {2, func() { reader.Reset(jpeg); DetectWhole(reader) }},
		"DetectWhole, large":  {0, func() { reader.Reset(jpeg); large.Reset(reader); DetectWhole(large) }},
		"Types":               {1, func() { Types() }},
		"MoreTypes":           {1, func() { MoreTypes() }},
		"Version":             {0, func() { Version() }},
		"Sample":              {1, func() { Sample(1) }},
		"Detect of types":     {2, func() { own.Detect(jpeg) }},
	}
	for name, it := range calls {
		// The race detector drops some of what a pool keeps.
		if count := testing.AllocsPerRun(1000, it.call); count != it.count && !(isRace && name == "DetectReader") {
			t.Error(name, count)
		}
	}
}

func TestAllThreads(t *testing.T) {
	all := vectors(t)
	var waiting sync.WaitGroup
	for range make([]struct{}, 16) {
		waiting.Add(1)
		go func() {
			defer waiting.Done()
			for _, it := range all {
				if got, ok := Detect(it.data); got != it.want || ok != it.ok {
					t.Error(it.name, got)
				}
				DetectReader(bytes.NewReader(it.data))
				Target(OtherExtension, "jpeg")
			}
		}()
	}
	waiting.Wait()
}

func TestAliases(t *testing.T) {
	extensions, texts := map[string]bool{}, map[string]bool{}
	for _, row := range wantedRows(t) {
		extensions[row.Extension], texts[row.Extension], texts[row.MIMEType] = true, true, true
	}
	text, err := os.ReadFile(filepath.Join("..", "..", "aliases", "aliases.def"))
	if err != nil || strings.Count(string(text), "\")\n") != len(Aliases()) {
		t.Error(err, len(Aliases()))
	}
	for alias, target := range Aliases() {
		if !extensions[target] || texts[alias.Name] {
			t.Error(alias, target)
		}
	}
	if found, ok := Target(OtherExtension, "jpeg"); found != "jpg" || !ok {
		t.Error(found)
	}
	if _, ok := Target(OtherMIMEType, "jpeg"); ok {
		t.Error("another kind")
	}
}

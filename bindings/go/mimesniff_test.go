package infer

import (
	"encoding/json"
	"strings"
	"testing"
)

var contexts = []string{"browsing", "image", "audio or video", "font", "plugin", "style", "script", "text track", "cache manifest"}
var groups = []string{"image", "audio or video", "font", "ZIP-based", "archive", "XML", "HTML", "scriptable", "JavaScript", "JSON"}

// header gives a text as a header has it: a byte for each code point, and DEL for one beyond.
func header(text string) string {
	var all []byte
	for _, r := range text {
		if r > 0xFF {
			r = 0x7F
		}
		all = append(all, byte(r))
	}
	return string(all)
}

// told gives what a call tells as JSON has it: a text of code points, or nil.
func told(text string, ok bool) any {
	if !ok {
		return nil
	}
	var all []rune
	for _, b := range []byte(text) {
		all = append(all, rune(b))
	}
	return string(all)
}

func unpacked(t *testing.T, text string) (value any) {
	if err := json.Unmarshal([]byte(text), &value); err != nil {
		t.Fatal(err)
	}
	return value
}

// joined gives several values of a header as one.
func joined(values any) string {
	var all []string
	list, _ := values.([]any)
	for _, value := range list {
		all = append(all, strings.Trim(header(value.(string)), " \t\r\n"))
	}
	return strings.Join(all, ", ")
}

func destinationOf(name string) Destination {
	switch {
	case name == "style":
		return ForStyle
	case strings.Contains(" audioworklet paintworklet script serviceworker sharedworker worker ", " "+name+" "):
		return ForScript
	}
	return ForOther
}

func TestMIMETypes(t *testing.T) {
	for _, line := range lines(t, "mime_types.tsv") {
		given, wanted := unpacked(t, line[1]).([]any), unpacked(t, line[2])
		got := wanted
		switch line[0] {
		case "parse":
			got = told(ParseMIMEType(header(given[0].(string))))
		case "extract":
			got = told(ExtractMIMEType(joined(given)))
		case "nosniff":
			got = IsNosniff(joined(given))
		case "blocked":
			got = IsNosniff(joined(given[0])) && IsBlocked(joined(given[1]), destinationOf(given[2].(string)))
		case "groups":
			var all []string
			for i, name := range groups {
				if MIMEGroups(header(given[0].(string)))&(1<<i) != 0 {
					all = append(all, name)
				}
			}
			got, wanted = strings.Join(all, ", "), joined(wanted)
		default:
			continue
		}
		if got != wanted {
			t.Errorf("%s %s: %v, and not %v", line[0], line[1], got, wanted)
		}
	}
}

func suppliedBy(given []any) Supplied {
	contentType, _ := given[0].(string)
	return Supplied{ContentType: header(contentType), NoSniff: given[1] == true, IsOldServer: given[2] == true}
}

func TestComputedTypes(t *testing.T) {
	due, certain := 0, 0
	for _, line := range lines(t, "sniffed.tsv") {
		given, data, wanted := unpacked(t, line[1]).([]any), decode(t, line[2]), unpacked(t, line[3])
		got := wanted
		switch line[0] {
		case "compute":
			got = told(ComputeType(data, suppliedBy(given)))
		case "unknown":
			got = told(ComputeType(data, Supplied{NoSniff: given[0] != true}))
		case "text_or_binary":
			got = told(ComputeType(data, Supplied{ContentType: "text/plain", IsOldServer: true}))
		case "context":
			context := Context(indexOf(contexts, given[0].(string)))
			contentType, _ := given[1].(string)
			got = told(ComputeType(data, Supplied{ContentType: header(contentType), Context: context}))
		case "image", "audio_video", "font":
			context := Context(indexOf(contexts, strings.ReplaceAll(line[0], "_", " or ")))
			got = told(ComputeType(data, Supplied{Context: context}))
		case "apache_bug":
			got = IsOldServer(header(given[0].(string)))
		case "may_be_scriptable":
			// False is certain.
			got, wanted = !MayBeScriptable(data) && wanted == true, false
		case "decided":
			// True is certain.
			is, may := IsComputeDecided(data, suppliedBy(given)), wanted == true
			due, certain = due+numberOf(may), certain+numberOf(is)
			got, wanted = is && !may, false
		default:
			continue
		}
		if wanted == "-" {
			wanted = nil
		}
		if got != wanted {
			t.Errorf("%s %s %s: %v, and not %v", line[0], line[1], line[2], got, wanted)
		}
	}
	if certain < due-due/4 {
		t.Errorf("%d of %d are certain", certain, due)
	}
}

func numberOf(is bool) int {
	if is {
		return 1
	}
	return 0
}

func indexOf(all []string, name string) int {
	for i, it := range all {
		if it == name {
			return i
		}
	}
	return -1
}

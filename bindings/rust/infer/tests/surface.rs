//! The behaviour of every public item. The bytes are those of the signatures.

use infer::{Evidence, Infer, Matcher, MatcherType, Type};
use std::collections::HashSet;
use std::fs;
use std::io::{self, ErrorKind, Read};
use std::path::{Path, PathBuf};

const JPEG: &[u8] = b"\xFF\xD8\xFF\xAA";

/// The bytes, each text at its place and all else zero.
fn placed(size: usize, texts: &[(usize, &[u8])]) -> Vec<u8> {
    let mut buf = vec![0; size];
    for (place, text) in texts {
        buf[*place..place + text.len()].copy_from_slice(text);
    }
    buf
}

fn entry(place: usize, text: &[u8]) -> Vec<u8> {
    placed(place + text.len(), &[(0, b"PK\x03\x04"), (place, text)])
}

#[test]
fn coff_is_told_by_its_machine() {
    use infer::app::{is_coff, is_coff_i386, is_coff_ia64, is_coff_x64};
    let told = [(b"\x4C\x01\0", [true, false, false]), (b"\x64\x86\0", [false, true, false]), (b"\0\x02\0", [false, false, true])];
    for (buf, wanted) in told {
        assert_eq!(([is_coff_i386(buf), is_coff_x64(buf), is_coff_ia64(buf)], is_coff(buf)), (wanted, true), "{buf:?}");
    }
}

/// A buffer, its ranges as `told_of` has them, and what is needed of its length.
type Told<'buf> = (&'buf [u8], &'buf [(usize, usize, &'static str)], usize, bool);

/// A class test, the same of an `Infer`, and a buffer that both accept.
type ClassTest = (Matcher, fn(&Infer, &[u8]) -> bool, Vec<u8>);

#[test]
fn classes_are_asked_for_any_type() {
    let asked: [ClassTest; 8] = [
        (infer::is_app, Infer::is_app, b"MZ".to_vec()),
        (infer::is_archive, Infer::is_archive, b"BZh".to_vec()),
        (infer::is_audio, Infer::is_audio, b"ID3".to_vec()),
        (infer::is_book, Infer::is_book, placed(68, &[(60, b"BOOKMOBI")])),
        (infer::is_document, Infer::is_document, entry(30, b"word/")),
        (infer::is_font, Infer::is_font, b"OTTO\0".to_vec()),
        (infer::is_image, Infer::is_image, JPEG.to_vec()),
        (infer::is_video, Infer::is_video, b"FLV\x01".to_vec()),
    ];
    for (at, (ask, ask_infer, _)) in asked.iter().enumerate() {
        for (other, (_, _, buf)) in asked.iter().enumerate() {
            // A document of Office is an archive too.
            let wanted = at == other || (at == 1 && other == 4);
            assert_eq!((ask(buf), ask_infer(&Infer::new(), buf)), (wanted, wanted), "{at} {other}");
        }
    }
}

#[test]
fn a_type_shows_its_values() {
    let found = infer::get(JPEG).unwrap();
    assert_eq!((found.matcher_type(), found.mime_type(), found.extension()), (MatcherType::Image, "image/jpeg", "jpg"));
    assert_eq!(format!("{found} [{found:>12}] [{found:-<12}]"), "image/jpeg [  image/jpeg] [image/jpeg--]");
    assert_eq!(format!("{found:?}"), "Type { matcher_type: Image, mime_type: \"image/jpeg\", extension: \"jpg\", .. }");
    const MADE: Type = Type::new(MatcherType::Image, "image/jpeg", "jpg", infer::image::is_png);
    assert_eq!(MADE, found);
    assert_ne!(MADE, Type::new(MatcherType::Custom, "image/jpeg", "jpg", infer::image::is_png));
    assert_ne!(MADE, Type::new(MatcherType::Image, "image/jpg", "jpg", infer::image::is_png));
    assert_ne!(MADE, Type::new(MatcherType::Image, "image/jpeg", "jpeg", infer::image::is_png));
    let copy = found;
    assert_eq!(copy.clone(), found);
}

#[test]
fn encodings_are_told_of_texts() {
    use infer::Encoding::{self, UsAscii, Utf16Be, Utf16Le, Utf8};
    let told: [(&[u8], Option<Encoding>); 14] = [
        (b"plain\ttext\r\n\x1B[0m", Some(UsAscii)),
        ("café".as_bytes(), Some(Utf8)),
        (b"caf\xC3", Some(Utf8)),
        (b"\xF0\x9F\x93", Some(Utf8)),
        (b"\xEF\xBB\xBF", Some(Utf8)),
        (b"\xFF\xFEa\0", Some(Utf16Le)),
        (b"\xFE\xFF\0a", Some(Utf16Be)),
        (b"", None),
        (b"a\0b", None),
        (b"caf\xE9 ", None),
        (b"\xC0\x80", None),
        (b"\xED\xA0\x80", None),
        (b"\xF4\x90\x80\x80", None),
        (b"\xEF\xBB\xBF\xFF", None),
    ];
    for (buf, wanted) in told {
        assert_eq!(infer::encoding(buf), wanted, "{buf:?}");
    }
    let names = [UsAscii, Utf8, Utf16Le, Utf16Be].map(|it| (it.name(), format!("{it:>9}")));
    assert_eq!(names, ["us-ascii", "utf-8", "utf-16le", "utf-16be"].map(|name| (name, format!("{name:>9}"))));
}

/// What the standard library takes for UTF-8 is, if no byte of it is one that text has not.
#[test]
fn encodings_are_those_of_the_standard_decoder() {
    let mut state = 1_u64;
    let mut below = move |limit: usize| {
        state = state.wrapping_mul(6_364_136_223_846_793_005).wrapping_add(1);
        (state >> 33) as usize % limit
    };
    for _ in 0..100_000 {
        let count = below(12);
        let text: String = (0..count).map(|_| ['a', '\x7F', '\u{80}', '\u{7FF}', '\u{800}', '\u{FFFF}', '\u{10FFFF}'][below(7)]).collect();
        // A space ends what is cut, and no mark of UTF-16 can stand first.
        let mut buf = format!(" {text} ").into_bytes();
        if below(2) == 0 && buf.len() > 2 {
            let at = 1 + below(buf.len() - 2);
            buf[at] = 0x80 | below(0x80) as u8;
        }
        let wanted = if buf.is_ascii() { infer::Encoding::UsAscii } else { infer::Encoding::Utf8 };
        assert_eq!(infer::encoding(&buf), std::str::from_utf8(&buf).is_ok().then_some(wanted), "{buf:?}");
    }
}

#[test]
fn questions_are_exact() {
    assert_eq!(infer::get(b""), None);
    assert!(infer::is(JPEG, "jpg") && !infer::is(JPEG, "JPG") && !infer::is(JPEG, "png") && !infer::is(b"", ""));
    assert!(infer::is_mime(JPEG, "image/jpeg") && !infer::is_mime(JPEG, "image/JPEG"));
    assert!(infer::is_supported("midi") && !infer::is_supported("mid"));
    assert!(infer::is_mime_supported("application/x-llvm") && !infer::is_mime_supported("application/llvm"));
    assert!(infer::is(b"MZ", "dll") && infer::is(b"MZ", "exe"));
    assert_eq!(infer::get(b"MZ").unwrap().extension(), "exe");
}

fn begins_foo(buf: &[u8]) -> bool {
    buf.starts_with(b"\xFF\xD8")
}

#[test]
fn added_types_come_first_and_in_order() {
    static EMPTY: Infer = Infer::new();
    let mut infer = Infer::default();
    assert_eq!((EMPTY.get(JPEG), infer.is_custom(JPEG)), (infer.get(JPEG), false));
    infer.add("custom/foo", "foo", begins_foo);
    infer.add("custom/bar", "bar", |buf| buf.len() == 4);
    assert_eq!(infer.get(JPEG).unwrap(), Type::new(MatcherType::Custom, "custom/foo", "foo", begins_foo));
    assert_eq!(infer.get(b"GIF8").unwrap().extension(), "bar");
    assert_eq!(infer.get(b"GIF89a").unwrap().extension(), "gif");
    assert!(infer.is_custom(JPEG) && infer.is_custom(b"GIF8") && !infer.is_custom(b"GIF89a"));
    assert!(infer.is(JPEG, "foo") && infer.is(JPEG, "bar") && infer.is(JPEG, "jpg") && !infer.is(b"GIF89a", "foo"));
    assert!(infer.is_mime(JPEG, "custom/bar") && infer.is_mime(JPEG, "image/jpeg") && !infer.is_mime(b"", "custom/bar"));
    assert!(infer.is_supported("foo") && infer.is_supported("jpg") && !infer.is_supported("none"));
    assert!(infer.is_mime_supported("custom/foo") && infer.is_mime_supported("image/jpeg") && !infer.is_mime_supported("custom/none"));
    assert!(infer.is_image(JPEG));
    assert!(!infer::is_supported("foo") && !infer::is_mime_supported("custom/foo"));
}

fn file(name: &str, data: &[u8]) -> PathBuf {
    let path = Path::new(env!("CARGO_TARGET_TMPDIR")).join(name);
    fs::write(&path, data).unwrap();
    path
}

#[test]
fn the_first_bytes_of_a_file_are_looked_at() {
    let photo = file("photo", JPEG);
    assert_eq!(infer::get_from_path(&photo).unwrap(), infer::get(JPEG));
    assert_eq!(infer::get_from_path(photo.to_str().unwrap()).unwrap(), infer::get(JPEG));
    let mut infer = Infer::new();
    infer.add("custom/foo", "foo", begins_foo);
    assert_eq!(infer.get_from_path(&photo).unwrap().unwrap().extension(), "foo");
    assert_eq!(infer::get_from_path(file("empty", b"")).unwrap(), None);
    let late = [&[b' '; 8190][..], b"<p>"].concat();
    assert_eq!(infer::get_from_path(file("late", &late)).unwrap(), None);
    assert_eq!(infer::get_from_path(file("early", &late[1..])).unwrap().unwrap().extension(), "html");
    assert_eq!(infer::get(&late).unwrap().extension(), "html");
    assert_eq!(infer::get_from_path("/no/such").unwrap_err().kind(), ErrorKind::NotFound);
    assert!(infer.get_from_path(env!("CARGO_TARGET_TMPDIR")).is_err());
}

const SIGNATURE: &[u8] = b"-----BEGIN PGP SIGNATURE-----";

#[test]
fn more_bytes_change_what_is_not_decided() {
    let grown = [JPEG, &[0; 57]].concat();
    let told: [(&[u8], bool); 5] = [(b"", false), (JPEG, false), (&grown, true), (b"MZ", true), (&[b' '; 1024], false)];
    for (buf, wanted) in told {
        assert_eq!(infer::is_decided(buf), wanted, "{buf:?}");
    }
    assert_eq!((infer::more::is_decided(JPEG), infer::more::is_decided(&grown)), (false, true));
    assert!(infer::may_become(b"\xFF", "jpg") && !infer::may_become(b"G", "jpg") && infer::may_become(b" <", "html"));
    assert!(!infer::may_become(b"", "svg") && infer::more::may_become(b"", "svg") && !infer::more::may_become(b"", "none"));
    let long = [JPEG, &[0; 1020]].concat();
    assert_eq!((infer::verdict(&long), infer::verdict(&long[1..]).1), ((infer::get(JPEG), true), false));
}

/// Each range as its length, its place and the extension of its type, and what is needed of the length.
fn told_of(found: &Evidence) -> (Vec<(usize, usize, &'static str)>, usize, bool) {
    let range = |it: &infer::Range| (it.len, it.place, it.file_type.map_or("", |kind| kind.extension()));
    (found.ranges.iter().map(range).collect(), found.least, found.is_exact)
}

#[test]
fn evidence_names_the_bytes_that_decide() {
    let png = placed(300, &[(0, b"\x89PNG\r\n\x1A\n")]);
    let tar = placed(300, &[(0, b"\x89"), (257, b"ustar")]);
    // From 61 bytes on there is one at 60, which is no B of BOOKMOBI.
    let png_told = [(4, 0, "png"), (1, 60, "mobi")];
    let tar_told = [(5, 257, "tar"), (1, 0, ""), (1, 60, "mobi"), (1, 1, "png"), (1, 8, "webp"), (5, 0, "heif"), (1, 12, "mov")];
    let told: [Told; 7] = [
        (b"", &[], 0, true),
        (b"MZ", &[(2, 0, "exe")], 2, false),
        (JPEG, &[(3, 0, "jpg")], 3, true),
        (&png[..60], &[(4, 0, "png")], 4, true),
        (&png[..61], &png_told, 4, false),
        (&png, &png_told, 4, false),
        (&tar, &tar_told, 262, false),
    ];
    for (buf, ranges, least, is_exact) in told {
        let found = infer::evidence(buf);
        assert_eq!(told_of(&found), (ranges.to_vec(), least, is_exact), "{buf:?}");
        assert_eq!((found.file_type, found.wanted), (infer::get(buf), ranges.len()));
        assert_eq!(
            found.ranges.iter().filter(|it| it.accepts).map(|it| it.file_type).collect::<Vec<_>>(),
            Vec::from_iter(found.file_type.map(Some))
        );
    }
    let found = infer::more::evidence(JPEG);
    assert_eq!(told_of(&found), (vec![(3, 0, "jpg"), (1, 3, "jls")], 3, true));
    assert_eq!(told_of(&infer::more::evidence(&png)).0[2], (300, 0, "apng"));
    assert!(told_of(&infer::evidence(&[0; 300])).0.contains(&(1, 257, "tar")));
    // No "%PDF" begins before the place 1021 where one byte in four is none of its letters.
    let search = infer::evidence(&[0; 1100]).ranges.into_iter().find(|it| it.file_type.is_some_and(|kind| kind.extension() == "pdf"));
    assert_eq!(search.map(|it| (it.len, it.place, it.step, it.accepts)), Some((256, 3, 4, false)));
}

/// A number that looks like one by chance: the next of a linear congruential generator.
fn next(state: &mut u64) -> usize {
    *state = state.wrapping_mul(6364136223846793005).wrapping_add(1442695040888963407);
    (*state >> 33) as usize
}

/// The places of a range's bytes.
fn places(range: &infer::Range) -> impl Iterator<Item = usize> {
    (range.place..).step_by(range.step).take(range.len)
}

#[test]
fn what_is_no_evidence_changes_no_answer() {
    type Ask = (fn(&[u8]) -> Option<Type>, fn(&[u8]) -> Evidence);
    let asks: [Ask; 2] = [(infer::get, infer::evidence), (infer::more::get, infer::more::evidence)];
    let mut state = 68;
    for row in 0..infer::more::types().len() {
        let buf = infer::more::sample(row);
        for (get, evidence) in asks {
            let found = evidence(&buf);
            assert_eq!((found.file_type, found.wanted), (get(&buf), found.ranges.len()));
            let needed = found.ranges.iter().flat_map(places).map(|place| place + 1).fold(found.least, usize::max);
            assert!(needed <= buf.len());
            for _ in 0..8 {
                let len = if found.is_exact { buf.len() } else { needed + next(&mut state) % 400 };
                let mut other: Vec<u8> = (0..len).map(|_| next(&mut state) as u8).collect();
                found.ranges.iter().flat_map(places).for_each(|place| other[place] = buf[place]);
                assert_eq!(get(&other), found.file_type, "{other:?} beside {buf:?}");
            }
        }
    }
}

/// It gives its bytes one at a time, with a call that was interrupted before each, and fails at the end if it is to.
struct Slow<'buf> {
    left: &'buf [u8],
    is_interrupted: bool,
    fails: bool,
}

impl Read for Slow<'_> {
    fn read(&mut self, out: &mut [u8]) -> io::Result<usize> {
        self.is_interrupted = !self.is_interrupted;
        match (self.is_interrupted, self.left.split_first()) {
            (true, _) => Err(ErrorKind::Interrupted.into()),
            (false, None) if self.fails => Err(ErrorKind::ConnectionReset.into()),
            (false, None) => Ok(0),
            (false, Some((first, rest))) => {
                (out[0], self.left) = (*first, rest);
                Ok(1)
            }
        }
    }
}

fn slow(left: &[u8], fails: bool) -> Slow<'_> {
    Slow { left, is_interrupted: false, fails }
}

#[test]
fn the_first_bytes_of_a_reader_are_looked_at() {
    let mut reader = JPEG;
    assert_eq!((infer::get_from_reader(&mut reader).unwrap(), reader), (infer::get(JPEG), &b""[..]));
    let late = [&[b' '; 8190][..], b"<p>"].concat();
    let mut reader = &late[..];
    assert_eq!((infer::get_from_reader(&mut reader).unwrap(), reader), (None, &late[8192..]));
    assert_eq!(infer::get_from_reader(slow(JPEG, false)).unwrap(), infer::get(JPEG));
    assert_eq!(infer::more::get_from_reader(SIGNATURE).unwrap().unwrap().extension(), "sig");
    assert_eq!(infer::more::get_from_path(file("signature", SIGNATURE)).unwrap().unwrap().extension(), "sig");
    assert_eq!(infer::more::get_from_path("/no/such").unwrap_err().kind(), ErrorKind::NotFound);
    let mut infer = Infer::new();
    infer.add("custom/foo", "foo", begins_foo);
    assert_eq!(infer.get_from_reader(JPEG).unwrap().unwrap().extension(), "foo");
    // A fault is no answer, unless the bytes that are looked at were there before it.
    for kind in
        [infer::get_from_reader(slow(JPEG, true)), infer::more::get_from_reader(slow(JPEG, true)), infer.get_from_reader(slow(b"", true))]
    {
        assert_eq!(kind.unwrap_err().kind(), ErrorKind::ConnectionReset);
    }
    assert_eq!(infer::get_from_reader(slow(&[&[b' '; 8187][..], b"<p>  more"].concat(), true)).unwrap().unwrap().extension(), "html");
    assert_eq!(infer::whole(slow(JPEG, true)).map(|_| ()).unwrap_err().kind(), ErrorKind::ConnectionReset);
    for data in [&b""[..], JPEG, &late, &[7; 30_000]] {
        let (front, mut whole) = infer::whole(slow(data, false)).unwrap();
        let mut read = Vec::new();
        whole.read_to_end(&mut read).unwrap();
        assert!(front == data[..data.len().min(8192)] && read == data);
    }
}

#[test]
fn values_can_be_kept_in_sets() {
    let found: HashSet<Type> = [JPEG, b"GIF89a", JPEG].into_iter().filter_map(infer::get).collect();
    let classes: HashSet<MatcherType> = found.iter().map(Type::matcher_type).collect();
    assert_eq!((found.len(), classes.len()), (2, 1));
}

/// What is no regular file is a fault at once, and holds no call.
#[test]
fn files_of_other_kinds_are_faults() {
    let fifo = PathBuf::from(env!("CARGO_TARGET_TMPDIR")).join(format!("fifo {}", std::process::id()));
    assert!(std::process::Command::new("mkfifo").arg(&fifo).status().unwrap().success());
    for path in [fifo.clone(), "/dev/null".into()] {
        let (ended, answer) = std::sync::mpsc::channel();
        std::thread::spawn(move || ended.send(infer::get_from_path(path).map_err(|fault| fault.kind())));
        let told = answer.recv_timeout(std::time::Duration::from_secs(120)).expect("the call returns");
        assert_eq!(told, Err(ErrorKind::Unsupported));
    }
    fs::remove_file(fifo).unwrap();
}

const OWN_TYPES: &str = "# extension MIME type class parent signature
qoi   image/qoi        image -   14: @0 \"qoif\"
myapp application/x-my app   zip 42: @30 \"manifest.my\"
flow  text/x-flow      text  xml root: flow or flows
";

#[test]
fn types_of_a_text_answer() {
    use infer::Types;
    let own = Types::new(OWN_TYPES).unwrap();
    let found = own.get(&placed(14, &[(0, b"qoif")])).unwrap();
    assert_eq!((found.matcher_type(), found.mime_type(), found.extension()), (MatcherType::Image, "image/qoi", "qoi"));
    assert_eq!(format!("{found} [{found:>10}]"), "image/qoi [ image/qoi]");
    assert_eq!(format!("{found:?}"), "Found { matcher_type: Image, mime_type: \"image/qoi\", extension: \"qoi\" }");
    assert_eq!(own.get(&entry(30, b"manifest.my?")).unwrap().extension(), "myapp");
    assert_eq!(own.get(b"<?xml version='1.0'?><flows>").unwrap().mime_type(), "text/x-flow");
    assert_eq!(
        (own.line(&placed(14, &[(0, b"qoif")])), own.line(b"<?xml version='1.0'?><flows>"), own.line(JPEG), own.line(b"")),
        (Some(2), Some(4), None, None)
    );
    assert_eq!(own.get(b"").is_none(), own.get(&placed(13, &[(0, b"qoif")])).is_none());
    // What they do not know, the wider answer may.
    for types in [own, Types::new("").unwrap(), Types::new(OWN_TYPES.as_bytes()).unwrap()] {
        for buf in [JPEG, b"MZ", b"-----BEGIN PGP SIGNATURE-----", b"plain text", b"", b"\0"] {
            let (found, wider) = (types.get(buf), infer::more::get(buf));
            assert_eq!(found.is_some(), wider.is_some(), "{buf:?}");
            if let (Some(found), Some(wider)) = (found, wider) {
                let shown = (found.matcher_type(), found.mime_type(), found.extension());
                assert_eq!(shown, (wider.matcher_type(), wider.mime_type(), wider.extension()));
            }
        }
    }
    let name = "x".repeat(127);
    let text = format!("{name} {name}/{name} doc - 1: @0 00");
    let found = Types::new(&text).unwrap().get(b"\0").unwrap();
    assert_eq!((found.mime_type(), found.extension()), (format!("{name}/{name}").as_str(), name.as_str()));
}

#[test]
fn mistakes_have_a_place_and_a_reason() {
    use infer::Types;
    let told: [(&[u8], usize, usize, &str); 5] = [
        (b"qoi image/qoi picture - 14: @0 00", 1, 15, "unknown class"),
        (b"\n\nqoi image/qoi image - 14: @0 \"qoif\n", 3, 30, "quotes do not close"),
        (b"# one\r\na", 2, 2, "a type has an extension, a MIME type, a class, a parent and a signature"),
        (b"\xEF\xBB\xBFa b/c app - 1: @0 00", 1, 1, "no extension"),
        (b"a b/c app - 1: @0 00 00", 1, 22, "place past the length"),
    ];
    for (text, line, column, reason) in told {
        let mistake = Types::new(text).unwrap_err();
        assert_eq!((mistake.line(), mistake.column(), mistake.reason()), (line, column, reason), "{text:?}");
        assert_eq!(mistake.to_string(), format!("line {line}, column {column}: {reason}"));
        let error: Box<dyn std::error::Error + Send + Sync> = mistake.into();
        assert!(format!("{error:?}").starts_with("TypesError { line: "));
    }
}

#[test]
fn odd_names_are_told() {
    use infer::{oddities, Oddities};
    let none = Oddities::default();
    let all = Oddities::CONTROL | Oddities::DIRECTION | Oddities::TWO_EXTENSIONS;
    let told: [(&str, Oddities); 10] = [
        ("", none),
        ("a.png", none),
        ("a.tar.gz", none),
        ("a\n.png", Oddities::CONTROL),
        ("a\0.png", Oddities::CONTROL),
        ("\u{202e}gnp.exe", Oddities::DIRECTION),
        ("a.png ", Oddities::END),
        ("shell.php.", Oddities::END),
        ("shell.php.jpg", Oddities::TWO_EXTENSIONS),
        ("\x7f\u{2066}.php.jpg", all),
    ];
    for (name, wanted) in told {
        assert_eq!(oddities(name.as_bytes()), wanted, "{name}");
        assert_eq!(wanted.is_empty(), wanted == none);
        assert!(wanted.contains(none) && wanted.contains(wanted));
    }
    assert!(!Oddities::END.contains(all) && all.contains(Oddities::DIRECTION));
}

#[test]
#[allow(deprecated)]
fn older_names_are_the_newer_ones() {
    let found = infer::named(b"a.jpg", b"GIF89a");
    assert_eq!((found.told, found.of_name, found.of_bytes), (found.file_type, found.type_of_name, found.type_of_bytes));
    let found = infer::evidence(b"GIF89a");
    assert_eq!((found.told, found.ranges[0].of), (found.file_type, found.ranges[0].file_type));
    let mistake: infer::Mistake = infer::Types::new("qoi").unwrap_err();
    assert_eq!(Err::<infer::Types, infer::TypesError>(mistake), infer::Types::new("qoi"));
    assert!(infer::named_path("/no/such").is_err() && infer::named_from_path("/no/such").is_err());
}

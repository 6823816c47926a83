//! The rows, their samples and the vectors, by the repository's test data.

use infer::{Matcher, MatcherType, Type};
use std::fs;
use std::path::Path;

/// A class as it prints, a MIME type and an extension.
type Row = (String, String, String);

/// The lines of a file of the test data, as their fields.
fn lines(name: &str) -> Vec<Vec<String>> {
    let path = Path::new(env!("CARGO_MANIFEST_DIR")).join("../../../vectors").join(name);
    let text = fs::read_to_string(path).unwrap();
    text.lines().map(|line| line.split('\t').map(String::from).collect()).collect()
}

fn rows() -> Vec<Row> {
    lines("rows.tsv").iter().map(|line| (line[0].clone(), line[1].clone(), line[2].clone())).collect()
}

/// The row of that name, a class and an extension, and none for "-".
fn named(rows: &[Row], name: &str) -> Option<Row> {
    let wanted = name.split_once('/')?;
    let row = rows.iter().find(|row| (row.0.as_str(), row.2.as_str()) == wanted);
    Some(row.expect("a row of the data").clone())
}

fn shown(found: Type) -> Row {
    (format!("{:?}", found.matcher_type()), found.mime_type().to_string(), found.extension().to_string())
}

fn decode(tokens: &str) -> Vec<u8> {
    let mut bytes = Vec::new();
    for token in tokens.split(' ').filter(|token| *token != "-") {
        let (digits, count) = token.split_once('*').unwrap_or((token, "1"));
        let part: Vec<u8> = (0..digits.len()).step_by(2).map(|at| u8::from_str_radix(&digits[at..at + 2], 16).unwrap()).collect();
        (0..count.parse().unwrap()).for_each(|_| bytes.extend(&part));
    }
    bytes
}

/// The name of each row, and its matcher.
fn matchers() -> Vec<(&'static str, Matcher)> {
    use infer::{app, archive, audio, book, doc, font, image, odf, text, video};
    vec![
        ("App/wasm", app::is_wasm),
        ("App/elf", app::is_elf),
        ("App/exe", app::is_exe),
        ("App/dll", app::is_dll),
        ("App/class", app::is_java),
        ("App/bc", app::is_llvm),
        ("App/mach", app::is_mach),
        ("App/dex", app::is_dex),
        ("App/dey", app::is_dey),
        ("App/der", app::is_der),
        ("App/obj", app::is_coff),
        ("App/pem", app::is_pem),
        ("App/qcow2", app::is_qcow2),
        ("Book/epub", book::is_epub),
        ("Book/mobi", book::is_mobi),
        ("Image/jpg", image::is_jpeg),
        ("Image/jp2", image::is_jpeg2000),
        ("Image/png", image::is_png),
        ("Image/gif", image::is_gif),
        ("Image/webp", image::is_webp),
        ("Image/cr2", image::is_cr2),
        ("Image/tif", image::is_tiff),
        ("Image/bmp", image::is_bmp),
        ("Image/jxr", image::is_jxr),
        ("Image/psd", image::is_psd),
        ("Image/ico", image::is_ico),
        ("Image/heif", image::is_heif),
        ("Image/avif", image::is_avif),
        ("Image/jxl", image::is_jxl),
        ("Image/ora", image::is_ora),
        ("Image/djvu", image::is_djvu),
        ("Image/dwg", image::is_dwg),
        ("Video/mp4", video::is_mp4),
        ("Video/m4v", video::is_m4v),
        ("Video/mkv", video::is_mkv),
        ("Video/webm", video::is_webm),
        ("Video/mov", video::is_mov),
        ("Video/avi", video::is_avi),
        ("Video/wmv", video::is_wmv),
        ("Video/mpg", video::is_mpeg),
        ("Video/flv", video::is_flv),
        ("Audio/midi", audio::is_midi),
        ("Audio/mp3", audio::is_mp3),
        ("Audio/m4a", audio::is_m4a),
        ("Audio/opus", audio::is_ogg_opus),
        ("Audio/ogg", audio::is_ogg),
        ("Audio/flac", audio::is_flac),
        ("Audio/wav", audio::is_wav),
        ("Audio/amr", audio::is_amr),
        ("Audio/aac", audio::is_aac),
        ("Audio/aiff", audio::is_aiff),
        ("Audio/dsf", audio::is_dsf),
        ("Audio/ape", audio::is_ape),
        ("Font/woff", font::is_woff),
        ("Font/woff2", font::is_woff2),
        ("Font/ttf", font::is_ttf),
        ("Font/otf", font::is_otf),
        ("Doc/doc", doc::is_doc),
        ("Doc/docx", doc::is_docx),
        ("Doc/xls", doc::is_xls),
        ("Doc/xlsx", doc::is_xlsx),
        ("Doc/ppt", doc::is_ppt),
        ("Doc/pptx", doc::is_pptx),
        ("Doc/odt", odf::is_odt),
        ("Doc/ods", odf::is_ods),
        ("Doc/odp", odf::is_odp),
        ("Archive/epub", archive::is_epub),
        ("Archive/zip", archive::is_zip),
        ("Archive/tar", archive::is_tar),
        ("Archive/par2", archive::is_par2),
        ("Archive/rar", archive::is_rar),
        ("Archive/gz", archive::is_gz),
        ("Archive/bz2", archive::is_bz2),
        ("Archive/bz3", archive::is_bz3),
        ("Archive/7z", archive::is_7z),
        ("Archive/xz", archive::is_xz),
        ("Archive/pdf", archive::is_pdf),
        ("Archive/swf", archive::is_swf),
        ("Archive/rtf", archive::is_rtf),
        ("Archive/eot", archive::is_eot),
        ("Archive/ps", archive::is_ps),
        ("Archive/sqlite", archive::is_sqlite),
        ("Archive/nes", archive::is_nes),
        ("Archive/crx", archive::is_crx),
        ("Archive/cab", archive::is_cab),
        ("Archive/deb", archive::is_deb),
        ("Archive/ar", archive::is_ar),
        ("Archive/Z", archive::is_z),
        ("Archive/lz", archive::is_lz),
        ("Archive/rpm", archive::is_rpm),
        ("Archive/dcm", archive::is_dcm),
        ("Archive/zst", archive::is_zst),
        ("Archive/lz4", archive::is_lz4),
        ("Archive/msi", archive::is_msi),
        ("Archive/cpio", archive::is_cpio),
        ("Text/html", text::is_html),
        ("Text/xml", text::is_xml),
        ("Text/sh", text::is_shellscript),
    ]
}

/// The row's sample, or that of another row with its MIME type if it has none.
fn accepted(name: &str) -> Vec<u8> {
    let rows = lines("rows.tsv");
    let own = rows.iter().find(|row| format!("{}/{}", row[0], row[2]) == name).unwrap();
    let sampled = [own].into_iter().chain(&rows).find(|row| row[1] == own[1] && row[3] != "none").unwrap();
    decode(&sampled[3])
}

#[test]
fn matchers_accept_the_samples_of_their_rows() {
    let all = matchers();
    assert_eq!(all.len(), rows().len());
    for (name, matcher) in all {
        let told = (matcher(&accepted(name)), matcher(b""), matcher(&[b'A'; 700]));
        assert_eq!(told, (true, false, false), "{name}");
    }
}

#[test]
fn the_version_is_that_of_the_library_and_beside_it_that_of_the_crate() {
    assert_eq!(env!("CARGO_PKG_VERSION"), format!("{}+infer.0.22.0", infer::version()));
}

#[test]
fn samples_are_of_their_rows() {
    let mut told = 0;
    let rows = rows();
    for (row, wanted) in rows.iter().enumerate() {
        let data = infer::more::sample(row);
        if data.is_empty() {
            continue;
        }
        told += 1;
        assert_eq!(infer::get(&data).map(shown), Some(wanted.clone()));
        assert!(infer::is(&data, &wanted.2) && infer::is_mime(&data, &wanted.1));
    }
    // Two rows have the signature of an earlier one, and so no sample.
    assert_eq!(told, rows.len() - 2);
}

#[test]
fn types_are_the_rows_in_their_order() {
    let listed: Vec<_> = infer::types().iter().copied().map(shown).collect();
    assert_eq!(listed, rows());
    let further: Vec<_> = lines("further/rows.tsv").iter().map(|line| (line[0].clone(), line[1].clone(), line[2].clone())).collect();
    let all: Vec<_> = infer::more::types().iter().copied().map(shown).collect();
    assert_eq!(all, [listed, further].concat());
}

/// Of each type and each beginning of its sample: what can come of it is said, and what is decided stays.
#[test]
fn samples_come_of_what_they_begin_with() {
    let builtin = infer::types().len();
    for (number, kind) in infer::more::types().iter().enumerate() {
        let data = infer::more::sample(number);
        let (whole, wider) = (infer::get(&data), infer::more::get(&data));
        // The calls are the same ones without files, so each beginning is asked once.
        for at in (0..=data.len()).filter(|_| !data.is_empty() && cfg!(feature = "std")) {
            let front = &data[..at];
            assert!(infer::more::may_become(front, kind.extension()), "{kind:?} {at}");
            assert!(number >= builtin || infer::may_become(front, kind.extension()), "{kind:?} {at}");
            assert!(!infer::is_decided(front) || infer::get(front) == whole, "{kind:?} {at}");
            assert!(!infer::more::is_decided(front) || infer::more::get(front) == wider, "{kind:?} {at}");
        }
        let found = if number < builtin { whole } else { wider };
        assert!(data.is_empty() || found == Some(*kind), "{kind:?}");
    }
    assert_eq!((infer::more::sample(infer::more::types().len()), infer::more::sample(usize::MAX)), (vec![], vec![]));
}

#[test]
fn rows_are_supported() {
    for (_, mime_type, extension) in rows() {
        assert!(infer::is_supported(&extension) && infer::is_mime_supported(&mime_type));
    }
    assert!(!infer::is_supported("txt") && !infer::is_mime_supported("text/plain") && !infer::is_supported(""));
}

#[test]
fn vectors_have_their_answers() {
    let rows = rows();
    let vectors = lines("vectors.tsv");
    assert!(!vectors.is_empty());
    for line in &vectors {
        let wanted = named(&rows, &line[2]);
        assert_eq!(infer::get(&decode(&line[3])).map(shown), wanted, "{}", line[0]);
        assert_eq!(infer::Infer::new().get(&decode(&line[3])).map(shown), wanted, "{}", line[0]);
    }
}

#[test]
fn wider_answers_are_those_of_the_data() {
    let vectors = lines("further/vectors.tsv");
    assert!(vectors.len() >= 365);
    for line in &vectors {
        let data = decode(&line[1]);
        let found = infer::more::get(&data);
        let told = found.map_or("unknown".to_string(), |it| format!("{} {}", it.mime_type(), it.extension()));
        assert_eq!(told, line[3], "{}", line[0]);
        match line[2].split_once('/') {
            Some((class, _)) => assert_eq!(format!("{:?}", found.unwrap().matcher_type()), class, "{}", line[0]),
            None => assert_eq!(found, infer::get(&data), "{}", line[0]),
        }
    }
}

#[test]
fn all_threads_have_the_same_answers() {
    let rows = rows();
    let vectors: Vec<_> = lines("vectors.tsv").iter().map(|line| (decode(&line[3]), named(&rows, &line[2]))).collect();
    std::thread::scope(|scope| {
        for _ in 0..8 {
            scope.spawn(|| {
                for (data, wanted) in &vectors {
                    assert_eq!(&infer::get(data).map(shown), wanted);
                }
            });
        }
    });
}

#[test]
fn aliases_lead_to_rows_and_are_none() {
    let (mut counted, rows) = (0, rows());
    for (kind, alias, target) in infer::aliases::all() {
        counted += 1;
        assert!(rows.iter().any(|row| row.2 == target), "{target}");
        assert!(rows.iter().all(|row| row.1 != alias && row.2 != alias), "{alias}");
        assert_eq!(infer::aliases::target(kind, alias), Some(target));
    }
    let text = fs::read_to_string(Path::new(env!("CARGO_MANIFEST_DIR")).join("../../../aliases/aliases.def")).unwrap();
    assert_eq!(counted, text.lines().filter(|line| line.ends_with(')')).count());
    assert_eq!(infer::aliases::target(infer::aliases::Kind::Browser, "jpeg"), None);
}

#[test]
fn every_class_is_there() {
    let classes = [MatcherType::App, MatcherType::Archive, MatcherType::Audio, MatcherType::Book, MatcherType::Doc];
    let more = [MatcherType::Font, MatcherType::Image, MatcherType::Video, MatcherType::Text];
    for class in classes.iter().chain(&more) {
        assert!(rows().iter().any(|row| row.0 == format!("{class:?}")));
    }
}

/// The bytes of a name, some of which are written as `\xHH`.
fn name_of(text: &str) -> Vec<u8> {
    let mut parts = text.split("\\x");
    let mut name = parts.next().unwrap().as_bytes().to_vec();
    for part in parts {
        name.push(u8::from_str_radix(&part[..2], 16).unwrap());
        name.extend(&part.as_bytes()[2..]);
    }
    name
}

#[test]
fn names_and_bytes_are_those_of_the_data() {
    let all = lines("named.tsv");
    for line in &all {
        let buf = decode(&line[1]);
        let found = infer::named(&name_of(&line[0]), &buf);
        let told = found.file_type.map_or("-".to_string(), |it| it.mime_type().to_string());
        assert_eq!((found.standing.to_string(), told), (line[2].clone(), line[3].clone()), "{} {}", line[0], line[1]);
        assert_eq!(found.type_of_bytes, infer::more::get(&buf));
    }
    assert!(all.len() > 900);
}

/// The values of a list of JSON, texts and words. Each code point of a text is a byte, and nothing stands for null.
fn values(list: &str) -> Vec<Vec<u8>> {
    let (mut found, mut left) = (Vec::new(), list.trim_start_matches('['));
    while !left.is_empty() && !left.starts_with(']') {
        let text = left.strip_prefix('"');
        let end = if text.is_some() { closing(left) } else { left.find([',', ']']).unwrap_or(left.len()) };
        found.push(text.map_or_else(|| left[..end].replace("null", "").into_bytes(), |_| unescaped(&left[1..end - 1])));
        left = left[end..].trim_start_matches([',', ' ']);
    }
    found
}

/// Behind the quote that ends the text.
fn closing(text: &str) -> usize {
    let mut at = 1;
    while text.as_bytes()[at] != b'"' {
        at += if text.as_bytes()[at] == b'\\' { 2 } else { 1 };
    }
    at + 1
}

fn unescaped(text: &str) -> Vec<u8> {
    let (mut bytes, mut chars) = (Vec::new(), text.chars());
    while let Some(it) = chars.next() {
        let code = match (it, it == '\\') {
            (_, false) => u32::from(it),
            _ => match chars.next().unwrap() {
                'b' => 8,
                'f' => 12,
                'n' => 10,
                'r' => 13,
                't' => 9,
                'u' => u32::from_str_radix(&(0..4).map(|_| chars.next().unwrap()).collect::<String>(), 16).unwrap(),
                other => u32::from(other),
            },
        };
        // One beyond a byte is in no token and no value, as 7F.
        bytes.push(u8::try_from(code).unwrap_or(0x7F));
    }
    bytes
}

/// The values of a header as one.
fn joined(values: &[Vec<u8>]) -> Vec<u8> {
    let is_dark = |byte: &u8| !b"\t\n\r ".contains(byte);
    let trimmed = |value: &Vec<u8>| {
        let first = value.iter().position(is_dark).unwrap_or(value.len());
        value[first..value.iter().rposition(is_dark).map_or(first, |last| last + 1)].to_vec()
    };
    values.iter().map(trimmed).collect::<Vec<_>>().join(b", ".as_slice())
}

/// An answer of JSON, of which a dash says that no rule tells one.
fn answer(text: &str) -> Option<Vec<u8>> {
    values(text).pop().filter(|it| !it.is_empty() && it != b"-")
}

#[test]
fn mime_types_are_those_of_browsers_tests() {
    use infer::mimesniff::MimeType;
    for line in lines("mime_types.tsv").iter().filter(|line| line[0] == "parse") {
        let text = values(&line[1]).remove(0);
        let found = MimeType::parse(&text);
        assert_eq!(found.as_ref().map(|it| it.as_bytes().to_vec()), answer(&line[2]), "{}", line[1]);
    }
    for line in lines("mime_types.tsv").iter().filter(|line| line[0] == "groups") {
        use infer::mimesniff::Group::*;
        let found = MimeType::parse(&values(&line[1])[0]).unwrap();
        let groups = [Image, AudioOrVideo, Font, ZipBased, Archive, Xml, Html, Scriptable, JavaScript, Json];
        let names = ["image", "audio or video", "font", "ZIP-based", "archive", "XML", "HTML", "scriptable", "JavaScript", "JSON"];
        let told: Vec<_> =
            groups.iter().zip(names).filter(|(group, _)| found.is_in(**group)).map(|(_, name)| name.as_bytes().to_vec()).collect();
        assert_eq!(told, values(&line[2]), "{}", line[1]);
    }
    for line in lines("mime_types.tsv").iter().filter(|line| line[0] == "extract") {
        let found = infer::mimesniff::extract(&joined(&values(&line[1])));
        assert_eq!(found.map(|it| it.as_bytes().to_vec()), answer(&line[2]), "{}", line[1]);
    }
    let found = MimeType::parse(b"Text/JSON; Charset=\"UTF\\-8\"; b=\xE9").unwrap();
    assert_eq!((found.essence(), found.to_string()), (b"text/json".as_slice(), "text/json;charset=UTF-8;b=\"\u{e9}\"".to_string()));
    assert_eq!((found.parameter(b"CHARSET"), found.parameter(b"c")), (Some(b"UTF-8".to_vec()), None));
    assert_eq!(found.minimize(false), Some(b"application/json".to_vec()));
}

#[test]
fn computed_types_are_those_of_other_programs() {
    use infer::mimesniff::{compute, is_decided, is_old_server, may_be_scriptable, Context, Supplied};
    let mut asked = 0;
    for line in lines("sniffed.tsv") {
        let (given, data) = (values(&line[1]), decode(&line[2]));
        let is = |at: usize| given[at] == b"true";
        let in_context = |context| Supplied { context, ..Supplied::default() };
        let supplied = match line[0].as_str() {
            "compute" | "decided" => Supplied { content_type: &given[0], no_sniff: is(1), old_server: is(2), ..Supplied::default() },
            "unknown" => Supplied { no_sniff: !is(0), ..Supplied::default() },
            "text_or_binary" => Supplied { content_type: b"text/plain", old_server: true, ..Supplied::default() },
            "image" => in_context(Context::Image),
            "audio_video" => in_context(Context::AudioOrVideo),
            "font" => in_context(Context::Font),
            "may_be_scriptable" => {
                assert!(may_be_scriptable(&data) || line[3] == "false", "{line:?}");
                continue;
            }
            "apache_bug" => {
                assert_eq!(is_old_server(&given[0]), line[3] == "true", "{line:?}");
                continue;
            }
            _ => continue,
        };
        asked += 1;
        match line[0].as_str() {
            "decided" => assert!(line[3] == "true" || !is_decided(&supplied, &data), "{line:?}"),
            _ => assert_eq!(compute(&supplied, &data), answer(&line[3]), "{line:?}"),
        }
    }
    assert!(asked > 1000);
}

//! A function for each signature. It asks one row, whatever the answer of `get` is.

macro_rules! matchers {
    ($($(#[$doc:meta])* $module:ident: $class:ident { $($name:ident = $extension:literal),* $(,)? })*) => {
        $(
            $(#[$doc])*
            pub mod $module {
                use crate::{MatcherType, ffi};

                $(
                    #[doc = concat!("Whether the signature of the type \"", $extension, "\" accepts the buffer.")]
                    pub fn $name(buf: &[u8]) -> bool {
                        static ROW: ffi::KnownRow = ffi::KnownRow::new(MatcherType::$class, $extension);
                        ROW.accepts(buf)
                    }
                )*
                matchers!(@more $module);
            }
        )*
    };
    (@more app) => {
        pub use crate::ffi::{is_coff_i386, is_coff_ia64, is_coff_x64};
    };
    (@more $module:ident) => {};
}

matchers! {
    /// Programs.
    app: App {
        is_wasm = "wasm",
        is_elf = "elf",
        is_exe = "exe",
        is_dll = "dll",
        is_java = "class",
        is_llvm = "bc",
        is_mach = "mach",
        is_dex = "dex",
        is_dey = "dey",
        is_der = "der",
        is_coff = "obj",
        is_pem = "pem",
        is_qcow2 = "qcow2",
    }
    /// Archives.
    archive: Archive {
        is_epub = "epub",
        is_zip = "zip",
        is_tar = "tar",
        is_par2 = "par2",
        is_rar = "rar",
        is_gz = "gz",
        is_bz2 = "bz2",
        is_bz3 = "bz3",
        is_7z = "7z",
        is_xz = "xz",
        is_pdf = "pdf",
        is_swf = "swf",
        is_rtf = "rtf",
        is_eot = "eot",
        is_ps = "ps",
        is_sqlite = "sqlite",
        is_nes = "nes",
        is_crx = "crx",
        is_cab = "cab",
        is_deb = "deb",
        is_ar = "ar",
        is_z = "Z",
        is_lz = "lz",
        is_rpm = "rpm",
        is_dcm = "dcm",
        is_zst = "zst",
        is_lz4 = "lz4",
        is_msi = "msi",
        is_cpio = "cpio",
    }
    /// Sounds.
    audio: Audio {
        is_midi = "midi",
        is_mp3 = "mp3",
        is_m4a = "m4a",
        is_ogg_opus = "opus",
        is_ogg = "ogg",
        is_flac = "flac",
        is_wav = "wav",
        is_amr = "amr",
        is_aac = "aac",
        is_aiff = "aiff",
        is_dsf = "dsf",
        is_ape = "ape",
    }
    /// Books.
    book: Book {
        is_epub = "epub",
        is_mobi = "mobi",
    }
    /// Documents of Office.
    doc: Doc {
        is_doc = "doc",
        is_docx = "docx",
        is_xls = "xls",
        is_xlsx = "xlsx",
        is_ppt = "ppt",
        is_pptx = "pptx",
    }
    /// Fonts.
    font: Font {
        is_woff = "woff",
        is_woff2 = "woff2",
        is_ttf = "ttf",
        is_otf = "otf",
    }
    /// Images.
    image: Image {
        is_jpeg = "jpg",
        is_jpeg2000 = "jp2",
        is_png = "png",
        is_gif = "gif",
        is_webp = "webp",
        is_cr2 = "cr2",
        is_tiff = "tif",
        is_bmp = "bmp",
        is_jxr = "jxr",
        is_psd = "psd",
        is_ico = "ico",
        is_heif = "heif",
        is_avif = "avif",
        is_jxl = "jxl",
        is_ora = "ora",
        is_djvu = "djvu",
        is_dwg = "dwg",
    }
    /// Documents of OpenDocument.
    odf: Doc {
        is_odt = "odt",
        is_ods = "ods",
        is_odp = "odp",
    }
    /// Texts.
    text: Text {
        is_html = "html",
        is_xml = "xml",
        is_shellscript = "sh",
    }
    /// Films.
    video: Video {
        is_mp4 = "mp4",
        is_m4v = "m4v",
        is_mkv = "mkv",
        is_webm = "webm",
        is_mov = "mov",
        is_avi = "avi",
        is_wmv = "wmv",
        is_mpeg = "mpg",
        is_flv = "flv",
    }
}

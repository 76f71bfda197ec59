//! Checks a glTF document, or writes it anew.
//!
//! ```text
//! check FILE          prints what is wrong in a document
//! check FILE NAMES    the same, if it may require the extensions NAMES alone, one a line
//! check -j FILE       the same as JSON, an object a line
//! check -f FILE       prints what the specification requires and the file doesn't have
//! check -w FILE       writes the document anew
//! ```
//!
//! The exit status is that of the call. `tools/run_c.py` builds and runs this program.

use std::io::Write;
use std::process::ExitCode;
use std::{env, fs, io};

/// The library: safe calls, each of which returns its status and its output.
mod gltf {
    /// Room for most outputs. A longer one is asked for again, with as much room as it needs.
    const ROOM: usize = 65536;

    #[repr(C)]
    struct Returned {
        status: u8,
        needed: usize,
    }

    #[link(name = "gltf_c", kind = "static")]
    unsafe extern "C" {
        fn gltf_c_check(
            document: *const u8,
            document_len: usize,
            output: *mut u8,
            output_len: usize,
        ) -> Returned;

        fn gltf_c_check_by(
            document: *const u8,
            document_len: usize,
            names: *const u8,
            names_len: usize,
            empty_texture: bool,
            output: *mut u8,
            output_len: usize,
        ) -> Returned;

        fn gltf_c_check_json(
            document: *const u8,
            document_len: usize,
            file: *const u8,
            file_len: usize,
            output: *mut u8,
            output_len: usize,
        ) -> Returned;

        fn gltf_c_findings(
            document: *const u8,
            document_len: usize,
            file: *const u8,
            file_len: usize,
            output: *mut u8,
            output_len: usize,
        ) -> Returned;

        fn gltf_c_rewrite(
            document: *const u8,
            document_len: usize,
            output: *mut u8,
            output_len: usize,
        ) -> Returned;
    }

    fn ask(call: impl Fn(*mut u8, usize) -> Returned) -> (u8, Vec<u8>) {
        let mut room = ROOM;
        loop {
            let mut output = vec![0; room];
            let returned = call(output.as_mut_ptr(), room);
            if returned.needed <= room {
                output.truncate(returned.needed);
                return (returned.status, output);
            }
            room = returned.needed;
        }
    }

    pub fn check(document: &[u8]) -> (u8, Vec<u8>) {
        // SAFETY: the declaration is that of the library, and each pointer comes with the length
        // of its slice or `Vec`, which outlives the call.
        ask(|output, room| unsafe { gltf_c_check(document.as_ptr(), document.len(), output, room) })
    }

    pub fn check_by(document: &[u8], names: &str, empty_texture: bool) -> (u8, Vec<u8>) {
        // SAFETY: as in `check`.
        ask(|output, room| unsafe {
            gltf_c_check_by(
                document.as_ptr(),
                document.len(),
                names.as_ptr(),
                names.len(),
                empty_texture,
                output,
                room,
            )
        })
    }

    pub fn check_json(document: &[u8], file: &str) -> (u8, Vec<u8>) {
        // SAFETY: as in `check`.
        ask(|output, room| unsafe {
            gltf_c_check_json(
                document.as_ptr(),
                document.len(),
                file.as_ptr(),
                file.len(),
                output,
                room,
            )
        })
    }

    pub fn findings(document: &[u8], file: &str) -> (u8, Vec<u8>) {
        // SAFETY: as in `check`.
        ask(|output, room| unsafe {
            gltf_c_findings(
                document.as_ptr(),
                document.len(),
                file.as_ptr(),
                file.len(),
                output,
                room,
            )
        })
    }

    pub fn rewrite(document: &[u8]) -> (u8, Vec<u8>) {
        // SAFETY: as in `check`.
        ask(|output, room| unsafe {
            gltf_c_rewrite(document.as_ptr(), document.len(), output, room)
        })
    }
}

fn main() -> io::Result<ExitCode> {
    let words: Vec<String> = env::args().skip(1).collect();
    let words: Vec<&str> = words.iter().map(String::as_str).collect();
    let (status, output) = match words[..] {
        ["-w", file] => gltf::rewrite(&fs::read(file)?),
        ["-f", file] => gltf::findings(&fs::read(file)?, file),
        ["-j", file] => gltf::check_json(&fs::read(file)?, file),
        [file, names] => gltf::check_by(&fs::read(file)?, names, false),
        [file] => gltf::check(&fs::read(file)?),
        _ => {
            eprintln!("check FILE, check FILE NAMES, or check with -j, -f or -w and FILE");
            return Ok(ExitCode::from(9));
        }
    };
    io::stdout().write_all(&output)?;
    Ok(ExitCode::from(status))
}

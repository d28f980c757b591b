//! `page`: all that a bus said, as one page that needs nothing else.

use crate::failure::Failure;
use crate::input::{self, Opened};
use crate::model::Model;
use crate::options::{unknown, Listening, Words};
use crate::sha256;
use crate::text;
use std::ffi::{OsStr, OsString};
use std::fs;
use std::io::Write;
use std::os::unix::fs::MetadataExt;
use std::path::{Path, PathBuf};

const PAGE: &str = include_str!("page/page.html");
const STYLE: &str = include_str!("page/page.css");
const SCRIPT: &str = include_str!("page/page.js");

pub fn run(words: Vec<OsString>) -> Result<(), Failure> {
    let mut listening = Listening::new();
    let mut words = Words::new(words);
    while let Some(option) = words.option() {
        if !listening.take(&option, &mut words)? {
            return Err(unknown(&option));
        }
    }
    let [from, to] = words.plain.as_slice() else {
        return Err(Failure::Words(
            "page wants a file to read and one to write".to_string(),
        ));
    };
    let source = listening.source(std::slice::from_ref(from))?;
    let to = Path::new(to);
    let opened = source.open()?;
    if let Opened::File(file) = &opened {
        refuse_same(file, from, to)?;
    }
    aside(to)?;
    let reading = listening.reading;
    let mut model = Model::new(source.name(), listening)?;
    input::run(opened, &reading, &mut model)?;
    let mut data = Vec::new();
    model.json(&mut data);
    put(to, &page(&data, false))
}

/// The page over these tables; of a live page they come later.
pub fn page(data: &[u8], live: bool) -> Vec<u8> {
    let mut policy = format!(
        "default-src 'none'; script-src 'sha256-{}'; style-src 'sha256-{}'; base-uri 'none'; form-action 'none'; require-trusted-types-for 'script'",
        sha256::base64(SCRIPT.as_bytes()),
        sha256::base64(STYLE.as_bytes())
    );
    if live {
        policy.push_str("; connect-src 'self'");
    }
    let mut out = Vec::new();
    let mut rest = PAGE;
    while let Some((before, after)) = rest.split_once('{') {
        out.extend_from_slice(before.as_bytes());
        let (name, after) = after
            .split_once('}')
            .expect("each brace of page.html is closed");
        out.extend_from_slice(match name {
            "live" if live => b" data-live",
            "live" => b"",
            "policy" => policy.as_bytes(),
            "style" => STYLE.as_bytes(),
            "script" => SCRIPT.as_bytes(),
            // JSON whose strings have no `<`, so that nothing in it ends the element
            "data" => data,
            _ => unreachable!("page.html has no other"),
        });
        rest = after;
    }
    out.extend_from_slice(rest.as_bytes());
    out
}

/// The page must not take the place of what it is made of.
fn refuse_same(file: &fs::File, from: &OsStr, to: &Path) -> Result<(), Failure> {
    let place = |about: fs::Metadata| (about.dev(), about.ino());
    let place_of_to = fs::metadata(to).ok().map(place);
    if place_of_to.is_none() || file.metadata().ok().map(place) != place_of_to {
        return Ok(());
    }
    let from = match from.to_str() {
        Some("-") => "standard input".to_string(),
        _ => text::path(Path::new(from)),
    };
    let to = text::path(to);
    Err(Failure::Words(format!("{from} and {to} are one file")))
}

/// The name under which a file is written before it is moved into place; or why it cannot be written, as far as that is seen beforehand.
fn aside(to: &Path) -> Result<PathBuf, Failure> {
    if to.exists() && !to.is_file() {
        return Err(Failure::Writing(format!(
            "{} is there, and not a file",
            text::path(to)
        )));
    }
    let name = to
        .file_name()
        .ok_or_else(|| Failure::Words(format!("{} is no name of a file", text::path(to))))?;
    let mut aside = name.to_os_string();
    aside.push(format!(".{}", std::process::id()));
    let aside = to.with_file_name(aside);
    let folder = aside.parent().filter(|folder| *folder != Path::new(""));
    match folder.is_none_or(Path::is_dir) {
        true => Ok(aside),
        false => Err(cannot_write(to)),
    }
}

fn cannot_write(to: &Path) -> Failure {
    Failure::Writing(format!("cannot write {}", text::path(to)))
}

/// Writes a file aside and moves it into place when it is whole.
fn put(to: &Path, bytes: &[u8]) -> Result<(), Failure> {
    let aside = aside(to)?;
    let written = fs::File::create_new(&aside)
        .and_then(|mut file| file.write_all(bytes).and_then(|()| file.sync_all()))
        .and_then(|()| fs::rename(&aside, to));
    written.map_err(|_| {
        let _ = fs::remove_file(&aside);
        cannot_write(to)
    })
}

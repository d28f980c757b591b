//! What is subscribed to: the standard types, and those of definitions in text that a user gives.

use crate::failure::Failure;
use crate::frame::{Stream, TransferType};
use crate::library::header::{DEFINITIONS_MAX, SUBSCRIPTIONS_MAX, TEXT_MAX};
use crate::library::{sentence, signature, signatures, subscription};
use crate::messages::{Type, TYPES};
use crate::text;
use std::fs::{self, File};
use std::io::Read;
use std::path::{Path, PathBuf};

/// A type that is subscribed to.
pub struct Subscribed {
    pub service: bool,
    pub type_id: u16,
    signature: u64,
    pub full_name: String,
    /// It is one of the library's, so its messages can be read.
    standard: bool,
}

pub struct Types(Vec<Subscribed>);

impl Types {
    /// As the log program's (RULES 10.1).
    pub fn standard() -> Types {
        let mut all: Vec<Subscribed> = Vec::new();
        for one in TYPES {
            let (service, type_id) = (one.transfer_type.is_service(), one.type_id);
            if all
                .iter()
                .any(|known| (known.service, known.type_id) == (service, type_id))
            {
                continue;
            }
            all.push(Subscribed {
                service,
                type_id,
                signature: signature(service, type_id.into()).expect("the library knows it"),
                full_name: one.full_name.to_string(),
                standard: true,
            });
        }
        Types(all)
    }

    /// With those of the definitions under a folder. A definition with the kind and ID of a standard type, but another signature, takes its
    /// place. Gives what did not find one among the subscriptions, by name.
    pub fn with(mut self, folder: &Path) -> Result<(Types, Vec<String>), Failure> {
        let (mut given, mut left_out) = (definitions(folder)?, Vec::new());
        given.retain(|one| !self.0.iter().any(|known| one.is_same(known)));
        self.0
            .retain(|known| !given.iter().any(|one| one.has_place_of(known)));
        for (place, one) in given.iter().enumerate() {
            if let Some(twin) = given[..place].iter().find(|other| one.has_place_of(other)) {
                let (first, second) = (&twin.full_name, &one.full_name);
                return Err(Failure::Words(format!(
                    "{first} and {second} have one ID, {}",
                    one.type_id
                )));
            }
        }
        for one in given {
            match self.0.len() < SUBSCRIPTIONS_MAX {
                true => self.0.push(one),
                false => left_out.push(one.full_name),
            }
        }
        Ok((self, left_out))
    }

    /// Subscription records.
    pub fn records(&self) -> Vec<u8> {
        let record =
            |one: &Subscribed| subscription(one.service, one.type_id.into(), one.signature);
        self.0.iter().flat_map(record).collect()
    }

    pub fn of(&self, stream: &Stream) -> Option<&Subscribed> {
        let service = stream.transfer_type.is_service();
        self.0
            .iter()
            .find(|one| one.service == service && one.type_id == stream.type_id)
    }

    /// The type by which a payload of the stream is read.
    pub fn readable(&self, stream: &Stream) -> Option<&'static Type> {
        let subscribed = self.of(stream)?;
        subscribed
            .standard
            .then(|| Type::of_stream(stream))
            .flatten()
    }

    /// `NodeStatus`, `GetNodeInfo.Request`, `acme.Zoom`, or `message 1002` of a type that is not known.
    pub fn name(&self, stream: &Stream, out: &mut Vec<u8>) {
        if let Some(readable) = self.readable(stream) {
            return out.extend_from_slice(readable.name.as_bytes());
        }
        let Some(known) = self.of(stream) else {
            let kind = stream.transfer_type.name();
            return put!(out, "{kind} {}", stream.type_id);
        };
        out.extend_from_slice(known.full_name.as_bytes());
        out.extend_from_slice(match stream.transfer_type {
            TransferType::Message => b"",
            TransferType::Request => b".Request",
            TransferType::Response => b".Response",
        });
    }
}

impl Subscribed {
    fn has_place_of(&self, other: &Subscribed) -> bool {
        (self.service, self.type_id) == (other.service, other.type_id)
    }

    fn is_same(&self, other: &Subscribed) -> bool {
        self.has_place_of(other) && self.signature == other.signature
    }
}

/// A definition in text. One without an ID can be nested only.
struct Definition {
    path: PathBuf,
    full_name: String,
    type_id: Option<u32>,
    text: Vec<u8>,
}

/// With line 0, the name is at fault.
const NOT_IN_GRAMMAR: u32 = 40;
/// The most files that are looked at.
const FILES_MAX: usize = 4096;
const DEPTH_MAX: usize = 32;

/// The types with an ID under a folder, in which root namespaces are.
fn definitions(folder: &Path) -> Result<Vec<Subscribed>, Failure> {
    let mut all = Vec::new();
    walk(folder, "", 0, &mut all)?;
    all.sort_by(|one, other| one.full_name.cmp(&other.full_name));
    if all.iter().all(|one| one.type_id.is_none()) {
        return Err(Failure::Words(format!(
            "no definition with an ID, as acme/20000.Zoom.uavcan, is under {}",
            text::path(folder)
        )));
    }
    let with_id = all.iter().filter(|one| one.type_id.is_some());
    with_id.map(|one| one.subscribed(&all)).collect()
}

fn walk(
    folder: &Path,
    namespace: &str,
    depth: usize,
    all: &mut Vec<Definition>,
) -> Result<(), Failure> {
    let unreadable = || Failure::Reading(format!("cannot read {}", text::path(folder)));
    for entry in fs::read_dir(folder).map_err(|_| unreadable())? {
        let path = entry.map_err(|_| unreadable())?.path();
        let name = path
            .file_name()
            .unwrap_or_default()
            .to_string_lossy()
            .into_owned();
        if path.is_dir() {
            if depth < DEPTH_MAX && !name.starts_with('.') {
                walk(&path, &format!("{namespace}{name}."), depth + 1, all)?;
            }
        } else if let Some(name) = name.strip_suffix(".uavcan") {
            if all.len() == FILES_MAX {
                return Err(Failure::Words(format!(
                    "more than {FILES_MAX} definitions under {}",
                    text::path(folder)
                )));
            }
            all.push(Definition::read(&path, namespace, name)?);
        }
    }
    Ok(())
}

impl Definition {
    /// The file NAMESPACE/[ID.]NAME.uavcan.
    fn read(path: &Path, namespace: &str, name: &str) -> Result<Definition, Failure> {
        let (digits, name) = match name.split_once('.') {
            Some((digits, name)) => (Some(digits), name),
            None => (None, name),
        };
        let is_number = |digits: &&str| digits.bytes().all(|digit| digit.is_ascii_digit());
        let type_id: Option<u32> = digits
            .filter(is_number)
            .and_then(|digits| digits.parse().ok());
        if type_id.is_some() != digits.is_some() || name.contains('.') || namespace.is_empty() {
            let form = "NAMESPACE/[ID.]NAME.uavcan does";
            return Err(Failure::Words(format!(
                "{} does not tell the full name of its type: {form}",
                text::path(path)
            )));
        }
        // a byte more than a text may have is enough to be refused
        let mut text = Vec::new();
        let read =
            File::open(path).and_then(|file| file.take(TEXT_MAX as u64 + 1).read_to_end(&mut text));
        read.map_err(|_| Failure::Reading(format!("cannot read {}", text::path(path))))?;
        Ok(Definition {
            path: path.to_path_buf(),
            full_name: format!("{namespace}{name}"),
            type_id,
            text,
        })
    }

    /// Lines without comments, as words.
    fn lines(&self) -> impl Iterator<Item = Vec<&[u8]>> {
        self.text
            .split(|byte| matches!(byte, b'\n' | b'\r'))
            .map(|line| {
                let line = line.split(|byte| *byte == b'#').next().unwrap_or_default();
                let words = line.split(|byte| matches!(byte, b' ' | b'\t'));
                words.filter(|word| !word.is_empty()).collect()
            })
    }

    fn is_service(&self) -> bool {
        self.lines().any(|words| words == [b"---"])
    }

    /// Whether a line's type is the other one, by its full name or by its name in this namespace. The proved call reads the texts and judges; this
    /// only chooses which of them it is given.
    fn nests(&self, other: &Definition) -> bool {
        let (namespace, _) = self.full_name.rsplit_once('.').unwrap_or_default();
        self.lines().any(|words| {
            let cast = matches!(words.first(), Some(&b"saturated" | &b"truncated"));
            let Some(word) = words.get(usize::from(cast)) else {
                return false;
            };
            let base = word.split(|byte| *byte == b'[').next().unwrap_or_default();
            let base = String::from_utf8_lossy(base);
            match base.contains('.') {
                true => base == other.full_name,
                false => other.full_name == format!("{namespace}.{base}"),
            }
        })
    }

    /// This one and all that it nests.
    fn family<'a>(&'a self, all: &'a [Definition]) -> Vec<&'a Definition> {
        let mut family = vec![self];
        let mut next = 0;
        while next < family.len() && family.len() <= DEFINITIONS_MAX {
            for other in all {
                let known = family.iter().any(|one| one.full_name == other.full_name);
                if !known && family[next].nests(other) {
                    family.push(other);
                }
            }
            next += 1;
        }
        family
    }

    fn subscribed(&self, all: &[Definition]) -> Result<Subscribed, Failure> {
        let family = self.family(all);
        let given: Vec<(&str, &[u8])> = family
            .iter()
            .map(|one| (one.full_name.as_str(), one.text.as_slice()))
            .collect();
        let signatures = signatures(&given).map_err(|refusal| {
            let number = refusal.number;
            let at_fault = family
                .get(refusal.definition.saturating_sub(1))
                .unwrap_or(&self);
            let place = text::bare_path(&at_fault.path);
            Failure::Refused(match (number, refusal.line) {
                (NOT_IN_GRAMMAR, 0) => {
                    let name = text::path(Path::new(&at_fault.full_name));
                    format!("{number} {place}: {name} is no full name: names of letters, digits and _, joined by dots, at most 80 characters")
                }
                (_, 0) => format!("{number} {place}: {}", sentence(number)),
                (_, line) => format!("{number} {place}:{line}: {}", sentence(number)),
            })
        })?;
        let (service, type_id) = (self.is_service(), self.type_id.expect("it has one"));
        let most = if service { 255 } else { 65535 };
        if type_id > most {
            return Err(Failure::Words(format!(
                "{}: the ID is over {most}",
                text::path(&self.path)
            )));
        }
        Ok(Subscribed {
            service,
            type_id: type_id as u16,
            signature: signatures[0],
            full_name: self.full_name.clone(),
            standard: false,
        })
    }
}

#[cfg(test)]
mod tests {
    use super::*;

    /// A folder of definitions, gone in the end.
    struct Folder(PathBuf);

    impl Folder {
        fn new(name: &str, files: &[(&str, &str)]) -> Folder {
            let folder =
                std::env::temp_dir().join(format!("tecelume-{}-{name}", std::process::id()));
            for (path, text) in files {
                let path = folder.join(path);
                fs::create_dir_all(path.parent().unwrap()).unwrap();
                fs::write(path, text).unwrap();
            }
            Folder(folder)
        }

        fn types(&self) -> Result<(Types, Vec<String>), Failure> {
            Types::standard().with(&self.0)
        }

        fn refused(&self) -> String {
            match self.types().err().expect("a refusal") {
                Failure::Refused(text)
                | Failure::Words(text)
                | Failure::Reading(text)
                | Failure::Writing(text) => text,
            }
        }
    }

    impl Drop for Folder {
        fn drop(&mut self) {
            let _ = fs::remove_dir_all(&self.0);
        }
    }

    fn stream(transfer_type: TransferType, type_id: u16) -> Stream {
        Stream {
            transfer_type,
            type_id,
            source: 1,
            destination: 0,
        }
    }

    fn name(types: &Types, transfer_type: TransferType, type_id: u16) -> String {
        let mut out = Vec::new();
        types.name(&stream(transfer_type, type_id), &mut out);
        String::from_utf8(out).unwrap()
    }

    /// The public definitions are the standard types again.
    #[test]
    fn public() {
        let folder = Path::new(concat!(env!("CARGO_MANIFEST_DIR"), "/../tests/definitions"));
        let (types, left_out) = Types::standard().with(folder).unwrap();
        assert!(left_out.is_empty());
        assert_eq!(types.records(), Types::standard().records());
        assert_eq!(types.records().len(), 9 * 13);
        assert_eq!(name(&types, TransferType::Message, 341), "NodeStatus");
        assert_eq!(name(&types, TransferType::Response, 11), "GetSet.Response");
        assert_eq!(name(&types, TransferType::Message, 1002), "message 1002");
        assert_eq!(name(&types, TransferType::Request, 99), "request 99");
    }

    #[test]
    fn private() {
        let folder = Folder::new(
            "private",
            &[
                (
                    "acme/20000.Zoom.uavcan",
                    "# a lens\nLens[<=3] lenses # and so on\nacme.deep.Glass glass\n",
                ),
                ("acme/Lens.uavcan", "truncated uint8 x\r\nvoid8\r\n"),
                ("acme/deep/Glass.uavcan", "float32 index"),
                ("acme/200.Turn.uavcan", "uint8 by\n---\nbool done\n"),
                ("acme/deep/README", "not a definition"),
            ],
        );
        let (types, left_out) = folder.types().unwrap();
        assert!(left_out.is_empty());
        let zoom = types.of(&stream(TransferType::Message, 20000)).unwrap();
        let family: [(&str, &[u8]); 3] = [
            ("acme.Zoom", b"Lens[<=3] lenses\nacme.deep.Glass glass\n"),
            ("acme.Lens", b"truncated uint8 x\nvoid8\n"),
            ("acme.deep.Glass", b"float32 index"),
        ];
        assert_eq!(zoom.signature, signatures(&family).unwrap()[0]);
        assert_eq!(name(&types, TransferType::Message, 20000), "acme.Zoom");
        assert_eq!(
            name(&types, TransferType::Request, 200),
            "acme.Turn.Request"
        );
        assert!(types
            .readable(&stream(TransferType::Message, 20000))
            .is_none());
        assert_eq!(types.records().len(), 11 * 13);
    }

    /// Another type under a standard ID is subscribed to in its place, and not read as the standard one.
    #[test]
    fn in_place_of_a_standard_type() {
        let folder = Folder::new("place", &[("acme/341.Other.uavcan", "uint8 x\n")]);
        let (types, _) = folder.types().unwrap();
        assert_eq!(name(&types, TransferType::Message, 341), "acme.Other");
        assert!(types
            .readable(&stream(TransferType::Message, 341))
            .is_none());
        assert_eq!(types.records().len(), 9 * 13);
    }

    #[test]
    fn refused() {
        let of = |name: &str, files: &[(&str, &str)]| Folder::new(name, files).refused();
        assert!(of("wrong", &[("acme/20000.A.uavcan", "uint8 x\nuint8\n")])
            .contains("A.uavcan:2: a type definition is not in the grammar"));
        assert!(of(
            "nested",
            &[("acme/20000.A.uavcan", "B b\n"), ("acme/B.uavcan", "C c\n")]
        )
        .starts_with("41 "));
        assert!(of("circle", &[("acme/20000.A.uavcan", "A a\n")]).starts_with("42 "));
        assert!(of(
            "twins",
            &[("acme/20000.A.uavcan", ""), ("acme/20000.B.uavcan", "")]
        )
        .contains("have one ID, 20000"));
        assert!(of("root", &[("20000.A.uavcan", "")]).contains("does not tell the full name"));
        assert!(
            of("dots", &[("acme/20000.A.B.uavcan", "")]).contains("does not tell the full name")
        );
        assert!(of("letters", &[("acme/x.A.uavcan", "")]).contains("does not tell the full name"));
        assert!(of("sign", &[("acme/+5.A.uavcan", "")]).contains("does not tell the full name"));
        assert!(of("hyphen", &[("my-acme/20000.A.uavcan", "")])
            .contains("A.uavcan: 'my-acme.A' is no full name"));
        assert!(of("nothing", &[("acme/A.uavcan", "")]).contains("no definition with an ID"));
        assert!(of("large", &[("acme/65536.A.uavcan", "")]).contains("the ID is over 65535"));
        assert!(of("service", &[("acme/256.A.uavcan", "---")]).contains("the ID is over 255"));
        assert!(of(
            "long",
            &[("acme/20000.A.uavcan", &"#".repeat(TEXT_MAX + 1))]
        )
        .starts_with("43 "));
        assert!(Folder(PathBuf::from("/nowhere"))
            .refused()
            .contains("cannot read '/nowhere'"));
    }

    #[test]
    fn too_many() {
        let names: Vec<String> = (0..60)
            .map(|at| format!("acme/{}.T{at:02}.uavcan", 20000 + at))
            .collect();
        let files: Vec<(&str, &str)> = names.iter().map(|name| (name.as_str(), "")).collect();
        let folder = Folder::new("many", &files);
        let (types, left_out) = folder.types().unwrap();
        assert_eq!(types.records().len(), SUBSCRIPTIONS_MAX * 13);
        assert_eq!(
            left_out,
            ["acme.T55", "acme.T56", "acme.T57", "acme.T58", "acme.T59"]
        );
    }
}

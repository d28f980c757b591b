//! JSON, written as it comes.

use crate::text;

/// An object whose fields are written one after the other.
pub struct Object<'a> {
    out: &'a mut Vec<u8>,
    first: bool,
}

impl<'a> Object<'a> {
    pub fn new(out: &'a mut Vec<u8>) -> Object<'a> {
        out.push(b'{');
        Object { out, first: true }
    }

    pub fn end(self) {
        self.out.push(b'}');
    }

    /// Where the value of a field goes. Names are the program's own.
    pub fn field(&mut self, name: &str) -> &mut Vec<u8> {
        if !std::mem::take(&mut self.first) {
            self.out.push(b',');
        }
        self.out.push(b'"');
        self.out.extend_from_slice(name.as_bytes());
        self.out.extend_from_slice(b"\":");
        self.out
    }

    pub fn number(&mut self, name: &str, number: impl Into<u64>) {
        text::number(self.field(name), number.into());
    }

    pub fn null(&mut self, name: &str) {
        self.field(name).extend_from_slice(b"null");
    }

    pub fn text(&mut self, name: &str, bytes: impl AsRef<[u8]>) {
        text::json(self.field(name), bytes.as_ref());
    }

    /// A text of the bus that a person will read: what does not print is escaped as `show` does, so that it neither hides nor turns letters.
    pub fn letters(&mut self, name: &str, bytes: &[u8]) {
        let mut letters = Vec::new();
        text::escaped(&mut letters, bytes);
        self.text(name, letters);
    }

    /// Digits, two a byte.
    pub fn hex(&mut self, name: &str, bytes: &[u8]) {
        let out = self.field(name);
        out.push(b'"');
        bytes.iter().for_each(|byte| put!(out, "{byte:02X}"));
        out.push(b'"');
    }

    /// Seconds.
    pub fn time(&mut self, name: &str, time: Option<u64>) {
        match time {
            Some(time) => text::seconds(self.field(name), time),
            None => self.null(name),
        }
    }

    pub fn array<T>(
        &mut self,
        name: &str,
        items: impl IntoIterator<Item = T>,
        mut put: impl FnMut(&mut Vec<u8>, T),
    ) {
        let out = self.field(name);
        out.push(b'[');
        for (place, item) in items.into_iter().enumerate() {
            if place > 0 {
                out.push(b',');
            }
            put(out, item);
        }
        out.push(b']');
    }

    /// An array of objects.
    pub fn objects<T>(
        &mut self,
        name: &str,
        items: impl IntoIterator<Item = T>,
        mut fields: impl FnMut(&mut Object, T),
    ) {
        self.array(name, items, |out, item| {
            let mut object = Object::new(out);
            fields(&mut object, item);
            object.end();
        });
    }

    pub fn object(&mut self, name: &str, fields: impl FnOnce(&mut Object)) {
        let mut object = Object::new(self.field(name));
        fields(&mut object);
        object.end();
    }
}

/// A float; what is no number of JSON is null.
pub fn float(out: &mut Vec<u8>, value: f32) {
    match value.is_finite() {
        true => text::float(out, value),
        false => out.extend_from_slice(b"null"),
    }
}

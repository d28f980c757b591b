//! A whole text and its normalized form (RULES 17.8 and 17.9).

use super::kinds::{
    Kind, DEFINITION_NAME, FEW_AT_END, FEW_AT_MARKER, LONG_NAME, NAME_TWICE, NO_NAMESPACE,
    SECOND_MARKER, SECOND_UNION, UNION_LATE,
};
use super::line::{Cast, Field, Line};
use super::types::{is_dotted_name, Base, Bound, Primitive, Size};
use super::Rules;

#[derive(Clone, Debug, PartialEq, Eq)]
pub struct Definition {
    pub form: Vec<u8>,
    /// The full names of its nested types, one for each field of such a type.
    pub nested: Vec<Vec<u8>>,
    pub is_service: bool,
}

/// The first line at fault, 0 for the name.
#[derive(Clone, Copy, Debug, PartialEq, Eq)]
pub struct Fault {
    pub line: usize,
    pub kind: Kind,
}

/// What was read of the part so far.
#[derive(Default)]
struct Part {
    /// The line of its union directive.
    union: Option<usize>,
    attributes: usize,
    fields: usize,
    names: Vec<Vec<u8>>,
}

impl Rules {
    /// Reads a text; the first line at fault, if it is not in the grammar.
    pub fn definition(&self, name: &[u8], text: &[u8]) -> Result<Definition, Fault> {
        let at = |line| move |kind| Fault { line, kind };
        self.definition_name(name).map_err(at(0))?;
        let mut definition = Definition {
            form: name.to_vec(),
            nested: vec![],
            is_service: false,
        };
        let mut part = Part::default();
        let lines = (self.lines)(text);
        let last = lines.len();
        for (index, line) in lines.into_iter().enumerate() {
            let number = index + self.first_line;
            let line = (self.read)((self.without_comment)(line)).map_err(at(number))?;
            self.next(&mut definition, &mut part, number, &line)
                .map_err(at(number))?;
            if line == Line::Marker {
                self.close(&part, number, FEW_AT_MARKER)?;
                part = Part::default();
            }
            definition.add(self, namespace(name), &line);
        }
        self.close(&part, last, FEW_AT_END)?;
        definition.form.extend(self.form_end);
        Ok(definition)
    }

    fn definition_name(&self, name: &[u8]) -> Result<(), Kind> {
        if !is_dotted_name(name) {
            Err(DEFINITION_NAME)
        } else if !name.contains(&b'.') {
            Err(NO_NAMESPACE)
        } else if name.len() > self.longest_name {
            Err(LONG_NAME)
        } else {
            Ok(())
        }
    }

    /// Adds a line to what was read, if it may come here.
    fn next(
        &self,
        definition: &mut Definition,
        part: &mut Part,
        number: usize,
        line: &Line,
    ) -> Result<(), Kind> {
        match line {
            Line::Marker if definition.is_service => return Err(SECOND_MARKER),
            Line::Marker => definition.is_service = true,
            Line::Union if part.union.is_some() => return Err(SECOND_UNION),
            Line::Union if part.attributes > 0 => return Err(UNION_LATE),
            Line::Union => part.union = Some(number),
            _ => {}
        }
        part.attributes += usize::from((self.is_attribute)(line));
        part.fields += usize::from((self.is_field)(line));
        if let Some(name) = (self.unique_name)(line) {
            if part.names.iter().any(|before| before == name) {
                return Err(NAME_TWICE);
            }
            part.names.push(name.to_vec());
        }
        Ok(())
    }

    /// Judges a part that ends at a line.
    fn close(&self, part: &Part, end: usize, kind: Kind) -> Result<(), Fault> {
        match part.union {
            Some(directive) if part.fields < self.union_fields => Err(Fault {
                line: (self.union_fault)(directive, end),
                kind,
            }),
            _ => Ok(()),
        }
    }
}

impl Definition {
    fn add(&mut self, rules: &Rules, namespace: &[u8], line: &Line) {
        self.form.extend((rules.in_form)(line, namespace));
        if let Line::Field(field) = line {
            self.nested.extend(nested_name(field, namespace));
        }
    }
}

/// What comes before the last dot.
pub fn namespace(name: &[u8]) -> &[u8] {
    let dot = name.iter().rposition(|&byte| byte == b'.');
    &name[..dot.unwrap_or(0)]
}

/// The full name of a field's nested type.
pub fn nested_name(field: &Field, namespace: &[u8]) -> Option<Vec<u8>> {
    match &field.of.base {
        Base::Nested(name) if name.contains(&b'.') => Some(name.clone()),
        Base::Nested(name) => Some([namespace, b".", name].concat()),
        _ => None,
    }
}

/// What a line adds to the form.
pub fn in_form(line: &Line, namespace: &[u8]) -> Vec<u8> {
    match line {
        Line::Nothing | Line::Constant(_) => vec![],
        Line::Marker => b"\n---".to_vec(),
        Line::Union => b"\n@union".to_vec(),
        Line::Padding(word) => [b"\n", word.as_slice()].concat(),
        Line::Field(field) => {
            let size = field.of.size.as_ref().map_or(String::new(), size_in_form);
            let front = match nested_name(field, namespace) {
                Some(name) => name,
                None => primitive_in_form(field),
            };
            [b"\n", front.as_slice(), size.as_bytes(), b" ", &field.name].concat()
        }
    }
}

fn primitive_in_form(field: &Field) -> Vec<u8> {
    let cast = match field.cast {
        Some(Cast::Truncated) => "truncated",
        _ => "saturated",
    };
    let base = match field.of.base {
        Base::Primitive(Primitive::Int(width)) => format!("int{width}"),
        Base::Primitive(Primitive::Uint(width)) => format!("uint{width}"),
        Base::Primitive(Primitive::Float(width)) => format!("float{width}"),
        _ => "bool".to_string(),
    };
    format!("{cast} {base}").into_bytes()
}

fn size_in_form(size: &Size) -> String {
    match size.bound {
        Bound::Exactly => format!("[{}]", size.most.decimal()),
        _ => format!("[<={}]", size.most.decimal()),
    }
}

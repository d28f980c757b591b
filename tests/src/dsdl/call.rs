//! Several definitions, their nesting and their signatures, and the call over lent bytes
//! (RULES 13.3 and 17.10 to 17.12).

use super::definition::Definition;
use super::kinds::{
    Kind, CHAIN, CIRCLE, EQUAL_NAMES, FEW_RECORDS, IN_ITSELF, NESTED_SERVICE, NOT_GIVEN,
    PAST_THE_SOURCE, SHORT_OUTPUT, TOO_LONG, TOO_MANY,
};
use super::Rules;
use crate::crc::{extend, hash};

/// A length, of a name or of a text.
pub const LENGTH_SIZE: usize = 4;
/// The length of a form and a signature.
pub const RECORD_SIZE: usize = 12;

/// A name and a text.
pub type Given<'a> = (&'a [u8], &'a [u8]);

#[derive(Clone, Debug, PartialEq, Eq)]
pub struct Signed {
    pub form: Vec<u8>,
    pub signature: u64,
}

#[derive(Clone, Copy, Debug, PartialEq, Eq)]
pub struct Refusal {
    pub number: u8,
    pub kind: Kind,
    /// Under 40 the definition, counted from 1, and its line; else both are 0.
    pub definition: usize,
    pub line: usize,
}

fn refusal(number: u8, kind: Kind) -> Refusal {
    Refusal {
        number,
        kind,
        definition: 0,
        line: 0,
    }
}

impl Refusal {
    pub fn word(&self) -> u64 {
        u64::from(self.number) | (self.definition as u64) << 8 | (self.line as u64) << 16
    }
}

/// The definitions in a source, by a list of lengths; nothing if they reach past its end.
pub fn given<'a>(source: &'a [u8], lengths: &[u8]) -> Option<Vec<Given<'a>>> {
    let mut rest = source;
    let pairs = lengths.chunks_exact(2 * LENGTH_SIZE);
    pairs
        .map(|pair| {
            let (name, text) = pair.split_at(LENGTH_SIZE);
            Some((taken(&mut rest, name)?, taken(&mut rest, text)?))
        })
        .collect()
}

fn taken<'a>(rest: &mut &'a [u8], length: &[u8]) -> Option<&'a [u8]> {
    let length = u32::from_le_bytes(length.try_into().ok()?) as usize;
    let (front, back) = rest.split_at_checked(length)?;
    *rest = back;
    Some(front)
}

/// The hash of a form, extended by the signatures of its nested types.
pub fn signature(own: u64, nested: &[u64]) -> u64 {
    nested.iter().copied().fold(own, extend)
}

impl Rules {
    /// The call as C makes it: the result word.
    pub fn call(&self, source: &[u8], lengths: &[u8], out: &mut [u8], records: &mut [u8]) -> u64 {
        let answer = self.answer(source, lengths, out.len(), records.len());
        told(&answer, out, records)
    }

    /// What the call answers with so many bytes of output and of records.
    pub fn answer(
        &self,
        source: &[u8],
        lengths: &[u8],
        out: usize,
        records: usize,
    ) -> Result<Vec<Signed>, Refusal> {
        if lengths.len() / (2 * LENGTH_SIZE) > self.most_definitions {
            return Err(refusal(43, TOO_MANY));
        }
        let given = given(source, lengths).ok_or(refusal(43, PAST_THE_SOURCE))?;
        let signed = self.signatures(&given)?;
        if signed.iter().map(|one| one.form.len()).sum::<usize>() > out {
            return Err(refusal(8, SHORT_OUTPUT));
        }
        if signed.len() > records / RECORD_SIZE {
            return Err(refusal(8, FEW_RECORDS));
        }
        Ok(signed)
    }

    /// The forms and signatures, whatever the room.
    pub fn signatures(&self, given: &[Given]) -> Result<Vec<Signed>, Refusal> {
        self.check_given(given)?;
        let definitions = self.definitions(given)?;
        let nesting = self.nesting(given, &definitions)?;
        self.check_chains(&nesting)?;
        let mut known = vec![None; definitions.len()];
        Ok((0..definitions.len())
            .map(|index| Signed {
                form: definitions[index].form.clone(),
                signature: self.signature_of(index, &definitions, &nesting, &mut known),
            })
            .collect())
    }

    /// 43, but for lengths past the source.
    fn check_given(&self, given: &[Given]) -> Result<(), Refusal> {
        if given.len() > self.most_definitions {
            return Err(refusal(43, TOO_MANY));
        }
        if given.iter().any(|(_, text)| text.len() > self.longest_text) {
            return Err(refusal(43, TOO_LONG));
        }
        let names = given.iter().map(|(name, _)| name).enumerate();
        for (index, name) in names {
            if given[..index].iter().any(|(before, _)| before == name) {
                return Err(refusal(43, EQUAL_NAMES));
            }
        }
        Ok(())
    }

    /// 40.
    fn definitions(&self, given: &[Given]) -> Result<Vec<Definition>, Refusal> {
        let numbered = given.iter().zip(1..);
        numbered
            .map(|((name, text), definition)| {
                self.definition(name, text).map_err(|fault| Refusal {
                    number: 40,
                    kind: fault.kind,
                    definition,
                    line: fault.line,
                })
            })
            .collect()
    }

    /// The indexes of each definition's nested types; 41.
    fn nesting(
        &self,
        given: &[Given],
        definitions: &[Definition],
    ) -> Result<Vec<Vec<usize>>, Refusal> {
        let found = |wanted: &Vec<u8>| {
            let index = given.iter().position(|(name, _)| name == wanted);
            let index = index.ok_or(refusal(41, NOT_GIVEN))?;
            if (self.may_be_nested)(&definitions[index]) {
                Ok(index)
            } else {
                Err(refusal(41, NESTED_SERVICE))
            }
        };
        definitions
            .iter()
            .map(|definition| definition.nested.iter().map(found).collect())
            .collect()
    }

    /// 42: which definitions begin a chain, by its length.
    fn check_chains(&self, nesting: &[Vec<usize>]) -> Result<(), Refusal> {
        let longer = |begin: Vec<bool>| -> Vec<bool> {
            let nests = |nested: &Vec<usize>| nested.iter().any(|&index| begin[index]);
            nesting.iter().map(nests).collect()
        };
        let begin =
            (0..self.longest_chain).fold(vec![true; nesting.len()], |begin, _| longer(begin));
        if begin.contains(&true) {
            return Err(refusal(42, chain_kind(nesting)));
        }
        Ok(())
    }

    /// Each is worked out once.
    fn signature_of(
        &self,
        index: usize,
        definitions: &[Definition],
        nesting: &[Vec<usize>],
        known: &mut Vec<Option<u64>>,
    ) -> u64 {
        if let Some(signature) = known[index] {
            return signature;
        }
        let nested: Vec<u64> = nesting[index]
            .iter()
            .map(|&inner| self.signature_of(inner, definitions, nesting, known))
            .collect();
        let signature = (self.signature)(hash(&definitions[index].form), &nested);
        known[index] = Some(signature);
        signature
    }
}

/// Why there is a chain that is too long: what is nested in what, in any number of steps.
fn chain_kind(nesting: &[Vec<usize>]) -> Kind {
    let itself = |(index, nested): (usize, &Vec<usize>)| nested.contains(&index);
    if nesting.iter().enumerate().any(itself) {
        return IN_ITSELF;
    }
    let mut within: Vec<Vec<bool>> = nesting
        .iter()
        .map(|nested| {
            (0..nesting.len())
                .map(|index| nested.contains(&index))
                .collect()
        })
        .collect();
    for middle in 0..nesting.len() {
        let through = within[middle].clone();
        for inner in within.iter_mut().filter(|inner| inner[middle]) {
            inner
                .iter_mut()
                .zip(&through)
                .for_each(|(one, more)| *one |= more);
        }
    }
    let circle = (0..nesting.len()).any(|index| within[index][index]);
    if circle {
        CIRCLE
    } else {
        CHAIN
    }
}

/// Writes an answer into lent bytes, and gives its word.
pub fn told(answer: &Result<Vec<Signed>, Refusal>, out: &mut [u8], records: &mut [u8]) -> u64 {
    match answer {
        Err(refusal) => refusal.word(),
        Ok(signed) => {
            write(signed, out, records);
            0
        }
    }
}

/// The forms one after another, and a record for each.
fn write(signed: &[Signed], out: &mut [u8], records: &mut [u8]) {
    let mut at = 0;
    for (one, record) in signed.iter().zip(records.chunks_exact_mut(RECORD_SIZE)) {
        let length = one.form.len();
        out[at..at + length].copy_from_slice(&one.form);
        at += length;
        let (front, back) = record.split_at_mut(LENGTH_SIZE);
        front.copy_from_slice(&(length as u32).to_le_bytes());
        back.copy_from_slice(&one.signature.to_le_bytes());
    }
}

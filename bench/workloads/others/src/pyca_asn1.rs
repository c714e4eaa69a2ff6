//! The crate asn1 of pyca, whose octets are borrowed.
use asn1::{BigInt, BitString, ObjectIdentifier, ParseError, ParseErrorKind, ParseResult};
use asn1::{Parser, Tlv};
use std::cell::Cell;
use std::hint::black_box;

const SEQUENCE: u8 = 0x30;
const SET: u8 = 0x31;

fn next<'a>(from: &mut Parser<'a>) -> ParseResult<Tlv<'a>> {
    from.read_element::<Tlv>()
}

fn has_tag(value: &Tlv, tag: u8) -> bool {
    value.tag().as_u8() == Some(tag)
}

/// Reads what is inside a value with a tag.
fn inside<'a, T>(
    value: Tlv<'a>,
    tag: u8,
    read: impl FnOnce(&mut Parser<'a>) -> ParseResult<T>,
) -> ParseResult<T> {
    if !has_tag(&value, tag) {
        return Err(ParseError::new(ParseErrorKind::InvalidValue));
    }
    // (the parser's closure may be called more than once, as far as its type says)
    let read = Cell::new(Some(read));
    asn1::parse(value.data(), |from| (read.take().unwrap())(from))
}

fn sequence<'a, T>(
    from: &mut Parser<'a>,
    read: impl FnOnce(&mut Parser<'a>) -> ParseResult<T>,
) -> ParseResult<T> {
    let value = next(from)?;
    inside(value, SEQUENCE, read)
}

fn name<'a>(from: &mut Parser<'a>) -> ParseResult<Vec<(ObjectIdentifier, &'a [u8])>> {
    sequence(from, |from| {
        let mut name = Vec::new();
        while !from.is_empty() {
            let set = next(from)?;
            inside(set, SET, |from| {
                while !from.is_empty() {
                    sequence(from, |from| {
                        let kind = from.read_element::<ObjectIdentifier>()?;
                        name.push((kind, next(from)?.data()));
                        Ok(())
                    })?;
                }
                Ok(())
            })?;
        }
        Ok(name)
    })
}

/// The identifier of an algorithm, whose parameters are passed.
fn algorithm(from: &mut Parser) -> ParseResult<ObjectIdentifier> {
    sequence(from, |from| {
        let algorithm = from.read_element::<ObjectIdentifier>()?;
        if !from.is_empty() {
            next(from)?;
        }
        Ok(algorithm)
    })
}

/// The lengths of the names of hosts in the contents of an extension, added up.
fn hosts(octets: &[u8]) -> ParseResult<usize> {
    let hosts = asn1::parse(octets, |from| {
        sequence(from, |from| {
            let mut hosts = Vec::new();
            while !from.is_empty() {
                let value = next(from)?;
                if has_tag(&value, 0x82) {
                    hosts.push(value.data());
                }
            }
            Ok(hosts)
        })
    })?;
    Ok(hosts.iter().map(|it| it.len()).sum())
}

fn extensions(from: &mut Parser, alt_name: &ObjectIdentifier) -> ParseResult<usize> {
    sequence(from, |from| {
        let mut sum = 0;
        while !from.is_empty() {
            sum += sequence(from, |from| {
                let kind = from.read_element::<ObjectIdentifier>()?;
                from.read_element::<Option<bool>>()?;
                let value = from.read_element::<&[u8]>()?;
                if kind == *alt_name {
                    hosts(value)
                } else {
                    Ok(0)
                }
            })?;
        }
        Ok(sum)
    })
}

/// What is inside the SEQUENCE that is signed. Its identifiers are read, but not added to the sum.
fn signed(from: &mut Parser, alt_name: &ObjectIdentifier) -> ParseResult<usize> {
    sequence(from, |from| {
        let mut value = next(from)?;
        if has_tag(&value, 0xA0) {
            value = next(from)?;
        }
        let mut sum = value.data().len();
        algorithm(from)?;
        let issuer = name(from)?;
        sequence(from, |from| {
            sum += next(from)?.data().len();
            sum += next(from)?.data().len();
            Ok(())
        })?;
        let subject = name(from)?;
        for (_, text) in black_box(&issuer).iter().chain(black_box(&subject)) {
            sum += text.len();
        }
        sequence(from, |from| {
            black_box(algorithm(from)?);
            sum += from.read_element::<BitString>()?.as_bytes().len();
            Ok(())
        })?;
        while !from.is_empty() {
            let value = next(from)?;
            if has_tag(&value, 0xA3) {
                sum += inside(value, 0xA3, |from| extensions(from, alt_name))?;
            }
        }
        Ok(sum)
    })
}

pub fn certificates(octets: &[u8]) -> ParseResult<usize> {
    let alt_name = ObjectIdentifier::from_string("2.5.29.17").unwrap();
    asn1::parse(octets, |from| {
        let mut sum = 0;
        while !from.is_empty() {
            sum += sequence(from, |from| {
                let sum = signed(from, &alt_name)?;
                algorithm(from)?;
                from.read_element::<BitString>()?;
                Ok(sum)
            })?;
        }
        Ok(sum)
    })
}

/// An extension of an entry.
struct Extension<'a> {
    id: &'a [u8],
    critical: bool,
    value: &'a [u8],
}

impl Extension<'_> {
    /// The octets of its encoding, all of whose lengths are short.
    fn encoded_len(&self) -> usize {
        self.id.len() + self.value.len() + if self.critical { 9 } else { 6 }
    }
}

fn entry_extensions<'a>(from: &mut Parser<'a>) -> ParseResult<Vec<Extension<'a>>> {
    sequence(from, |from| {
        let mut extensions = Vec::new();
        while !from.is_empty() {
            extensions.push(sequence(from, |from| {
                let id = next(from)?.data();
                let critical = from.read_element::<Option<bool>>()?.unwrap_or(false);
                let value = from.read_element::<&[u8]>()?;
                Ok(Extension { id, critical, value })
            })?);
        }
        Ok(extensions)
    })
}

struct Entry<'a> {
    serial: BigInt<'a>,
    date: &'a [u8],
    extensions: Option<Vec<Extension<'a>>>,
}

impl Entry<'_> {
    fn sum(&self) -> usize {
        let more: usize = self.extensions.iter().flatten().map(Extension::encoded_len).sum();
        self.serial.as_bytes().len() + self.date.len() + more
    }
}

fn entry<'a>(from: &mut Parser<'a>) -> ParseResult<Entry<'a>> {
    sequence(from, |from| {
        let serial = from.read_element::<BigInt>()?;
        let date = next(from)?.data();
        let extensions = if from.is_empty() {
            None
        } else {
            Some(entry_extensions(from)?)
        };
        Ok(Entry { serial, date, extensions })
    })
}

fn entries(from: &mut Parser, keep: bool) -> ParseResult<usize> {
    sequence(from, |from| {
        if !keep {
            let mut sum = 0;
            while !from.is_empty() {
                sum += entry(from)?.sum();
            }
            return Ok(sum);
        }
        let mut entries = Vec::new();
        while !from.is_empty() {
            entries.push(entry(from)?);
        }
        Ok(black_box(&entries).iter().map(Entry::sum).sum())
    })
}

pub fn list(octets: &[u8], keep: bool) -> ParseResult<usize> {
    asn1::parse(octets, |from| {
        sequence(from, |from| {
            let sum = sequence(from, |from| {
                next(from)?;
                algorithm(from)?;
                name(from)?;
                next(from)?;
                next(from)?;
                let sum = entries(from, keep)?;
                next(from)?;
                Ok(sum)
            })?;
            algorithm(from)?;
            next(from)?;
            Ok(sum)
        })
    })
}

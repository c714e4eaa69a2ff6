//! The Rust crate bcder 0.7.7.
use bcder::decode::{self, BytesSource, Constructed, DecodeError, Source};
use bcder::encode::{self, PrimitiveContent, Values};
use bcder::{BitString, Captured, Integer, Mode, OctetString, Oid, Tag};
use bytes::Bytes;
use std::convert::Infallible;
use std::hint::black_box;

type Taken<T, S> = Result<T, DecodeError<<S as Source>::Error>>;

struct Attribute {
    kind: Oid<Bytes>,
    text: Bytes,
}

struct Certificate {
    serial: Integer,
    issuer: Vec<Attribute>,
    from: Bytes,
    to: Bytes,
    subject: Vec<Attribute>,
    algorithm: Oid<Bytes>,
    key: BitString,
    hosts: Vec<Bytes>,
}

impl Certificate {
    fn sum(&self) -> usize {
        let names = self.issuer.iter().chain(&self.subject);
        self.serial.as_slice().len()
            + self.from.len()
            + self.to.len()
            + names
                .map(|it| it.kind.0.len() + it.text.len())
                .sum::<usize>()
            + self.hosts.iter().map(|it| it.len()).sum::<usize>()
            + self.algorithm.0.len()
            + self.key.octet_len()
    }
}

fn walk<S: Source>(cons: &mut Constructed<S>) -> Taken<Option<()>, S> {
    cons.take_opt_value(|_, content| match content {
        decode::Content::Primitive(octets) => octets.skip_all(),
        decode::Content::Constructed(cons) => {
            while walk(cons)?.is_some() {}
            Ok(())
        }
    })
}

fn skip_algorithm<S: Source>(cons: &mut Constructed<S>) -> Taken<(), S> {
    cons.take_sequence(|cons| {
        cons.take_primitive_if(Tag::OID, |octets| octets.skip_all())?;
        walk(cons)?;
        Ok(())
    })
}

fn take_text<S: Source>(cons: &mut Constructed<S>) -> Taken<Bytes, S> {
    cons.take_primitive(|_, octets| octets.take_all())
}

fn take_name<S: Source>(cons: &mut Constructed<S>) -> Taken<Vec<Attribute>, S> {
    cons.take_sequence(|cons| {
        let mut name = Vec::new();
        while cons
            .take_opt_set(|cons| take_set(cons, &mut name))?
            .is_some()
        {}
        Ok(name)
    })
}

fn take_set<S: Source>(cons: &mut Constructed<S>, name: &mut Vec<Attribute>) -> Taken<(), S> {
    while let Some(attribute) = cons.take_opt_sequence(|cons| {
        let kind = Oid::take_from(cons)?;
        let text = take_text(cons)?;
        Ok(Attribute { kind, text })
    })? {
        name.push(attribute);
    }
    Ok(())
}

fn take_hosts(octets: Bytes) -> Result<Vec<Bytes>, DecodeError<Infallible>> {
    Mode::Der.decode(octets, |cons| {
        cons.take_sequence(|cons| {
            let mut hosts = Vec::new();
            loop {
                if let Some(host) = cons.take_opt_primitive_if(Tag::CTX_2, |it| it.take_all())? {
                    hosts.push(host);
                } else if walk(cons)?.is_none() {
                    return Ok(hosts);
                }
            }
        })
    })
}

fn take_extensions<S: Source>(cons: &mut Constructed<S>) -> Taken<Vec<Bytes>, S> {
    let mut hosts = Vec::new();
    while let Some((kind, value)) = cons.take_opt_sequence(|cons| {
        let kind = Oid::take_from(cons)?;
        cons.take_opt_bool()?;
        let value = OctetString::take_from(cons)?;
        Ok((kind, value))
    })? {
        if kind == Oid(&[85u8, 29, 17]) {
            hosts = take_hosts(value.to_bytes()).map_err(|error| error.convert())?;
        }
    }
    Ok(hosts)
}

fn take_parts<S: Source>(cons: &mut Constructed<S>) -> Taken<Certificate, S> {
    cons.take_opt_constructed_if(Tag::CTX_0, |cons| cons.take_u8())?;
    let serial = Integer::take_from(cons)?;
    skip_algorithm(cons)?;
    let issuer = take_name(cons)?;
    let (from, to) = cons.take_sequence(|cons| Ok((take_text(cons)?, take_text(cons)?)))?;
    let subject = take_name(cons)?;
    let (algorithm, key) = cons.take_sequence(|cons| {
        let algorithm = cons.take_sequence(|cons| {
            let algorithm = Oid::take_from(cons)?;
            walk(cons)?;
            Ok(algorithm)
        })?;
        Ok((algorithm, BitString::take_from(cons)?))
    })?;
    cons.take_opt_primitive_if(Tag::CTX_1, |octets| octets.skip_all())?;
    cons.take_opt_primitive_if(Tag::CTX_2, |octets| octets.skip_all())?;
    let hosts =
        cons.take_opt_constructed_if(Tag::CTX_3, |cons| cons.take_sequence(take_extensions))?;
    Ok(Certificate {
        serial,
        issuer,
        from,
        to,
        subject,
        algorithm,
        key,
        hosts: hosts.unwrap_or_default(),
    })
}

fn take_opt_certificate<S: Source>(cons: &mut Constructed<S>) -> Taken<Option<Certificate>, S> {
    cons.take_opt_sequence(|cons| {
        let certificate = cons.take_sequence(take_parts)?;
        skip_algorithm(cons)?;
        BitString::skip_in(cons)?;
        Ok(certificate)
    })
}

fn certificates<S: Source>(cons: &mut Constructed<S>) -> Taken<usize, S> {
    let mut sum = 0;
    while let Some(certificate) = take_opt_certificate(cons)? {
        sum += black_box(&certificate).sum();
    }
    Ok(sum)
}

struct Entry {
    serial: Integer,
    date: Bytes,
    more: Option<Captured>,
}

impl Entry {
    fn sum(&self) -> usize {
        let more = self.more.as_ref().map_or(0, |it| it.as_slice().len());
        self.serial.as_slice().len() + self.date.len() + more
    }
}

fn take_opt_entry<S: Source>(cons: &mut Constructed<S>) -> Taken<Option<Entry>, S> {
    cons.take_opt_sequence(|cons| {
        let serial = Integer::take_from(cons)?;
        let date = take_text(cons)?;
        let more = cons.take_opt_sequence(|cons| cons.capture_all())?;
        Ok(Entry { serial, date, more })
    })
}

fn entries<S: Source>(cons: &mut Constructed<S>, keep: bool) -> Taken<usize, S> {
    cons.take_sequence(|cons| {
        if !keep {
            let mut sum = 0;
            while let Some(entry) = take_opt_entry(cons)? {
                sum += entry.sum();
            }
            return Ok(sum);
        }
        let mut entries = Vec::new();
        while let Some(entry) = take_opt_entry(cons)? {
            entries.push(entry);
        }
        Ok(black_box(&entries).iter().map(Entry::sum).sum())
    })
}

fn list<S: Source>(cons: &mut Constructed<S>, keep: bool) -> Taken<usize, S> {
    cons.take_sequence(|cons| {
        let sum = cons.take_sequence(|cons| {
            cons.take_opt_primitive_if(Tag::INTEGER, |octets| octets.to_u8())?;
            skip_algorithm(cons)?;
            take_name(cons)?;
            take_text(cons)?;
            take_text(cons)?;
            let sum = entries(cons, keep)?;
            cons.skip_all()?;
            Ok(sum)
        })?;
        skip_algorithm(cons)?;
        BitString::skip_in(cons)?;
        Ok(sum)
    })
}

fn content<S: Source>(cons: &mut Constructed<S>) -> Taken<OctetString, S> {
    cons.take_sequence(|cons| {
        Oid::skip_in(cons)?;
        cons.take_constructed_if(Tag::CTX_0, |cons| {
            cons.take_sequence(|cons| {
                cons.take_u8()?;
                walk(cons)?;
                let content = cons.take_sequence(|cons| {
                    Oid::skip_in(cons)?;
                    cons.take_constructed_if(Tag::CTX_0, |cons| OctetString::take_from(cons))
                })?;
                while walk(cons)?.is_some() {}
                Ok(content)
            })
        })
    })
}

fn looped<S: Source>(cons: &mut Constructed<S>, name: &str) -> Taken<usize, S> {
    let mut sum = 0;
    match name {
        "bool" => {
            while let Some(read) = cons.take_opt_bool()? {
                sum += read as usize;
            }
        }
        "u32" => {
            while let Some(read) = cons.take_opt_u32()? {
                sum += (read == 5) as usize;
            }
        }
        _ => {
            while let Some(read) =
                cons.take_opt_primitive_if(Tag::INTEGER, |octets| octets.to_i64())?
            {
                sum += (read == 5) as usize;
            }
        }
    }
    Ok(sum)
}

fn take_deep<S: Source>(cons: &mut Constructed<S>) -> Taken<u8, S> {
    cons.take_sequence(|cons| cons.take_sequence(|cons| cons.take_sequence(|cons| cons.take_u8())))
}

/// Small values, each decoded or written by a call of its own.
fn small(name: &str, octets: &[u8]) -> usize {
    let mut sum = 0;
    match name {
        "small-decode" => {
            for one in octets.chunks(3) {
                sum += Mode::Der.decode(one, |cons| cons.take_u8()).unwrap_or(0) as usize;
            }
        }
        "small-refuse" => {
            for one in octets.chunks(3) {
                sum += Mode::Der.decode(one, |cons| cons.take_bool()).is_err() as usize;
            }
        }
        "small-deep" => {
            for one in octets.chunks(9) {
                sum += Mode::Der.decode(one, |cons| take_deep(cons)).unwrap_or(0) as usize;
            }
        }
        _ => {
            let mut target: Vec<u8> = Vec::new();
            for one in octets {
                target.clear();
                let pair = encode::sequence(((*one as u32).encode(), true.encode()));
                if pair.write_encoded(Mode::Der, &mut target).is_ok() {
                    sum += target.len();
                }
            }
        }
    }
    sum
}

pub fn sum(name: &str, octets: &Bytes) -> Option<usize> {
    let source = BytesSource::new(octets.clone());
    match name {
        "certs" => Mode::Der.decode(source, |cons| certificates(cons)).ok(),
        "crl" => Mode::Der.decode(source, |cons| list(cons, false)).ok(),
        "crl-keep" => Mode::Der.decode(source, |cons| list(cons, true)).ok(),
        "cms" | "cms-sum" | "cms-flat" => {
            let content = Mode::Ber.decode(source, |cons| content(cons)).ok()?;
            Some(match name {
                "cms" => content.iter().map(|it| it.len()).sum(),
                "cms-sum" => content
                    .iter()
                    .map(|it| it.iter().map(|octet| *octet as usize).sum::<usize>())
                    .sum(),
                _ => content.to_bytes().len(),
            })
        }
        _ if name.starts_with("small") => Some(small(name, octets)),
        _ => Mode::Ber.decode(source, |cons| looped(cons, name)).ok(),
    }
}

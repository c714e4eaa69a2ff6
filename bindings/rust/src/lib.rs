//! Reads BER, CER and DER (ITU-T X.690), accepted exactly as the rules say.
//!
//! Headers, lengths and contents octets are read by a static library whose functions are proved to
//! meet their contracts. This crate calls it, and isn't proved itself. It lends what it reads:
//! values borrow from the input. Memory is needed for constructed values alone, while they are
//! checked.
//!
//! ```
//! use bcder_verified::{Reader, Rules};
//!
//! # fn main() -> Result<(), bcder_verified::Error> {
//! let data = [0x30, 0x06, 0x02, 0x01, 0x05, 0x01, 0x01, 0xFF];
//! let (number, truth) = Reader::new(Rules::Der, &data).all(|reader| {
//!     reader.sequence(|reader| Ok((reader.i64()?, reader.bool()?)))
//! })?;
//! assert_eq!((number, truth), (5, true));
//! # Ok(())
//! # }
//! ```
#![no_std]
#![warn(missing_docs)]

use core::fmt;

mod ffi {
    #[repr(C)]
    #[derive(Default)]
    pub struct Heading {
        pub size: usize,
        pub len: usize,
        pub number: u32,
        pub class: u8,
        pub constructed: bool,
        pub indefinite: bool,
    }

    #[repr(C)]
    #[derive(Default)]
    pub struct Checked {
        pub at: usize,
        pub values: usize,
        pub depth: usize,
    }

    // `include/bcder.h` says what these do. Octets are read alone, and each result is stored where
    // its reference points.
    extern "C" {
        pub fn bcder_heading(rules: u8, data: *const u8, len: usize, heading: &mut Heading) -> u8;
        pub fn bcder_end(rules: u8, data: *const u8, len: usize, size: &mut usize) -> u8;
        pub fn bcder_value(rules: u8, data: *const u8, len: usize, checked: &mut Checked) -> u8;
        pub fn bcder_check(rules: u8, data: *const u8, len: usize, checked: &mut Checked) -> u8;
        pub fn bcder_check_within(
            rules: u8,
            data: *const u8,
            len: usize,
            levels: usize,
            checked: &mut Checked,
        ) -> u8;
        pub fn bcder_check_on(
            rules: u8,
            data: *const u8,
            len: usize,
            stack: *mut usize,
            room: usize,
            checked: &mut Checked,
        ) -> u8;
        pub fn bcder_convert(
            from: u8,
            to: u8,
            data: *const u8,
            len: usize,
            buffer: *mut u8,
            room: usize,
            size: &mut usize,
        ) -> u8;
        pub fn bcder_bool(rules: u8, data: *const u8, len: usize, truth: &mut bool) -> u8;
        pub fn bcder_null(data: *const u8, len: usize) -> u8;
        pub fn bcder_i64(data: *const u8, len: usize, number: &mut i64) -> u8;
        pub fn bcder_u64(data: *const u8, len: usize, number: &mut u64) -> u8;
        pub fn bcder_integer(data: *const u8, len: usize, negative: &mut bool) -> u8;
        pub fn bcder_magnitude(
            data: *const u8,
            len: usize,
            buffer: *mut u8,
            room: usize,
            size: &mut usize,
        ) -> u8;
        pub fn bcder_string(
            rules: u8,
            constructed: bool,
            data: *const u8,
            len: usize,
            buffer: *mut u8,
            room: usize,
            size: &mut usize,
        ) -> u8;
        pub fn bcder_bits(rules: u8, data: *const u8, len: usize, unused: &mut u8) -> u8;
        pub fn bcder_oid(data: *const u8, len: usize) -> u8;
        pub fn bcder_oid_text(
            data: *const u8,
            len: usize,
            buffer: *mut u8,
            room: usize,
            size: &mut usize,
        ) -> u8;
        pub fn bcder_utf8(data: *const u8, len: usize) -> u8;
        pub fn bcder_numeric(data: *const u8, len: usize) -> u8;
        pub fn bcder_printable(data: *const u8, len: usize) -> u8;
        pub fn bcder_ia5(data: *const u8, len: usize) -> u8;
    }
}

/// A set of encoding rules of X.690.
#[derive(Clone, Copy, Debug, PartialEq, Eq, Hash)]
#[repr(u8)]
pub enum Rules {
    /// The basic rules.
    Ber = 0,
    /// The canonical rules.
    Cer = 1,
    /// The distinguished rules.
    Der = 2,
}

/// The class of a tag (X.690, 8.1.2.2).
#[derive(Clone, Copy, Debug, PartialEq, Eq, PartialOrd, Ord, Hash)]
#[repr(u8)]
pub enum Class {
    /// Types of X.680.
    Universal = 0,
    /// Types of an application.
    Application = 1,
    /// Types that depend on what is around them.
    Context = 2,
    /// Types of an enterprise.
    Private = 3,
}

/// The tag of a value: its class and its number.
#[derive(Clone, Copy, Debug, PartialEq, Eq, PartialOrd, Ord, Hash)]
pub struct Tag {
    /// The class.
    pub class: Class,
    /// The number, at most 2,097,151.
    pub number: u32,
}

impl Tag {
    /// BOOLEAN.
    pub const BOOLEAN: Tag = Tag::universal(1);
    /// INTEGER.
    pub const INTEGER: Tag = Tag::universal(2);
    /// BIT STRING.
    pub const BIT_STRING: Tag = Tag::universal(3);
    /// OCTET STRING.
    pub const OCTET_STRING: Tag = Tag::universal(4);
    /// NULL.
    pub const NULL: Tag = Tag::universal(5);
    /// OBJECT IDENTIFIER.
    pub const OID: Tag = Tag::universal(6);
    /// UTF8String.
    pub const UTF8_STRING: Tag = Tag::universal(12);
    /// SEQUENCE.
    pub const SEQUENCE: Tag = Tag::universal(16);
    /// SET.
    pub const SET: Tag = Tag::universal(17);
    /// NumericString.
    pub const NUMERIC_STRING: Tag = Tag::universal(18);
    /// PrintableString.
    pub const PRINTABLE_STRING: Tag = Tag::universal(19);
    /// IA5String.
    pub const IA5_STRING: Tag = Tag::universal(22);

    /// Returns a tag of the class universal.
    pub const fn universal(number: u32) -> Tag {
        Tag { class: Class::Universal, number }
    }

    /// Returns a tag of the class context-specific.
    pub const fn context(number: u32) -> Tag {
        Tag { class: Class::Context, number }
    }
}

/// Why octets are refused.
#[derive(Clone, Copy, Debug, PartialEq, Eq, Hash)]
#[non_exhaustive]
pub enum ErrorKind {
    /// Memory ran out, for a constructed value.
    NoMemory,
    /// No header of a value is there that the rules allow, or nothing.
    Absent,
    /// A header gives a value more contents octets than there are.
    Beyond,
    /// The octets end where a value or its end has to follow.
    Ended,
    /// A value is inside more others than were allowed.
    TooDeep,
    /// The value has another tag, or the other form.
    OtherTag,
    /// The contents octets are not those of a value of the type.
    Contents,
    /// Values are left that nobody read.
    Left,
    /// The buffer has no room for what is to be stored.
    TooSmall,
    /// A value is not converted to the other rules.
    NotConverted,
}

/// Why octets were refused, and where.
#[derive(Clone, Copy, Debug, PartialEq, Eq)]
pub struct Error {
    /// Why.
    pub kind: ErrorKind,
    /// The octet of the input at which that was seen.
    pub offset: usize,
}

impl fmt::Display for Error {
    fn fmt(&self, f: &mut fmt::Formatter<'_>) -> fmt::Result {
        let text = match self.kind {
            ErrorKind::NoMemory => "out of memory",
            ErrorKind::Absent => "no header of a value that the rules allow",
            ErrorKind::Beyond => "a value with more contents octets than there are",
            ErrorKind::Ended => "the octets end inside a value",
            ErrorKind::TooDeep => "a value inside more others than are allowed",
            ErrorKind::OtherTag => "a value of another type",
            ErrorKind::Contents => "contents octets that the type does not allow",
            ErrorKind::Left => "values that nobody read",
            ErrorKind::TooSmall => "more octets than the buffer has room for",
            ErrorKind::NotConverted => "a value that is not converted to the other rules",
        };
        write!(f, "octet {}: {text}", self.offset)
    }
}

impl core::error::Error for Error {}

/// Returns the result of a call of the library that stores where it stopped.
fn passed(status: u8, offset: usize) -> Result<(), Error> {
    let kind = match status {
        0 => return Ok(()),
        2 => ErrorKind::NoMemory,
        4 => ErrorKind::Beyond,
        5 => ErrorKind::Ended,
        6 => ErrorKind::TooDeep,
        _ => ErrorKind::Absent,
    };
    Err(Error { kind, offset })
}

/// The status of a call whose buffer has no room for what is to be stored.
const TOO_SMALL: u8 = 9;

/// How many values octets encode.
#[derive(Clone, Copy, Debug, PartialEq, Eq)]
pub struct Checked {
    /// The number of values, with those inside others.
    pub values: usize,
    /// How many are one inside the other, at most.
    pub depth: usize,
}

/// Checks that all octets are encodings of values, one after the other.
///
/// Contents octets are not looked at.
///
/// # Errors
///
/// Returns an error at the octet where a value ends before its length says so, or none begins; or
/// if memory runs out.
pub fn check(rules: Rules, data: &[u8]) -> Result<Checked, Error> {
    let mut checked = ffi::Checked::default();
    // SAFETY: a slice's pointer and length; what is stored goes to an exclusive reference.
    let status =
        unsafe { ffi::bcder_check(rules as u8, data.as_ptr(), data.len(), &mut checked) };
    passed(status, checked.at)?;
    Ok(Checked { values: checked.values, depth: checked.depth })
}

/// The same, for values none of which is inside `levels` others or more.
///
/// # Errors
///
/// Those of [`check`], and [`ErrorKind::TooDeep`] at the first value that is.
pub fn check_within(rules: Rules, data: &[u8], levels: usize) -> Result<Checked, Error> {
    let mut checked = ffi::Checked::default();
    // SAFETY: as in `check`.
    let status = unsafe {
        ffi::bcder_check_within(rules as u8, data.as_ptr(), data.len(), levels, &mut checked)
    };
    passed(status, checked.at)?;
    Ok(Checked { values: checked.values, depth: checked.depth })
}

/// The same without memory, with room in a stack for as many constructed values, one inside the
/// other, as it has numbers. What they are before and after doesn't matter.
///
/// # Errors
///
/// Those of [`check`], and [`ErrorKind::TooDeep`] at the first constructed value that is inside as
/// many others. Memory doesn't run out.
pub fn check_on(rules: Rules, data: &[u8], stack: &mut [usize]) -> Result<Checked, Error> {
    let mut checked = ffi::Checked::default();
    // SAFETY: as in `check`; the stack is an exclusive reference too.
    let status = unsafe {
        ffi::bcder_check_on(
            rules as u8,
            data.as_ptr(),
            data.len(),
            stack.as_mut_ptr(),
            stack.len(),
            &mut checked,
        )
    };
    passed(status, checked.at)?;
    Ok(Checked { values: checked.values, depth: checked.depth })
}

/// Stores the values that octets encode, in other rules, and returns their octets.
///
/// What is not converted, and what is not looked at, is the same as of `bcder_convert`
/// (`include/bcder.h`).
///
/// # Errors
///
/// [`ErrorKind::Absent`] if the octets are no values in `from`, [`ErrorKind::NotConverted`],
/// [`ErrorKind::TooSmall`] and [`ErrorKind::NoMemory`]; all at octet 0.
pub fn convert<'b>(
    from: Rules,
    to: Rules,
    data: &[u8],
    buffer: &'b mut [u8],
) -> Result<&'b [u8], Error> {
    let mut size = 0;
    converted(store_converted(from, to, data, buffer, &mut size))?;
    Ok(&buffer[..size])
}

/// Returns how many octets [`convert`] stores.
///
/// # Errors
///
/// Those of [`convert`], but for [`ErrorKind::TooSmall`].
pub fn converted_len(from: Rules, to: Rules, data: &[u8]) -> Result<usize, Error> {
    let mut size = 0;
    match store_converted(from, to, data, &mut [], &mut size) {
        TOO_SMALL => {}
        status => converted(status)?,
    }
    Ok(size)
}

fn store_converted(
    from: Rules,
    to: Rules,
    data: &[u8],
    buffer: &mut [u8],
    size: &mut usize,
) -> u8 {
    // SAFETY: as in `check`; octets are stored in an exclusive slice alone.
    unsafe {
        ffi::bcder_convert(
            from as u8,
            to as u8,
            data.as_ptr(),
            data.len(),
            buffer.as_mut_ptr(),
            buffer.len(),
            size,
        )
    }
}

fn converted(status: u8) -> Result<(), Error> {
    let kind = match status {
        0 => return Ok(()),
        2 => ErrorKind::NoMemory,
        TOO_SMALL => ErrorKind::TooSmall,
        10 => ErrorKind::NotConverted,
        _ => ErrorKind::Absent,
    };
    Err(Error { kind, offset: 0 })
}

/// A reader of values, one after the other.
///
/// It is an iterator of [`Value`]s too, which ends after the first error.
#[derive(Clone, Debug)]
pub struct Reader<'a> {
    rules: Rules,
    offset: usize,
    rest: &'a [u8],
}

impl<'a> Reader<'a> {
    /// Returns a reader of the values that octets encode.
    pub fn new(rules: Rules, data: &'a [u8]) -> Self {
        Reader { rules, offset: 0, rest: data }
    }

    /// Whether no octets are left.
    pub fn is_empty(&self) -> bool {
        self.rest.is_empty()
    }

    /// The octet of the input at which the next value begins.
    pub fn offset(&self) -> usize {
        self.offset
    }

    /// Reads everything, by a closure that has to leave no octets.
    ///
    /// # Errors
    ///
    /// Returns the closure's error, or [`ErrorKind::Left`] if it left values.
    pub fn all<T>(
        mut self,
        read: impl FnOnce(&mut Reader<'a>) -> Result<T, Error>,
    ) -> Result<T, Error> {
        let found = read(&mut self)?;
        if self.is_empty() {
            Ok(found)
        } else {
            Err(Error { kind: ErrorKind::Left, offset: self.offset })
        }
    }

    /// Reads the next value, whatever it is. After an error the reader is where it was.
    ///
    /// # Errors
    ///
    /// Returns an error if no prefix of the octets that are left is the encoding of a value.
    pub fn value(&mut self) -> Result<Value<'a>, Error> {
        let size = self.size_of_next(self.rest, self.offset)?;
        let (encoding, rest) = self.rest.split_at(size);
        let mut heading = ffi::Heading::default();
        // SAFETY: as in `check`.
        let status = unsafe {
            ffi::bcder_heading(self.rules as u8, encoding.as_ptr(), encoding.len(), &mut heading)
        };
        passed(status, self.offset)?;
        let behind = &encoding[heading.size..];
        let len = if heading.indefinite {
            self.up_to_end(behind, self.offset + heading.size)?
        } else {
            heading.len
        };
        let class = match heading.class {
            0 => Class::Universal,
            1 => Class::Application,
            2 => Class::Context,
            _ => Class::Private,
        };
        let value = Value {
            tag: Tag { class, number: heading.number },
            constructed: heading.constructed,
            rules: self.rules,
            offset: self.offset,
            start: self.offset + heading.size,
            contents: &behind[..len],
            encoding,
        };
        self.offset += size;
        self.rest = rest;
        Ok(value)
    }

    /// Reads the next value if it has this tag. Returns `None` and leaves it if it has another, and
    /// if there are no more.
    ///
    /// # Errors
    ///
    /// Those of [`value`](Reader::value).
    pub fn opt(&mut self, tag: Tag) -> Result<Option<Value<'a>>, Error> {
        if self.is_empty() {
            return Ok(None);
        }
        let mut ahead = self.clone();
        let value = ahead.value()?;
        if value.tag != tag {
            return Ok(None);
        }
        *self = ahead;
        Ok(Some(value))
    }

    /// Reads the next value, which has to have this tag. After an error the reader is where it was.
    ///
    /// # Errors
    ///
    /// Those of [`value`](Reader::value), and [`ErrorKind::OtherTag`].
    pub fn tagged(&mut self, tag: Tag) -> Result<Value<'a>, Error> {
        let mut ahead = self.clone();
        let value = ahead.value()?;
        if value.tag != tag {
            return Err(Error { kind: ErrorKind::OtherTag, offset: value.offset });
        }
        *self = ahead;
        Ok(value)
    }

    /// Reads a SEQUENCE by a closure that has to read all values in it.
    ///
    /// # Errors
    ///
    /// Those of [`tagged`](Reader::tagged) and of [`Value::inside`].
    pub fn sequence<T>(
        &mut self,
        read: impl FnOnce(&mut Reader<'a>) -> Result<T, Error>,
    ) -> Result<T, Error> {
        self.tagged(Tag::SEQUENCE)?.inside(read)
    }

    /// Reads a SET by a closure that has to read all values in it, in their order.
    ///
    /// # Errors
    ///
    /// Those of [`sequence`](Reader::sequence).
    pub fn set<T>(
        &mut self,
        read: impl FnOnce(&mut Reader<'a>) -> Result<T, Error>,
    ) -> Result<T, Error> {
        self.tagged(Tag::SET)?.inside(read)
    }

    /// Reads a BOOLEAN.
    ///
    /// # Errors
    ///
    /// Those of [`tagged`](Reader::tagged), and [`ErrorKind::Contents`].
    pub fn bool(&mut self) -> Result<bool, Error> {
        self.tagged(Tag::BOOLEAN)?.bool()
    }

    /// Reads an INTEGER of 64 bits.
    ///
    /// # Errors
    ///
    /// Those of [`bool`](Reader::bool).
    pub fn i64(&mut self) -> Result<i64, Error> {
        self.tagged(Tag::INTEGER)?.i64()
    }

    /// Reads an INTEGER from 0 to 2^64 - 1.
    ///
    /// # Errors
    ///
    /// Those of [`bool`](Reader::bool).
    pub fn u64(&mut self) -> Result<u64, Error> {
        self.tagged(Tag::INTEGER)?.u64()
    }

    fn size_of_next(&self, octets: &[u8], offset: usize) -> Result<usize, Error> {
        let mut checked = ffi::Checked::default();
        // SAFETY: as in `check`.
        let status = unsafe {
            ffi::bcder_value(self.rules as u8, octets.as_ptr(), octets.len(), &mut checked)
        };
        passed(status, offset + checked.at)?;
        Ok(checked.at)
    }

    /// Returns how many octets are in front of end-of-contents octets.
    fn up_to_end(&self, octets: &[u8], offset: usize) -> Result<usize, Error> {
        let (mut at, mut size) = (0, 0);
        loop {
            let left = &octets[at..];
            // SAFETY: as in `check`.
            let status =
                unsafe { ffi::bcder_end(self.rules as u8, left.as_ptr(), left.len(), &mut size) };
            if status == 0 {
                return Ok(at);
            }
            at += self.size_of_next(left, offset + at)?;
        }
    }
}

impl<'a> Iterator for Reader<'a> {
    type Item = Result<Value<'a>, Error>;

    fn next(&mut self) -> Option<Self::Item> {
        if self.is_empty() {
            return None;
        }
        let value = self.value();
        if value.is_err() {
            self.rest = &[];
        }
        Some(value)
    }
}

/// A value: octets that are its encoding, in rules.
#[derive(Clone, Copy, Debug)]
pub struct Value<'a> {
    tag: Tag,
    constructed: bool,
    rules: Rules,
    offset: usize,
    start: usize,
    contents: &'a [u8],
    encoding: &'a [u8],
}

impl<'a> Value<'a> {
    /// Its tag.
    pub fn tag(&self) -> Tag {
        self.tag
    }

    /// Whether it is constructed of other values.
    pub fn is_constructed(&self) -> bool {
        self.constructed
    }

    /// The octet of the input at which it begins.
    pub fn offset(&self) -> usize {
        self.offset
    }

    /// All of its octets.
    pub fn encoding(&self) -> &'a [u8] {
        self.encoding
    }

    /// Its contents octets, without end-of-contents octets.
    pub fn contents(&self) -> &'a [u8] {
        self.contents
    }

    /// The values that it is constructed of; none if it is primitive.
    pub fn children(&self) -> Reader<'a> {
        let rest = if self.constructed { self.contents } else { &[] };
        Reader { rules: self.rules, offset: self.start, rest }
    }

    /// Reads the values that it is constructed of, by a closure that has to read all.
    ///
    /// # Errors
    ///
    /// Returns the closure's error, [`ErrorKind::Left`] if it left values, and
    /// [`ErrorKind::OtherTag`] if the value is primitive.
    pub fn inside<T>(
        &self,
        read: impl FnOnce(&mut Reader<'a>) -> Result<T, Error>,
    ) -> Result<T, Error> {
        if !self.constructed {
            return Err(Error { kind: ErrorKind::OtherTag, offset: self.offset });
        }
        self.children().all(read)
    }

    /// Returns its contents octets if it is primitive.
    fn primitive(&self) -> Result<&'a [u8], Error> {
        if self.constructed {
            return Err(Error { kind: ErrorKind::OtherTag, offset: self.offset });
        }
        Ok(self.contents)
    }

    fn accepted(&self, status: u8) -> Result<(), Error> {
        if status != 0 {
            return Err(Error { kind: ErrorKind::Contents, offset: self.start });
        }
        Ok(())
    }

    /// Returns its contents octets as a boolean, whatever its tag (8.2, 11.1).
    ///
    /// # Errors
    ///
    /// Returns [`ErrorKind::Contents`] if they are none, [`ErrorKind::OtherTag`] if it is
    /// constructed. So do the calls below.
    pub fn bool(&self) -> Result<bool, Error> {
        let (octets, mut truth) = (self.primitive()?, false);
        // SAFETY: as in `check`.
        let status =
            unsafe { ffi::bcder_bool(self.rules as u8, octets.as_ptr(), octets.len(), &mut truth) };
        self.accepted(status)?;
        Ok(truth)
    }

    /// Accepts its contents octets as NULL, of which there are none (8.8).
    ///
    /// # Errors
    ///
    /// Those of [`bool`](Value::bool).
    pub fn null(&self) -> Result<(), Error> {
        let octets = self.primitive()?;
        // SAFETY: as in `check`.
        self.accepted(unsafe { ffi::bcder_null(octets.as_ptr(), octets.len()) })
    }

    /// Returns its contents octets as an integer of 64 bits (8.3).
    ///
    /// # Errors
    ///
    /// Those of [`bool`](Value::bool).
    pub fn i64(&self) -> Result<i64, Error> {
        let (octets, mut number) = (self.primitive()?, 0);
        // SAFETY: as in `check`.
        let status = unsafe { ffi::bcder_i64(octets.as_ptr(), octets.len(), &mut number) };
        self.accepted(status)?;
        Ok(number)
    }

    /// Returns its contents octets as an integer from 0 to 2^64 - 1 (8.3).
    ///
    /// # Errors
    ///
    /// Those of [`bool`](Value::bool).
    pub fn u64(&self) -> Result<u64, Error> {
        let (octets, mut number) = (self.primitive()?, 0);
        // SAFETY: as in `check`.
        let status = unsafe { ffi::bcder_u64(octets.as_ptr(), octets.len(), &mut number) };
        self.accepted(status)?;
        Ok(number)
    }

    /// Returns its contents octets if they are an integer of any size: in two's complement, the
    /// most significant octet first, in the fewest octets (8.3).
    ///
    /// # Errors
    ///
    /// Those of [`bool`](Value::bool).
    pub fn integer(&self) -> Result<&'a [u8], Error> {
        let (octets, mut negative) = (self.primitive()?, false);
        // SAFETY: as in `check`.
        let status = unsafe { ffi::bcder_integer(octets.as_ptr(), octets.len(), &mut negative) };
        self.accepted(status)?;
        Ok(octets)
    }

    /// Stores its contents octets as the magnitude of an integer of any size (8.3), and returns it:
    /// the octets of the number without its sign, the most significant first, none for 0. Also
    /// returns whether the number is negative.
    ///
    /// # Errors
    ///
    /// Those of [`integer`](Value::integer), and [`ErrorKind::TooSmall`]. As many octets as it has
    /// contents octets are always enough.
    pub fn magnitude<'b>(&self, buffer: &'b mut [u8]) -> Result<(bool, &'b [u8]), Error> {
        let (octets, mut size) = (self.integer()?, 0);
        // SAFETY: as in `check`; octets are stored in an exclusive slice alone.
        let status = unsafe {
            ffi::bcder_magnitude(
                octets.as_ptr(),
                octets.len(),
                buffer.as_mut_ptr(),
                buffer.len(),
                &mut size,
            )
        };
        self.stored(status)?;
        Ok((octets.first().is_some_and(|it| it & 0x80 != 0), &buffer[..size]))
    }

    /// Stores the octets of an octet string, in one piece or cut into segments, and returns them
    /// (8.7, 9.2, 10.2).
    ///
    /// # Errors
    ///
    /// [`ErrorKind::Contents`] if the rules allow no such string, [`ErrorKind::TooSmall`], and
    /// [`ErrorKind::NoMemory`]. As many octets as it has contents octets are always enough.
    pub fn joined<'b>(&self, buffer: &'b mut [u8]) -> Result<&'b [u8], Error> {
        let mut size = 0;
        let status = self.string(buffer, &mut size);
        self.stored(status)?;
        Ok(&buffer[..size])
    }

    /// Returns the number of octets of an octet string, in one piece or cut into segments.
    ///
    /// # Errors
    ///
    /// Those of [`joined`](Value::joined), but for [`ErrorKind::TooSmall`].
    pub fn joined_len(&self) -> Result<usize, Error> {
        let mut size = 0;
        match self.string(&mut [], &mut size) {
            TOO_SMALL => {}
            status => self.stored(status)?,
        }
        Ok(size)
    }

    fn string(&self, buffer: &mut [u8], size: &mut usize) -> u8 {
        // SAFETY: as in `magnitude`.
        unsafe {
            ffi::bcder_string(
                self.rules as u8,
                self.constructed,
                self.contents.as_ptr(),
                self.contents.len(),
                buffer.as_mut_ptr(),
                buffer.len(),
                size,
            )
        }
    }

    fn stored(&self, status: u8) -> Result<(), Error> {
        let kind = match status {
            0 => return Ok(()),
            2 => ErrorKind::NoMemory,
            TOO_SMALL => ErrorKind::TooSmall,
            _ => ErrorKind::Contents,
        };
        Err(Error { kind, offset: self.start })
    }

    /// Returns the octets of a bit string in one piece, and how many bits of the last are unused
    /// (8.6).
    ///
    /// # Errors
    ///
    /// Those of [`bool`](Value::bool).
    pub fn bits(&self) -> Result<(&'a [u8], u8), Error> {
        let (octets, mut unused) = (self.primitive()?, 0);
        // SAFETY: as in `check`.
        let status = unsafe {
            ffi::bcder_bits(self.rules as u8, octets.as_ptr(), octets.len(), &mut unused)
        };
        self.accepted(status)?;
        Ok((octets.get(1..).unwrap_or_default(), unused))
    }

    /// Returns its contents octets as an object identifier, which shows itself as its components
    /// (8.19).
    ///
    /// # Errors
    ///
    /// Those of [`bool`](Value::bool).
    pub fn oid(&self) -> Result<Oid<'a>, Error> {
        let octets = self.primitive()?;
        // SAFETY: as in `check`.
        self.accepted(unsafe { ffi::bcder_oid(octets.as_ptr(), octets.len()) })?;
        Ok(Oid(octets))
    }

    /// Returns the octets of an octet string in one piece (8.7).
    ///
    /// # Errors
    ///
    /// [`ErrorKind::OtherTag`] if it is cut into segments: [`joined`](Value::joined) joins those.
    /// [`ErrorKind::Contents`] for more than 1000 octets in CER, which have to be cut (9.2).
    pub fn octets(&self) -> Result<&'a [u8], Error> {
        let octets = self.primitive()?;
        self.accepted(u8::from(self.rules == Rules::Cer && octets.len() > 1000))?;
        Ok(octets)
    }

    /// Returns a UTF8String, NumericString, PrintableString or IA5String in one piece (8.23).
    ///
    /// # Errors
    ///
    /// Those of [`octets`](Value::octets), [`ErrorKind::OtherTag`] for other tags, and
    /// [`ErrorKind::Contents`] for other characters.
    pub fn text(&self) -> Result<&'a str, Error> {
        self.text_of(self.tag)
    }

    /// The same of a value whose type has this tag.
    ///
    /// # Errors
    ///
    /// Those of [`text`](Value::text).
    pub fn text_of(&self, tag: Tag) -> Result<&'a str, Error> {
        let octets = self.octets()?;
        // SAFETY: as in `check`.
        let status = unsafe {
            match tag {
                Tag::UTF8_STRING => ffi::bcder_utf8(octets.as_ptr(), octets.len()),
                Tag::NUMERIC_STRING => ffi::bcder_numeric(octets.as_ptr(), octets.len()),
                Tag::PRINTABLE_STRING => ffi::bcder_printable(octets.as_ptr(), octets.len()),
                Tag::IA5_STRING => ffi::bcder_ia5(octets.as_ptr(), octets.len()),
                _ => return Err(Error { kind: ErrorKind::OtherTag, offset: self.offset }),
            }
        };
        self.accepted(status)?;
        core::str::from_utf8(octets)
            .map_err(|_| Error { kind: ErrorKind::Contents, offset: self.start })
    }
}

/// An object identifier: its contents octets. It shows itself as components with dots.
#[derive(Clone, Copy, Debug, PartialEq, Eq, Hash)]
pub struct Oid<'a>(&'a [u8]);

impl<'a> Oid<'a> {
    /// Its contents octets.
    pub fn as_slice(&self) -> &'a [u8] {
        self.0
    }

    /// Stores its components in decimal, joined by dots, and returns this text.
    ///
    /// Returns `None` if the buffer has no room for it, or a component is 2^128 or more.
    pub fn text<'b>(&self, buffer: &'b mut [u8]) -> Option<&'b str> {
        let mut size = 0;
        // SAFETY: as in `magnitude`.
        let status = unsafe {
            ffi::bcder_oid_text(
                self.0.as_ptr(),
                self.0.len(),
                buffer.as_mut_ptr(),
                buffer.len(),
                &mut size,
            )
        };
        if status == 0 {
            core::str::from_utf8(&buffer[..size]).ok()
        } else {
            None
        }
    }

    /// Its components; `None` for one of 2^64 or more.
    pub fn components(&self) -> impl Iterator<Item = Option<u64>> + 'a {
        let numbers = self.0.split_inclusive(|octet| octet & 0x80 == 0).map(|octets| {
            octets.iter().try_fold(0u64, |number, octet| {
                (number.leading_zeros() >= 7).then(|| number << 7 | u64::from(octet & 0x7F))
            })
        });
        numbers.enumerate().flat_map(|(place, number)| {
            let first = (place == 0).then(|| Some(number.map_or(2, |number| (number / 40).min(2))));
            let other = if place == 0 {
                number.map(|number| number - 40 * (number / 40).min(2))
            } else {
                number
            };
            first.into_iter().chain([other])
        })
    }
}

impl fmt::Display for Oid<'_> {
    fn fmt(&self, f: &mut fmt::Formatter<'_>) -> fmt::Result {
        for (place, component) in self.components().enumerate() {
            if place > 0 {
                f.write_str(".")?;
            }
            match component {
                Some(number) => write!(f, "{number}")?,
                None => f.write_str("(2^64 or more)")?,
            }
        }
        Ok(())
    }
}

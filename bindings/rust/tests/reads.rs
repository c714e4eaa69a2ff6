//! Expected values are worked by hand from X.690.
use bcder_verified::{check, check_on, check_within, convert, converted_len, Checked, Class, Error, ErrorKind, Reader, Rules, Tag};

fn refused<T>(kind: ErrorKind, offset: usize) -> Result<T, Error> {
    Err(Error { kind, offset })
}

#[test]
fn lists_are_checked() {
    for rules in [Rules::Ber, Rules::Cer, Rules::Der] {
        assert_eq!(check(rules, &[]), Ok(Checked { values: 0, depth: 0 }));
        assert_eq!(check(rules, &[5, 0, 5, 0]), Ok(Checked { values: 2, depth: 1 }));
    }
    let indefinite = [0x30, 0x80, 5, 0, 0, 0];
    assert_eq!(check(Rules::Ber, &indefinite), Ok(Checked { values: 2, depth: 2 }));
    assert_eq!(check(Rules::Cer, &indefinite), Ok(Checked { values: 2, depth: 2 }));
    assert_eq!(check(Rules::Der, &indefinite), refused(ErrorKind::Absent, 0));
    assert_eq!(check(Rules::Cer, &[0x30, 2, 5, 0]), refused(ErrorKind::Absent, 0));
    assert_eq!(check(Rules::Der, &[5, 0, 4, 1]), refused(ErrorKind::Beyond, 2));
    assert_eq!(check(Rules::Ber, &indefinite[..4]), refused(ErrorKind::Ended, 4));
    let three = [0x30, 4, 0x30, 2, 0x30, 0];
    assert_eq!(check_within(Rules::Der, &three, 3), Ok(Checked { values: 3, depth: 3 }));
    assert_eq!(check_within(Rules::Der, &three, 2), refused(ErrorKind::TooDeep, 4));
    let mut stack = [7; 3];
    assert_eq!(check_on(Rules::Der, &three, &mut stack), Ok(Checked { values: 3, depth: 3 }));
    assert_eq!(check_on(Rules::Der, &three, &mut stack[..2]), refused(ErrorKind::TooDeep, 4));
    assert_eq!(check_on(Rules::Ber, &indefinite, &mut stack[..1]), Ok(Checked { values: 2, depth: 2 }));
    assert_eq!(check_on(Rules::Ber, &indefinite[..4], &mut stack), refused(ErrorKind::Ended, 4));
    assert_eq!(check_on(Rules::Der, &[5, 0], &mut []), Ok(Checked { values: 1, depth: 1 }));
}

#[test]
fn values_are_converted() {
    let basic = [0x30, 0x80, 2, 0x81, 1, 5, 1, 1, 1, 0, 0];
    let der = [0x30, 6, 2, 1, 5, 1, 1, 0xFF];
    let cer = [0x30, 0x80, 2, 1, 5, 1, 1, 0xFF, 0, 0];
    let mut buffer = [7; 10];
    assert_eq!(convert(Rules::Ber, Rules::Der, &basic, &mut buffer), Ok(&der[..]));
    assert_eq!(convert(Rules::Der, Rules::Cer, &der, &mut buffer), Ok(&cer[..]));
    assert_eq!(convert(Rules::Cer, Rules::Ber, &cer, &mut buffer), Ok(&cer[..]));
    assert_eq!(converted_len(Rules::Ber, Rules::Der, &basic), Ok(8));
    assert_eq!(convert(Rules::Ber, Rules::Der, &basic, &mut buffer[..7]), refused(ErrorKind::TooSmall, 0));
    assert_eq!(converted_len(Rules::Der, Rules::Ber, &basic), refused(ErrorKind::Absent, 0));
    let cut = [0x24, 3, 4, 1, 5];
    assert_eq!(convert(Rules::Ber, Rules::Der, &cut, &mut buffer), Ok(&cut[2..]));
    assert_eq!(convert(Rules::Ber, Rules::Cer, &cut, &mut buffer), Ok(&cut[2..]));
    let bits = [0x23, 4, 3, 2, 0, 5];
    assert_eq!(converted_len(Rules::Ber, Rules::Der, &bits), refused(ErrorKind::NotConverted, 0));
    assert_eq!(converted_len(Rules::Ber, Rules::Ber, &cut), Ok(5));
}

#[test]
fn a_sequence_is_read_whole() {
    let data = [0x30, 6, 2, 1, 5, 1, 1, 0xFF];
    let both = |r: &mut Reader<'_>| r.sequence(|r| Ok((r.i64()?, r.bool()?)));
    assert_eq!(Reader::new(Rules::Der, &data).all(both), Ok((5, true)));
    let first = |r: &mut Reader<'_>| r.sequence(|r| r.i64());
    assert_eq!(Reader::new(Rules::Der, &data).all(first), refused(ErrorKind::Left, 5));
    let other = |r: &mut Reader<'_>| r.sequence(|r| Ok((r.bool()?, r.bool()?)));
    assert_eq!(Reader::new(Rules::Der, &data).all(other), refused(ErrorKind::OtherTag, 2));
    let set = |r: &mut Reader<'_>| r.set(|r| Ok((r.i64()?, r.bool()?)));
    assert_eq!(Reader::new(Rules::Der, &data).all(set), refused(ErrorKind::OtherTag, 0));
    let mut reader = Reader::new(Rules::Der, &data[2..]);
    assert_eq!(reader.opt(Tag::BOOLEAN).map(|it| it.is_some()), Ok(false));
    assert_eq!((reader.u64(), reader.offset()), (Ok(5), 3));
    assert_eq!(reader.opt(Tag::BOOLEAN).map(|it| it.is_some()), Ok(true));
    assert_eq!(reader.opt(Tag::BOOLEAN).map(|it| it.is_some()), Ok(false));
}

#[test]
fn values_know_their_places() {
    let data = [
        5, 0, 0x7F, 0x81, 0, 3, 2, 1, 9, 0xA0, 0x80, 5, 0, 0, 0, 0xC5, 0,
    ];
    let values: Vec<_> = Reader::new(Rules::Ber, &data).map(Result::unwrap).collect();
    let places: Vec<_> = values.iter().map(|it| (it.offset(), it.tag().class, it.tag().number)).collect();
    assert_eq!(
        places,
        [
            (0, Class::Universal, 5),
            (2, Class::Application, 128),
            (9, Class::Context, 0),
            (15, Class::Private, 5),
        ]
    );
    assert_eq!((values[1].contents(), values[1].encoding()), (&data[6..9], &data[2..9]));
    assert_eq!((values[2].contents(), values[2].encoding()), (&data[11..13], &data[9..15]));
    let inside: Vec<_> = values[2].children().map(|it| it.unwrap().offset()).collect();
    assert_eq!((inside, values[2].is_constructed()), (vec![11], true));
    assert_eq!(values[0].children().count(), 0);
    let mut broken = Reader::new(Rules::Der, &[5, 0, 5, 1]);
    assert!(broken.next().unwrap().is_ok());
    assert_eq!(broken.next().unwrap().map(|_| ()), refused(ErrorKind::Beyond, 2));
    assert!(broken.next().is_none());
}

fn contents<'a, T>(
    rules: Rules,
    data: &'a [u8],
    read: impl Fn(bcder_verified::Value<'a>) -> Result<T, Error>,
) -> Result<T, Error> {
    read(Reader::new(rules, data).value()?)
}

#[test]
fn contents_are_read() {
    let der = Rules::Der;
    assert_eq!(contents(der, &[2, 2, 0, 0x80], |it| it.i64()), Ok(128));
    assert_eq!(contents(der, &[2, 1, 0x80], |it| it.i64()), Ok(-128));
    assert_eq!(contents(der, &[2, 1, 0x80], |it| it.u64()), refused(ErrorKind::Contents, 2));
    assert_eq!(contents(der, &[2, 2, 0, 5], |it| it.i64()), refused(ErrorKind::Contents, 2));
    let large = [2, 9, 0, 0x80, 0, 0, 0, 0, 0, 0, 0];
    assert_eq!(contents(der, &large, |it| it.u64()), Ok(1 << 63));
    assert_eq!(contents(der, &large, |it| it.i64()), refused(ErrorKind::Contents, 2));
    assert_eq!(contents(der, &large, |it| it.integer()), Ok(&large[2..]));
    assert_eq!(contents(der, &[1, 1, 1], |it| it.bool()), refused(ErrorKind::Contents, 2));
    assert_eq!(contents(Rules::Ber, &[1, 1, 1], |it| it.bool()), Ok(true));
    assert_eq!(contents(der, &[5, 0], |it| it.null()), Ok(()));
    assert_eq!(contents(der, &[5, 1, 0], |it| it.null()), refused(ErrorKind::Contents, 2));
    assert_eq!(contents(der, &[3, 2, 4, 0xA0], |it| it.bits()), Ok((&[0xA0][..], 4)));
    assert_eq!(contents(der, &[3, 2, 4, 0xA5], |it| it.bits()), refused(ErrorKind::Contents, 2));
    assert_eq!(contents(der, &[4, 2, 1, 2], |it| it.octets()), Ok(&[1, 2][..]));
    assert_eq!(contents(der, &[12, 2, 0xC3, 0xA9], |it| it.text()), Ok("é"));
    assert_eq!(contents(der, &[12, 1, 0xC3], |it| it.text()), refused(ErrorKind::Contents, 2));
    assert_eq!(contents(der, &[19, 1, b'@'], |it| it.text()), refused(ErrorKind::Contents, 2));
    assert_eq!(contents(der, &[22, 1, b'@'], |it| it.text()), Ok("@"));
    assert_eq!(contents(der, &[18, 2, b'1', b' '], |it| it.text()), Ok("1 "));
    let printable = |it: bcder_verified::Value<'static>| it.text_of(Tag::PRINTABLE_STRING);
    assert_eq!(contents(der, &[0x80, 1, b'A'], printable), Ok("A"));
    assert_eq!(contents(der, &[4, 1, b'A'], |it| it.text()), refused(ErrorKind::OtherTag, 0));
    assert_eq!(contents(der, &[0x30, 0], |it| it.bool()), refused(ErrorKind::OtherTag, 0));
    let mut long = vec![4, 0x82, 0x03, 0xE9];
    long.extend([0; 1001]);
    assert_eq!(contents(Rules::Cer, &long, |it| it.octets()), refused(ErrorKind::Contents, 4));
    assert_eq!(contents(Rules::Ber, &long, |it| it.octets().map(|it| it.len())), Ok(1001));
}

#[test]
fn identifiers_are_shown() {
    let shown = |data: &'static [u8]| contents(Rules::Der, data, |it| it.oid().map(|it| it.to_string()));
    assert_eq!(shown(&[6, 3, 0x2A, 0x86, 0x48]), Ok("1.2.840".to_owned()));
    assert_eq!(shown(&[6, 3, 0x88, 0x37, 3]), Ok("2.999.3".to_owned()));
    assert_eq!(shown(&[6, 1, 0x27]), Ok("0.39".to_owned()));
    assert_eq!(shown(&[6, 2, 0x2A, 0x80]), refused(ErrorKind::Contents, 2));
    assert_eq!(shown(&[6, 0]), refused(ErrorKind::Contents, 2));
    let largest = [6, 11, 0x69, 0x81, 0xFF, 0xFF, 0xFF, 0xFF, 0xFF, 0xFF, 0xFF, 0xFF, 0x7F];
    let numbers = contents(Rules::Der, &largest, |it| it.oid().map(|it| it.components().collect::<Vec<_>>()));
    assert_eq!(numbers, Ok(vec![Some(2), Some(25), Some(u64::MAX)]));
    let mut uuid = vec![6, 20, 0x69, 0x83];
    uuid.extend([0xFF; 17]);
    uuid.push(0x7F);
    let text = |data: &[u8], room: usize| {
        contents(Rules::Der, data, |it| Ok(it.oid()?.text(&mut vec![0; room]).map(str::to_owned)))
    };
    let wanted = "2.25.340282366920938463463374607431768211455".to_owned();
    assert_eq!(text(&uuid, wanted.len()), Ok(Some(wanted.clone())));
    assert_eq!(text(&uuid, wanted.len() - 1), Ok(None));
    assert_eq!(text(&[6, 3, 0x2A, 0x86, 0x48], 9), Ok(Some("1.2.840".to_owned())));
    let larger = [6, 11, 0x69, 0x82, 0x80, 0x80, 0x80, 0x80, 0x80, 0x80, 0x80, 0x80, 0x00];
    let text = contents(Rules::Der, &larger, |it| it.oid().map(|it| it.to_string()));
    assert_eq!(text, Ok("2.25.(2^64 or more)".to_owned()));
}

#[test]
fn integers_of_any_size() {
    let magnitude = |data: &[u8]| {
        contents(Rules::Der, data, |it| {
            it.magnitude(&mut [0xA5; 24]).map(|it| (it.0, it.1.to_vec()))
        })
    };
    assert_eq!(magnitude(&[2, 1, 0]), Ok((false, vec![])));
    assert_eq!(magnitude(&[2, 2, 0, 0x80]), Ok((false, vec![0x80])));
    assert_eq!(magnitude(&[2, 1, 0xFF]), Ok((true, vec![1])));
    assert_eq!(magnitude(&[2, 2, 0xFF, 0x7F]), Ok((true, vec![0x81])));
    assert_eq!(magnitude(&[2, 3, 0xFF, 0, 0]), Ok((true, vec![1, 0, 0])));
    let mut least = vec![2, 17, 0x80];
    least.extend([0; 16]);
    let mut wanted = vec![0x80];
    wanted.extend([0; 16]);
    assert_eq!(magnitude(&least), Ok((true, wanted)));
    assert_eq!(magnitude(&[2, 2, 0, 5]).unwrap_err().kind, ErrorKind::Contents);
    let small = contents(Rules::Der, &[2, 2, 1, 0], |it| it.magnitude(&mut [0]).map(|it| it.0));
    assert_eq!(small.unwrap_err().kind, ErrorKind::TooSmall);
}

#[test]
fn strings_in_segments() {
    let joined = |rules, data: &[u8]| {
        contents(rules, data, |it| Ok((it.joined_len()?, it.joined(&mut [0; 8])?.to_vec())))
    };
    assert_eq!(joined(Rules::Der, &[4, 2, 7, 8]), Ok((2, vec![7, 8])));
    assert_eq!(joined(Rules::Der, &[4, 0]), Ok((0, vec![])));
    let nested = [0x24, 0x80, 0x24, 3, 4, 1, 7, 4, 0, 4, 2, 8, 9, 0, 0];
    assert_eq!(joined(Rules::Ber, &nested), Ok((3, vec![7, 8, 9])));
    assert_eq!(joined(Rules::Cer, &[0x24, 0x80, 4, 1, 7, 0, 0]).unwrap_err().kind, ErrorKind::Contents);
    assert_eq!(joined(Rules::Der, &[0x24, 3, 4, 1, 7]).unwrap_err().kind, ErrorKind::Contents);
    let long = [4, 9, 1, 2, 3, 4, 5, 6, 7, 8, 9];
    assert_eq!(joined(Rules::Der, &long).unwrap_err().kind, ErrorKind::TooSmall);
}

#[test]
fn a_million_levels() {
    let levels = 1_000_000;
    let mut data = [0x30, 0x80].repeat(levels);
    data.extend([0, 0].repeat(levels));
    assert_eq!(check(Rules::Ber, &data), Ok(Checked { values: levels, depth: levels }));
}

#[test]
fn threads_need_no_lock() {
    std::thread::scope(|scope| {
        for _ in 0..4 {
            scope.spawn(|| {
                for _ in 0..1000 {
                    let found = check(Rules::Ber, &[0x30, 0x80, 0, 0]);
                    assert_eq!(found, Ok(Checked { values: 1, depth: 1 }));
                }
            });
        }
    });
}

#[test]
fn errors_say_where() {
    let error = check(Rules::Der, &[5, 0, 4, 1]).unwrap_err();
    assert_eq!(error.to_string(), "octet 2: a value with more contents octets than there are");
    let error: Box<dyn std::error::Error> = Box::new(error);
    assert!(error.source().is_none());
}

"""Values by hand: examples of X.690, and each way in which BER has a value that DER has in one."""
from der import *

# The record of X.690, A.3, as it stands there.
RECORD = bytes.fromhex(
    "60 8185  61 10  1A 04 4A6F686E  1A 01 50  1A 05 536D697468  A0 0A  1A 08 4469726563746F72  42 01 33"
    "A1 0A  43 08 3139373130393137  A2 12  61 10  1A 04 4D617279  1A 01 54  1A 05 536D697468"
    "A3 42  31 1F  61 11  1A 05 52616C7068  1A 01 54  1A 05 536D697468  A0 0A  43 08 3139353731313131"
    "31 1F  61 11  1A 05 537573616E  1A 01 42  1A 05 4A6F6E6573  A0 0A  43 08 3139353930373137")

TEXT_TAGS = {"utf8": 12, "numeric": 18, "printable": 19, "ia5": 22, "visible": 26}


def der():
    yield "record", RECORD
    # 8.9.3, 8.6.4.2, 8.14
    yield "sequence", bytes.fromhex("300A 1605536D697468 0101FF")
    yield "bits", bytes.fromhex("0307040A3B5F291CD0")
    yield "tagged", bytes.fromhex("1A054A6F6E6573 43054A6F6E6573 A20743054A6F6E6573 670743054A6F6E6573 82054A6F6E6573")
    yield "identifiers", bytes.fromhex("0603813403 0D04C27B0302")  # 8.19.5, 8.20.5
    # 8.5: 0.15625 in base 2, 1.23 in base 10 (11.3), the special values
    yield "reals", bytes.fromhex("090380FB05 0908033132332E452D32 090140 090141 090142 090143 0900")
    yield "integers", sequence(*(integer(sign * 2**power + more) for power in (0, 7, 8, 15, 16, 31, 32, 63, 64, 127, 2047)
                                 for sign in (1, -1) for more in (-1, 0, 1)))
    yield "enumerated", sequence(*map(enumerated, (0, 1, -1, 127, 128, 2**40, -2**63)))
    yield "booleans", sequence(boolean(True), boolean(False))
    yield "empty", sequence(sequence(), set_of(), octets(b""), utf8(""), printable(""), ia5(""), bits(b""), NULL,
                            context(0), context_octets(1, b""), general(""), primitive(30, b""))
    yield "bit_strings", sequence(*(bits(bytes([0xAB, 0xFF << unused & 255]), unused) for unused in range(8)))
    yield "long_bits", sequence(bits(bytes(range(256)) * 5), bits(bytes([255]) * 1200, 0))
    for count in (127, 128, 255, 256, 65535, 65536):
        yield f"octets_{count}", octets(bytes(it % 251 for it in range(count)))
    yield "octets_that_print", sequence(octets("text"), octets("two\nlines\r\n\tand more"), octets("~ "), octets("\x7f"),
                                        octets("[HEX DUMP]:00"), octets("0x41"), octets("\\u{41}"))
    yield "octets_that_hold", sequence(octets(sequence(integer(1))), octets(octets(octets(NULL))), bits(sequence(NULL)),
                                       octets(b"\x30\x80\0\0"), octets(integer(5) + integer(6)))
    for name, number in TEXT_TAGS.items():
        found = "0123456789 " if name == "numeric" else "".join(map(chr, range(32, 127)))
        if name == "printable":
            found = "ABC xyz 019 '()+,-./:=?"
        yield f"text_{name}", sequence(primitive(number, found), primitive(number, "0" * 5000))
    yield "text_controls", sequence(*(primitive(number, "".join(map(chr, range(128)))) for number in (12, 22)))
    yield "text_escapes", sequence(*map(utf8, (
        "\\u{41}", "0x41", "0x", "(name)", " : :", "a, 3 unused", "\u202eright to left\u202c", "\u2028\u2029",
        "🔑 é e\u0301 \U0010ffff")))
    yield "text_others", sequence(*(primitive(number, b"text \xe4\xf6\xfc") for number in (20, 21, 25, 27)),
                                  primitive(28, "Universal Ж🔑".encode("utf-32-be")),
                                  primitive(30, "BMP Ж".encode("utf-16-be")), primitive(7, "descriptor"))
    yield "text_of_5000_lines", utf8("line\n" * 5000)
    yield "times", sequence(utc_time("500101000000Z"), utc_time("491231235959Z"), generalized_time("20240229235960Z"),
                            generalized_time("00010101000000Z"), generalized_time("19851106210627.3Z"),
                            generalized_time("99991231235959.999999Z"))
    # the tags of TIME and its like (X.680, 38)
    yield "time_types", sequence(primitive(14, "1985-11-06"), primitive(31, "19851106"), primitive(32, "210627"),
                                 primitive(33, "19851106210627"), primitive(34, "P0Y29M0DT0H0M0.00S"))
    # OID-IRI, RELATIVE-OID-IRI (8.21, 8.22)
    yield "iris", sequence(primitive(35, "/ISO/Registration_Authority"), primitive(36, "Registration_Authority/19785"))
    # EXTERNAL (8.18) and EMBEDDED PDV, CHARACTER STRING (8.17, 8.24)
    yield "external", constructed(8, oid("2.1.1"), integer(3), primitive(7, "d"), context(0, NULL))
    yield "embedded", sequence(constructed(11, context(0, context_octets(5, b"")), context_octets(2, b"x")),
                               constructed(29, context(0, context_octets(5, b"")), context_octets(2, b"x")))
    for name, kind in (("universal", UNIVERSAL), ("application", APPLICATION), ("context", CONTEXT),
                       ("private", PRIVATE)):
        numbers = [*([0, 30, 31] if kind != UNIVERSAL else [37]), 127, 128, 16383, 16384, 2097151]
        yield f"tags_{name}", sequence(*(primitive(it, b"\1", kind) for it in numbers),
                                       *(constructed(it, NULL, kind=kind) for it in numbers))
    yield "identifiers_long", sequence(*map(oid, (
        "2.999." + "4294967295." * 10 + "0", "0.0", "0.39.1", "1.39.1", "2.0", "2.47", "2.48", "2.16383", f"1.2.{2**64}",
        f"2.25.{2**128 - 1}", f"2.999.{2**300 + 1}.1", f"2.{2**90}")))
    yield "several", integer(1) + NULL + sequence(boolean(True)) + octets("end")
    nested = NULL
    for _ in range(100):
        nested = sequence(nested)
    yield "nested_100", nested
    yield "values_10000", sequence(*map(integer, range(10_000)))
    yield "megabyte", sequence(integer(0), octets(bytes(1_000_000)), NULL)


def ber():
    """A name, the octets, and the values in DER, if that is the conversion that `berconv` knows."""
    yield "bits_in_parts", bytes.fromhex("2380 0303000A3B 0305045F291CD0 0000"), None  # 8.6.4.2
    jones = visible("Jones") * 2
    yield "string_in_parts", bytes.fromhex("3A09 04034A6F6E 04026573  3A80 04034A6F6E 04026573 0000"), jones  # 8.23.3
    yield "string_long_length", bytes.fromhex("1A81054A6F6E6573 1A8400000005 4A6F6E6573"), jones
    yield ("length_longer", bytes.fromhex("308103 020105  30820003 020105  3083000003 020105  308400000003 020105"),
           sequence(integer(5)) * 4)
    yield ("indefinite", indefinite(16, integer(1), indefinite(17, NULL), indefinite(0, octets("x"), kind=CONTEXT)),
           sequence(integer(1), set_of(NULL), context(0, octets("x"))))
    yield "indefinite_empty", indefinite(16), sequence()
    yield ("indefinite_in_definite", sequence(indefinite(16, integer(1)), indefinite(16, indefinite(16))),
           sequence(sequence(integer(1)), sequence(sequence())))
    yield ("definite_in_indefinite", indefinite(16, sequence(integer(1)), constructed(17)),
           sequence(sequence(integer(1)), set_of()))
    nested, in_der = NULL, NULL
    for _ in range(100):
        nested, in_der = indefinite(16, nested), sequence(in_der)
    yield "indefinite_100", nested, in_der
    yield ("octets_in_parts", sequence(
        constructed(4, octets("one"), octets(" two")), indefinite(4, octets("one"), octets(" two")), constructed(4),
        indefinite(4), constructed(4, octets(b"")),
        indefinite(4, constructed(4, octets("a"), indefinite(4, octets("b"))), octets("c"))),
        sequence(octets("one two"), octets("one two"), octets(b""), octets(b""), octets(b""), octets("abc")))
    yield ("octets_of_1000", indefinite(4, *(octets(bytes([at]) * 1000) for at in range(50)), octets(b"end")),
           octets(b"".join(bytes([at]) * 1000 for at in range(50)) + b"end"))
    for name, number in TEXT_TAGS.items():
        yield f"text_{name}_in_parts", constructed(number, octets("01"), octets("23")), primitive(number, "0123")
    yield ("times_in_parts", sequence(constructed(23, octets("500101"), octets("000000Z")),
                                      indefinite(24, octets("20240229"), octets("235959Z"))),
           sequence(utc_time("500101000000Z"), generalized_time("20240229235959Z")))
    # times that BER has and DER hasn't (X.680, 46 and 47)
    yield "times", sequence(utc_time("5001010000Z"), utc_time("500101000000+0100"), generalized_time("2024022923"),
                            generalized_time("202402292359,5"), generalized_time("20240229235959.50-0330")), None
    yield ("booleans", sequence(*(primitive(1, bytes([it])) for it in range(256))),
           sequence(boolean(False), *[boolean(True)] * 255))
    yield "unused_bits_set", sequence(bits(b"\xff", 3), bits(b"\x01", 7)), None
    yield "set_in_any_order", constructed(17, octets("b"), integer(2), octets("a"), integer(1)), None
    yield "reals", bytes.fromhex("0904 81FFFB05 0905 01 20202B31"), None
    yield ("message_in_parts", indefinite(16, integer(1), indefinite(
        0, integer(3), constructed(4, octets("cn="), octets("admin")), context_octets(0, "secret"), kind=APPLICATION)),
        sequence(integer(1), application(0, integer(3), octets("cn=admin"), context_octets(0, "secret"))))

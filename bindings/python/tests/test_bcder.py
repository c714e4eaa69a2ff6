"""Tests of the Python module. Expected values are worked by hand from X.690."""

import doctest
import pathlib
import threading
import unittest

import bcder
from bcder import BER, CER, DER, Class, Kind, Rules, Tag


PYASN1 = pathlib.Path(__file__).parents[3] / "crates/documents/data/values.tsv"


def one(text, rules=DER):
    """Returns the one value of octets in hexadecimal."""
    [value] = bcder.values(bytes.fromhex(text), rules)
    return value


class Check(unittest.TestCase):
    def refused(self, text, rules, kind, offset, **more):
        with self.assertRaises(bcder.Error) as found:
            bcder.check(bytes.fromhex(text), rules, **more)
        self.assertEqual((found.exception.kind, found.exception.offset), (kind, offset))

    def test_lists(self):
        for rules in Rules:
            self.assertEqual(bcder.check(b"", rules), (0, 0))
            self.assertEqual(bcder.check(b"\x05\x00\x05\x00", rules), (2, 1))
        self.assertEqual(bcder.check(bytes.fromhex("3080 0500 0000"), BER), (2, 2))
        self.assertEqual(bcder.check(bytes.fromhex("3080 0500 0000"), CER), (2, 2))
        self.assertEqual(bcder.check(bytes.fromhex("3002 0500"), DER), (2, 2))

    def test_refusals(self):
        self.refused("3080 0500 0000", DER, Kind.ABSENT, 0)
        self.refused("3002 0500", CER, Kind.ABSENT, 0)
        self.refused("0500 0581 00", DER, Kind.ABSENT, 2)
        self.refused("0500 0401", DER, Kind.BEYOND, 2)
        self.refused("3080 0500", BER, Kind.ENDED, 4)
        self.refused("3004 3002 3000", BER, Kind.TOO_DEEP, 4, levels=2)
        self.assertEqual(bcder.check(bytes.fromhex("3004 3002 3000"), BER, levels=3), (3, 3))

    def test_buffers(self):
        data = bytes.fromhex("30060201050101ff")
        for it in (data, bytearray(data), memoryview(data), memoryview(bytearray(data))):
            self.assertEqual(bcder.check(it), (3, 2))
        self.assertEqual(bcder.check(memoryview(b"\xff" + data)[1:]), (3, 2))
        with self.assertRaises(TypeError):
            bcder.check("text")
        with self.assertRaises(ValueError):
            bcder.check(data, 3)

    def test_a_million_levels(self):
        levels = 1_000_000
        data = b"\x30\x80" * levels + b"\x00\x00" * levels
        self.assertEqual(bcder.check(data, BER), (levels, levels))

    def test_threads(self):
        found = []

        def check():
            for _ in range(200):
                found.append(bcder.check(b"\x30\x80\x00\x00", BER))

        threads = [threading.Thread(target=check) for _ in range(4)]
        for it in threads:
            it.start()
        for it in threads:
            it.join()
        self.assertEqual(found, [(1, 1)] * 800)


class Convert(unittest.TestCase):
    def test_values(self):
        basic = bytes.fromhex("3080 02810105 010101 0000")
        der, cer = bytes.fromhex("3006 020105 0101ff"), bytes.fromhex("3080 020105 0101ff 0000")
        self.assertEqual(bcder.convert(basic, BER), der)
        self.assertEqual(bcder.convert(basic, BER, CER), cer)
        self.assertEqual(bcder.convert(basic, BER, BER), basic)
        self.assertEqual(bcder.convert(memoryview(der), DER, CER), cer)
        self.assertEqual(bcder.convert(b"", CER, DER), b"")
        cut = bytes.fromhex("2c80 040161 2403 040162 0400 0000")
        self.assertEqual(bcder.convert(cut, BER), bytes.fromhex("0c02 6162"))
        self.assertEqual(bcder.convert(cut, BER, CER), bytes.fromhex("0c02 6162"))

    def test_refusals(self):
        for text, source, kind in (
            ("3080 0000", DER, Kind.ABSENT),
            ("2403 020105", BER, Kind.NOT_CONVERTED),
            ("2c03 0c0161", BER, Kind.NOT_CONVERTED),
            ("2303 030100", BER, Kind.NOT_CONVERTED),
            ("0302 0101", BER, Kind.NOT_CONVERTED),
        ):
            with self.assertRaises(bcder.Error) as found:
                bcder.convert(bytes.fromhex(text), source)
            self.assertEqual((found.exception.kind, found.exception.offset), (kind, 0))

    def test_values_of_pyasn1(self):
        """What pyasn1 wrote of each value in BER, CER and DER (crates/documents/data)."""
        converted = 0
        with open(PYASN1, encoding="ascii") as rows:
            for row in rows:
                if row.startswith("#"):
                    continue
                kind, _, order, *texts = row.rstrip("\n").split("\t")
                for at in (1, 2):
                    if texts[at] == "=":
                        texts[at] = texts[at - 1]
                basic, cer, der = map(bytes.fromhex, texts)
                pairs = [(cer, CER, der, DER), (der, DER, cer, CER)]
                # In BER a SET OF is in another order, and strings under another tag are cut.
                if order == "=" and kind != "implicit":
                    pairs += [(basic, BER, der, DER), (basic, BER, cer, CER)]
                for data, source, expected, target in pairs:
                    self.assertEqual(bcder.convert(data, source, target), expected)
                    converted += 1
        self.assertGreater(converted, 1000)

    def test_a_million_levels(self):
        levels = 1_000_000
        cer = b"\x30\x80" * levels + b"\x00\x00" * levels
        der = bcder.convert(cer, CER)
        self.assertEqual(bcder.check(der), (levels, levels))
        self.assertEqual(bcder.convert(der, DER, CER), cer)


class Values(unittest.TestCase):
    def test_tags_and_places(self):
        data = bytes.fromhex("0500 7f810003020109 a080 0500 0000 c500")
        first, second, third, fourth = bcder.values(data, BER)
        self.assertEqual([it.offset for it in (first, second, third, fourth)], [0, 2, 9, 15])
        self.assertEqual(second.tag, Tag(Class.APPLICATION, 128))
        self.assertEqual(second.encoding, data[2:9])
        self.assertEqual(second.contents, data[6:9])
        self.assertEqual(third.tag, Tag(Class.CONTEXT, 0))
        self.assertEqual(third.encoding, data[9:15])
        self.assertEqual(third.contents, b"\x05\x00")
        self.assertEqual([it.offset for it in third], [11])
        self.assertEqual(fourth.tag, Tag(Class.PRIVATE, 5))
        self.assertEqual([it.constructed for it in (first, second, third)], [False, True, True])
        self.assertEqual(list(first.children), [])
        self.assertEqual([str(it.tag) for it in (first, second, third)],
                         ["NULL", "[APPLICATION 128]", "[0]"])

    def test_values_before_a_refusal(self):
        values = bcder.values(b"\x05\x00\x05\x01")
        self.assertEqual(next(values).offset, 0)
        with self.assertRaises(bcder.Error) as found:
            next(values)
        self.assertEqual(found.exception.offset, 2)
        self.assertEqual(str(found.exception),
                         "octet 2: a value with more contents octets than there are")

    def test_the_octets_are_kept(self):
        [value] = bcder.values(bytearray(b"\x02\x01\x07"))
        self.assertEqual(value.int(), 7)

    def test_numbers(self):
        for text, number in (("020100", 0), ("0201ff", -1), ("02020080", 128), ("0201 80", -128),
                             ("0211 00" + "ff" * 16, 2**128 - 1), ("0202 ff7f", -129),
                             ("0211 ff" + "00" * 15 + "01", 1 - 2**128), ("0203 ff0000", -65536),
                             ("0210 80" + "00" * 15, -2**127), ("0201 7f", 127)):
            self.assertEqual(one(text).int(), number)
        for text in ("0200", "02020005", "0202ff80"):
            with self.assertRaises(bcder.Error):
                one(text).int()
        self.assertEqual(one("800107").int(), 7)

    def test_truth(self):
        self.assertIs(one("0101ff").bool(), True)
        self.assertIs(one("010100").bool(), False)
        self.assertIs(one("010101", BER).bool(), True)
        with self.assertRaises(bcder.Error):
            one("010101").bool()
        self.assertIsNone(one("0500").null())
        with self.assertRaises(bcder.Error):
            one("050100").null()

    def test_identifiers(self):
        self.assertEqual(one("06032a8648").oid(), "1.2.840")
        self.assertEqual(one("0603883703").oid(), "2.999.3")
        self.assertEqual(one("060127").oid(), "0.39")
        self.assertEqual(one("060b 6982 8080 8080 8080 8080 00").oid(), f"2.25.{2**64}")
        self.assertEqual(one("0614 69 83" + "ff" * 17 + "7f").oid(), f"2.25.{2**128 - 1}")
        self.assertEqual(one("060128").oid(), "1.0")
        self.assertEqual(one("06028837").oid(), "2.999")
        for text in ("0600", "060180", "06022a80", "0615 69 84" + "80" * 18 + "00"):
            with self.assertRaises(bcder.Error):
                one(text).oid()

    def test_bits(self):
        self.assertEqual(one("0303 04 a5f0").bits(), (b"\xa5\xf0", 4))
        self.assertEqual(one("030100").bits(), (b"", 0))
        for text in ("0300", "030101", "03020800", "030204a5"):
            with self.assertRaises(bcder.Error):
                one(text).bits()
        self.assertEqual(one("030204a5", BER).bits(), (b"\xa5", 4))

    def test_octets(self):
        self.assertEqual(one("0402 6162").octets(), b"ab")
        self.assertEqual(one("2480 040161 2403 040162 0400 0000", BER).octets(), b"ab")
        self.assertEqual(one("2480 2480 040161 0000 2403 040162 0000", BER).octets(), b"ab")
        self.assertEqual(one("a003 040161", BER).octets(), b"a")
        for text, rules in (("2403 040161", DER), ("2403 020161", BER), ("2480 040161 0000", CER),
                            ("2402 2400", DER), ("2480 0403616263 040161 0000", CER)):
            with self.assertRaises(bcder.Error):
                one(text, rules).octets()
        long = b"\x24\x80\x04\x82\x03\xe8" + b"a" * 1000 + b"\x04\x01b\x00\x00"
        [value] = bcder.values(long, CER)
        self.assertEqual(value.octets(), b"a" * 1000 + b"b")

    def test_text(self):
        self.assertEqual(one("0c02 c3a9").text(), "é")
        self.assertEqual(one("1302 4162").text(), "Ab")
        self.assertEqual(one("1202 3120").text(), "1 ")
        self.assertEqual(one("1602 4040").text(), "@@")
        self.assertEqual(one("8002 4162").text(19), "Ab")
        for text in ("0c01c3", "130140", "120141", "160180", "0c03eda080"):
            with self.assertRaises(bcder.Error):
                one(text).text()
        with self.assertRaises(bcder.Error):
            one("040161").text()

    def test_other_types(self):
        for call in ("bool", "null", "oid", "bits", "octets", "text"):
            with self.assertRaises(bcder.Error) as found:
                getattr(one("020105"), call)()
            self.assertEqual(found.exception.kind, Kind.OTHER_TAG)
        with self.assertRaises(bcder.Error):
            one("2203 020105", BER).int()


def load_tests(_loader, tests, _pattern):
    tests.addTests(doctest.DocTestSuite(bcder))
    return tests


if __name__ == "__main__":
    unittest.main()

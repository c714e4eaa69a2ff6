"""peers.py FILE..: nanoseconds of processor time for an octet from Python, the least of three rounds, over the
last 100 files. Each file is a value in DER. Each way goes through all values."""
import sys, time

import bcder


def values(found):
    return sum(1 + values(it.children) if it.constructed else 1 for it in found)


def of_asn1crypto(octets):
    from asn1crypto import parser

    def inside(contents):
        met, at = 0, 0
        while at < len(contents):
            info, at = parser._parse(contents, len(contents), at)
            met += 1 + (inside(info[4]) if info[1] == 1 else 0)
        return met

    return inside(octets)


def of_pyasn1(octets):
    from pyasn1.codec.der import decoder
    from pyasn1.type.base import ConstructedAsn1Type

    def met(value):
        inside = value.values() if hasattr(value, "values") else value
        return 1 + (sum(map(met, inside)) if isinstance(value, ConstructedAsn1Type) else 0)

    value, rest = decoder.decode(octets)
    assert not rest
    return met(value)


WAYS = {
    "bcder.check": lambda octets: bcder.check(octets, bcder.DER).values,
    "bcder.values, each value": lambda octets: values(bcder.values(octets, bcder.DER)),
    "asn1crypto.parser, each value": of_asn1crypto,
    "pyasn1, each value": of_pyasn1,
}


def main(files):
    octets = [open(it, "rb").read() for it in files]
    size = sum(map(len, octets))
    print(f"{len(files)} files, {size} octets, from Python")
    for name, way in WAYS.items():
        try:
            took = []
            for _ in range(3):
                begun = time.process_time()
                met = sum(map(way, octets))
                took.append(time.process_time() - begun)
            print(f"{min(took) * 1e9 / size:8.1f} ns an octet  {name:42} ({met})")
        except ImportError as error:
            print(f"       - {name}: {error}")


main(sys.argv[1:][-100:])

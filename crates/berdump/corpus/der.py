"""Puts values together in DER by hand (X.690, 8 and 10), so that no program that is compared has a part in it."""
UNIVERSAL, APPLICATION, CONTEXT, PRIVATE = range(4)


def base_128(number):
    """Seven bits an octet, the highest first, and bit 8 on all but the last (8.1.2.4.2, 8.19.2)."""
    octets = [number & 127]
    while number := number >> 7:
        octets.append(number & 127 | 128)
    return bytes(reversed(octets))


def identifier(kind, number, constructed):
    """Identifier octets (8.1.2)."""
    first = kind << 6 | constructed << 5
    return bytes([first | number]) if number < 31 else bytes([first | 31]) + base_128(number)


def length(count):
    """Length octets of the definite form, the fewest (10.1)."""
    if count < 128:
        return bytes([count])
    octets = count.to_bytes((count.bit_length() + 7) // 8, "big")
    return bytes([128 | len(octets)]) + octets


def primitive(number, contents, kind=UNIVERSAL):
    octets = contents.encode() if isinstance(contents, str) else contents
    return identifier(kind, number, False) + length(len(octets)) + octets


def constructed(number, *values, kind=UNIVERSAL):
    octets = b"".join(values)
    return identifier(kind, number, True) + length(len(octets)) + octets


def indefinite(number, *values, kind=UNIVERSAL):
    """The same in the indefinite form (8.1.3.6), which DER hasn't."""
    return identifier(kind, number, True) + b"\x80" + b"".join(values) + b"\0\0"


def boolean(truth):
    return primitive(1, b"\xff" if truth else b"\0")


def signed(number):
    """The contents octets of an INTEGER: two's complement, the fewest octets (8.3.2)."""
    return number.to_bytes(((number if number >= 0 else ~number).bit_length() + 8) // 8, "big", signed=True)


def integer(number):
    return primitive(2, signed(number))


def bits(octets, unused=0):
    return primitive(3, bytes([unused]) + octets)


def octets(contents):
    return primitive(4, contents)


NULL = primitive(5, b"")


def oid(text):
    """An OBJECT IDENTIFIER (8.19): its first two numbers are one subidentifier."""
    first, second, *others = map(int, text.split("."))
    return primitive(6, b"".join(map(base_128, [40 * first + second, *others])))


def enumerated(number):
    return primitive(10, signed(number))


def utf8(text):
    return primitive(12, text)


def sequence(*values):
    return constructed(16, *values)


def set_of(*values):
    """The values of a SET OF stand in the order of their octets (11.6)."""
    return constructed(17, *sorted(values))


def printable(text):
    return primitive(19, text)


def ia5(text):
    return primitive(22, text)


def utc_time(text):
    return primitive(23, text)


def generalized_time(text):
    return primitive(24, text)


def visible(text):
    return primitive(26, text)


def general(text):
    return primitive(27, text)


def context(number, *values):
    """A constructed value with a context-specific tag: an explicit one, or that of a SEQUENCE or a SET."""
    return constructed(number, *values, kind=CONTEXT)


def context_octets(number, contents):
    return primitive(number, contents, kind=CONTEXT)


def application(number, *values):
    return constructed(number, *values, kind=APPLICATION)


def application_octets(number, contents):
    return primitive(number, contents, kind=APPLICATION)

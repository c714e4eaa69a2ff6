"""Messages of protocols, put together by hand after the types in their RFCs."""
import hashlib, ipaddress, zlib

from der import *

# ---- LDAP (RFC 4511, 4 and appendix B)


def ldap_message(number, operation, *controls):
    return sequence(integer(number), operation, *[context(0, *controls)] * bool(controls))


def ldap_result(code, matched="", diagnostic="", *referral):
    return (enumerated(code), octets(matched), octets(diagnostic), *[context(3, *map(octets, referral))] * bool(referral))


def control(identified, critical=False, *value):
    """A Control (4.1.11)."""
    return sequence(octets(identified), *[boolean(True)] * critical, *map(octets, value))


def attribute(name, *values):
    """A PartialAttribute (4.1.7)."""
    return sequence(octets(name), set_of(*map(octets, values)))


def assertion(number, name, value):
    return context(number, octets(name), octets(value))


# Filters (4.5.1.7), each with the text that RFC 4515 has for it.
FILTERS = {
    "present": context_octets(7, "objectClass"),  # (objectClass=*)
    "equality": assertion(3, "cn", "Babs Jensen"),  # (cn=Babs Jensen)
    "not": context(2, assertion(3, "cn", "Tim Howes")),  # (!(cn=Tim Howes))
    # (&(objectClass=Person)(|(sn=Jensen)(cn=Babs J*)))
    "and_or": context(0, context(1, assertion(3, "sn", "Jensen"),
                                 context(4, octets("cn"), sequence(context_octets(0, "Babs J")))),
                      assertion(3, "objectClass", "Person")),
    # (o=univ*of*mich*)
    "substrings": context(4, octets("o"), sequence(
        context_octets(0, "univ"), context_octets(1, "of"), context_octets(1, "mich"))),
    "final": context(4, octets("mail"), sequence(context_octets(2, "@example.com"))),  # (mail=*@example.com)
    "ranges": context(0, assertion(5, "uidNumber", "1000"), assertion(6, "uidNumber", "1999")),
    "approximate": assertion(8, "cn", "Jon Smith"),  # (cn~=Jon Smith)
    # (sn:dn:2.4.6.8.10:=Barney Rubble)
    "extensible": context(9, context_octets(1, "2.4.6.8.10"), context_octets(2, "sn"),
                          context_octets(3, "Barney Rubble"), context_octets(4, b"\xff")),
    "binary": assertion(3, "userCertificate;binary", bytes(range(256))),
    "and_of_none": context(0),  # (&), absolute true (RFC 4526)
    "accented": assertion(3, "cn", "Zoë Müller-Straße"),
}


def ldap():
    message = ldap_message
    yield "bind_simple", message(1, application(0, integer(3), octets("cn=admin,dc=example,dc=com"),
                                                context_octets(0, "secret")))
    yield "bind_anonymous", message(2, application(0, integer(3), octets(""), context_octets(0, "")))
    yield "bind_sasl", message(3, application(0, integer(3), octets(""), context(
        3, octets("PLAIN"), octets(b"\0user\0pencil"))))
    yield "bind_sasl_external", message(4, application(0, integer(3), octets(""), context(3, octets("EXTERNAL"))))
    yield "bind_response", message(1, application(1, *ldap_result(0)))
    yield "bind_response_sasl", message(3, application(1, *ldap_result(14), context_octets(7, b"\x60\x02\x06\0")))
    yield "bind_response_refused", message(3, application(1, *ldap_result(49, "", "80090308: LdapErr: DSID-0C0903A9")))
    yield "unbind", message(5, application_octets(2, b""))
    for name, filtered in FILTERS.items():
        yield f"search_{name}", message(6, application(
            3, octets("dc=example,dc=com"), enumerated(2), enumerated(0), integer(1000), integer(30), boolean(False),
            filtered, sequence(octets("cn"), octets("mail"), octets("userCertificate;binary"))))
    yield "search_of_types", message(7, application(
        3, octets(""), enumerated(0), enumerated(3), integer(0), integer(2**31 - 1), boolean(True),
        FILTERS["present"], sequence(octets("*"), octets("+"))))
    # paged results (RFC 2696), server-side sorting (RFC 2891)
    yield "search_paged", message(8, application(
        3, octets("ou=people,dc=example,dc=com"), enumerated(1), enumerated(0), integer(0), integer(0), boolean(False),
        FILTERS["equality"], sequence()),
        control("1.2.840.113556.1.4.319", True, sequence(integer(500), octets(b""))),
        control("1.2.840.113556.1.4.473", False, sequence(sequence(
            octets("sn"), context_octets(0, "2.5.13.3"), context_octets(1, b"\xff")))))
    yield "entry", message(6, application(4, octets("cn=Babs Jensen,dc=example,dc=com"), sequence(
        attribute("objectClass", "top", "person", "organizationalPerson", "inetOrgPerson"),
        attribute("cn", "Babs Jensen", "Barbara Jensen"), attribute("jpegPhoto", b"\xff\xd8\xff\xe0" + bytes(400)),
        attribute("description", "Zeile eins\nZeile zwei\r\n\ttab"), attribute("sn", "Jensen"), attribute("seeAlso"))))
    yield "entry_of_types", message(7, application(4, octets(""), sequence(attribute("supportedExtension"))))
    yield "reference", message(6, application(19, octets("ldap://hostb/OU=People,DC=Example,DC=NET??sub"),
                                              octets("ldap://hostf/OU=Consultants,OU=People,DC=Example,DC=NET??sub")))
    yield "done", message(6, application(5, *ldap_result(0)))
    yield "done_referred", message(6, application(5, *ldap_result(
        10, "dc=example,dc=com", "go there", "ldap://a.example.com/", "ldap://b.example.com/")))
    yield "done_paged", message(8, application(5, *ldap_result(0)), control(
        "1.2.840.113556.1.4.319", False, sequence(integer(0), octets(b"\x01\x00\x00\x00\xfe"))))
    # modify: add, delete, replace (4.6); increment (RFC 4525)
    yield "modify", message(9, application(6, octets("cn=Babs Jensen,dc=example,dc=com"), sequence(
        sequence(enumerated(0), attribute("mail", "babs@example.com")), sequence(enumerated(1), attribute("fax")),
        sequence(enumerated(2), attribute("title", "Manager", "Ingénieure")),
        sequence(enumerated(3), attribute("uidNumber", "1")))))
    yield "modify_response", message(9, application(7, *ldap_result(50, "", "no write access")))
    yield "add", message(10, application(8, octets("uid=new,dc=example,dc=com"), sequence(
        attribute("objectClass", "account"), attribute("uid", "new"))))
    yield "add_response", message(10, application(9, *ldap_result(68, "uid=new,dc=example,dc=com", "")))
    yield "delete", message(11, application_octets(10, "uid=new,dc=example,dc=com"), control("2.16.840.1.113730.3.4.2"))
    yield "delete_response", message(11, application(11, *ldap_result(66, "", "has children")))
    yield "rename", message(12, application(12, octets("cn=Modify Me,dc=example,dc=com"), octets("cn=The New Me"),
                                            boolean(True), context_octets(0, "ou=new,dc=example,dc=com")))
    yield "rename_response", message(12, application(13, *ldap_result(0)))
    yield "compare", message(13, application(14, octets("cn=x"), sequence(octets("sn"), octets("Jensen"))))
    yield "compare_response", message(13, application(15, *ldap_result(6)))
    yield "abandon", message(14, application_octets(16, signed(6)))
    yield "extended_start_tls", message(2**31 - 1, application(23, context_octets(0, "1.3.6.1.4.1.1466.20037")))
    # password modify (RFC 3062)
    yield "extended_password", message(15, application(23, context_octets(0, "1.3.6.1.4.1.4203.1.11.1"), context_octets(
        1, sequence(context_octets(0, "uid=new"), context_octets(1, "old"), context_octets(2, "new")))))
    yield "extended_response", message(15, application(24, *ldap_result(0), context_octets(10, "1.3.6.1.4.1.1466.20037"),
                                                       context_octets(11, sequence(context_octets(0, "generated")))))
    # notice of disconnection (4.4.1)
    yield "disconnected", message(0, application(24, *ldap_result(52, "", "shutting down"),
                                                 context_octets(10, "1.3.6.1.4.1.1466.20036")))
    # synchronization (RFC 4533)
    yield "intermediate", message(16, application(25, context_octets(0, "1.3.6.1.4.1.4203.1.9.1.4"),
                                                  context_octets(1, context_octets(0, "cookie"))))


# ---- SNMP (RFC 1157, 4; RFC 3416, 3; RFC 3412, 6; RFC 2578, 2)

SYS_DESCR, SYS_UP_TIME, IF_IN = "1.3.6.1.2.1.1.1.0", "1.3.6.1.2.1.1.3.0", "1.3.6.1.2.1.2.2.1.10.1"


def bound(name, value=NULL):
    return sequence(oid(name), value)


def snmp_pdu(number, request, status, index, *bindings):
    return context(number, integer(request), integer(status), integer(index), sequence(*bindings))


def snmp_message(version, pdu, community="public"):
    return sequence(integer(version), octets(community), pdu)


# The types of values, with their application tags (RFC 2578, 2).
SNMP_VALUES = {
    "address": application_octets(0, bytes([192, 0, 2, 1])),
    "counter": application_octets(1, signed(2**32 - 1)),
    "gauge": application_octets(2, signed(10**9)),
    "ticks": application_octets(3, signed(123456)),
    "opaque": application_octets(4, bytes.fromhex("9f780442f60000")),
    "counter64": application_octets(6, signed(2**64 - 1)),
    "string": octets("Linux host 6.1.0 #1 SMP x86_64"),
    "physical": octets(bytes.fromhex("02005e000101")),
    "integer": integer(-(2**31)),
    "identifier": oid("1.3.6.1.4.1.8072.3.2.10"),
    "no_such_object": context_octets(0, b""),
    "no_such_instance": context_octets(1, b""),
    "end_of_view": context_octets(2, b""),
}

ENGINE = bytes.fromhex("80001f8880e9630000d61ff449")


def snmp_3(flags, data, *, user="", boots=0, time=0, engine=ENGINE, authentic=b"", private=b""):
    """SNMPv3Message (RFC 3412, 6) with UsmSecurityParameters (RFC 3414, 2.4)."""
    security = sequence(octets(engine), integer(boots), integer(time), octets(user), octets(authentic), octets(private))
    header = sequence(integer(0x7A3B1C2D), integer(65507), octets(bytes([flags])), integer(3))
    return sequence(integer(3), header, octets(security), data)


def scoped(pdu, context_name=""):
    return sequence(octets(ENGINE), octets(context_name), pdu)


def snmp():
    yield "v1_get", snmp_message(0, snmp_pdu(0, 1, 0, 0, bound(SYS_DESCR)))
    yield "v1_next", snmp_message(0, snmp_pdu(1, -2, 0, 0, bound("1.3.6.1.2.1"), bound(SYS_UP_TIME)))
    yield "v1_response", snmp_message(0, snmp_pdu(2, 1, 0, 0, bound(SYS_DESCR, SNMP_VALUES["string"])))
    yield "v1_response_failed", snmp_message(0, snmp_pdu(2, 1, 2, 1, bound(SYS_DESCR)))
    yield "v1_set", snmp_message(0, snmp_pdu(3, 70000, 0, 0, bound("1.3.6.1.2.1.1.4.0", octets("admin"))), "private")
    yield "v1_trap", snmp_message(0, context(
        4, oid("1.3.6.1.4.1.8072.3.2.10"), SNMP_VALUES["address"], integer(6), integer(17), SNMP_VALUES["ticks"],
        sequence(bound(IF_IN, SNMP_VALUES["counter"]))))
    for name, value in SNMP_VALUES.items():
        yield f"v2_response_{name}", snmp_message(1, snmp_pdu(2, 2**31 - 1, 0, 0, bound(IF_IN, value)))
    yield "v2_bulk", snmp_message(1, snmp_pdu(5, 3, 1, 10, bound(SYS_UP_TIME), bound("1.3.6.1.2.1.2.2")))
    yield "v2_inform", snmp_message(1, snmp_pdu(6, 4, 0, 0, bound(SYS_UP_TIME, SNMP_VALUES["ticks"])))
    yield "v2_trap", snmp_message(1, snmp_pdu(
        7, 5, 0, 0, bound(SYS_UP_TIME, SNMP_VALUES["ticks"]),
        bound("1.3.6.1.6.3.1.1.4.1.0", oid("1.3.6.1.6.3.1.1.5.3")), bound("1.3.6.1.2.1.2.2.1.1.2", integer(2))))
    yield "v2_response_of_100", snmp_message(1, snmp_pdu(
        2, 6, 0, 0, *(bound(f"1.3.6.1.2.1.2.2.1.2.{at}", octets(f"eth{at}")) for at in range(100))), "")
    yield "v3_discovery", snmp_3(4, scoped(snmp_pdu(0, 7, 0, 0)), engine=b"")
    yield "v3_report", snmp_3(0, scoped(snmp_pdu(8, 7, 0, 0, bound(
        "1.3.6.1.6.3.15.1.1.4.0", SNMP_VALUES["counter"]))), boots=4, time=88012)
    yield "v3_authentic", snmp_3(1, scoped(snmp_pdu(1, 8, 0, 0, bound(SYS_DESCR)), "bridge1"), user="bert", boots=4,
                                 time=88013, authentic=bytes(range(12)))
    yield "v3_private", snmp_3(3, octets(bytes(range(100, 180))), user="bert", boots=4, time=88014,
                               authentic=bytes(range(12)), private=bytes(8))


# ---- Kerberos (RFC 4120, 5 and appendix A; PKINIT: RFC 4556)

REALM, TIME = general("ATHENA.MIT.EDU"), generalized_time("19940610060317Z")


def principal(kind, *names):
    """PrincipalName (5.2.2)."""
    return sequence(context(0, integer(kind)), context(1, sequence(*map(general, names))))


def encrypted(kind, cipher, *version):
    """EncryptedData (5.2.9)."""
    return sequence(context(0, integer(kind)), *(context(1, integer(it)) for it in version), context(2, octets(cipher)))


def keyed(kind, value):
    """EncryptionKey, Checksum, HostAddress, AuthorizationData's and TransitedEncoding: a number and octets."""
    return sequence(context(0, integer(kind)), context(1, octets(value)))


def pa_data(kind, value):
    return sequence(context(1, integer(kind)), context(2, octets(value)))


USER, SERVICE = principal(1, "hftsai", "extra"), principal(2, "krbtgt", "ATHENA.MIT.EDU")
TICKET = application(1, sequence(context(0, integer(5)), context(1, REALM), context(2, SERVICE),
                                 context(3, encrypted(18, bytes(range(64)), 5))))
ADDRESSES = sequence(keyed(2, bytes([18, 208, 0, 35])), keyed(24, bytes.fromhex("20010db8") + bytes(12)),
                     keyed(20, b"WORKSTATION     "))
FLAGS = bits(bytes.fromhex("50800000"))


def request_body(*, user=True, more=b""):
    """KDC-REQ-BODY (5.4.1)."""
    return sequence(
        context(0, bits(bytes.fromhex("40810010"))), *[context(1, USER)] * user, context(2, REALM), context(3, SERVICE),
        context(5, generalized_time("20370913024805Z")), context(6, generalized_time("20370913024805Z")),
        context(7, integer(2**32 - 1)), context(8, sequence(*map(integer, [18, 17, 23, 24, -135, 3]))),
        context(9, ADDRESSES), more)


def kdc_request(kind, body, *padata):
    return application(kind, sequence(context(1, integer(5)), context(2, integer(kind)),
                                      *[context(3, sequence(*padata))] * bool(padata), context(4, body)))


def kdc_reply(kind, *padata):
    return application(kind, sequence(
        context(0, integer(5)), context(1, integer(kind)), *[context(2, sequence(*padata))] * bool(padata),
        context(3, REALM), context(4, USER), context(5, TICKET), context(6, encrypted(18, bytes(200), 1))))


def kdc_reply_part(number):
    """EncASRepPart and EncTGSRepPart (5.4.2)."""
    return application(number, sequence(
        context(0, keyed(18, bytes(range(32)))), context(1, sequence(sequence(context(0, integer(0)), context(1, TIME)))),
        context(2, integer(42)), context(3, TIME), context(4, FLAGS), context(5, TIME), context(6, TIME),
        context(7, generalized_time("20370913024805Z")), context(9, REALM), context(10, SERVICE), context(11, ADDRESSES)))


def kerberos():
    version = context(0, integer(5))
    stamp = sequence(context(0, TIME), context(1, integer(123456)))
    request = application(14, sequence(version, context(1, integer(14)), context(2, bits(bytes.fromhex("20000000"))),
                                       context(3, TICKET), context(4, encrypted(18, bytes(100)))))
    # ETYPE-INFO2 (5.2.7.5), PA-PW-SALT (5.2.7.3)
    salted = sequence(sequence(context(0, integer(18)), context(1, general("ATHENA.MIT.EDUhftsai")),
                               context(2, octets(bytes([0, 0, 16, 0])))), sequence(context(0, integer(23))))
    yield "as_req", kdc_request(10, request_body())
    yield "as_req_with_time", kdc_request(10, request_body(), pa_data(2, encrypted(18, bytes(56))), pa_data(149, b""))
    yield "as_req_pac", kdc_request(10, request_body(), pa_data(128, sequence(context(0, boolean(True)))))
    yield "as_rep", kdc_reply(11, pa_data(19, salted), pa_data(3, b"ATHENA.MIT.EDUhftsai"))
    yield "as_rep_bare", kdc_reply(11)
    yield "tgs_req", kdc_request(12, request_body(user=False), pa_data(1, request))
    yield "tgs_req_for_user", kdc_request(12, request_body(
        user=False, more=context(10, encrypted(18, bytes(40))) + context(11, sequence(TICKET, TICKET))),
        pa_data(1, request), pa_data(129, sequence(context(0, USER), context(1, REALM), context(
            2, sequence(context(0, integer(-138)), context(1, octets(bytes(16))))), context(3, general("Kerberos")))))
    yield "tgs_rep", kdc_reply(13)
    yield "ap_req", request
    yield "ap_rep", application(15, sequence(version, context(1, integer(15)), context(2, encrypted(17, bytes(60)))))
    yield "ticket", TICKET
    yield "authenticator", application(2, sequence(
        version, context(1, REALM), context(2, USER), context(3, keyed(16, bytes(20))), context(4, integer(999999)),
        context(5, TIME), context(6, keyed(17, bytes(16))), context(7, integer(17)),
        context(8, sequence(keyed(1, sequence(keyed(128, bytes(24))))))))
    yield "ticket_part", application(3, sequence(
        context(0, FLAGS), context(1, keyed(18, bytes(32))), context(2, REALM), context(3, USER),
        context(4, keyed(1, b"EDU,MIT.,ATHENA.,WASHINGTON.EDU,CS.")), context(5, TIME), context(6, TIME),
        context(7, TIME), context(8, TIME), context(9, ADDRESSES), context(10, sequence(keyed(1, b"")))))
    yield "as_rep_part", kdc_reply_part(25)
    yield "tgs_rep_part", kdc_reply_part(26)
    yield "ap_rep_part", application(27, sequence(context(0, TIME), context(1, integer(0)), context(
        2, keyed(17, bytes(16))), context(3, integer(17))))
    yield "safe", application(20, sequence(version, context(1, integer(20)), context(2, sequence(
        context(0, octets("krb5data")), context(1, TIME), context(2, integer(123456)), context(3, integer(17)),
        context(4, keyed(2, bytes([18, 208, 0, 35]))))), context(3, keyed(16, bytes(range(20))))))
    yield "private", application(21, sequence(version, context(1, integer(21)), context(3, encrypted(18, bytes(32)))))
    yield "private_part", application(28, sequence(context(0, octets("krb5data")), context(1, TIME), context(
        2, integer(1)), context(3, integer(2**32 - 1)), context(4, keyed(2, bytes(4)))))
    yield "credentials", application(22, sequence(version, context(1, integer(22)), context(2, sequence(TICKET)),
                                                  context(3, encrypted(0, bytes(20)))))
    yield "credentials_part", application(29, sequence(context(0, sequence(sequence(
        context(0, keyed(18, bytes(32))), context(1, REALM), context(2, USER), context(3, FLAGS), context(8, REALM),
        context(9, SERVICE)))), context(1, integer(42)), context(2, TIME), context(3, integer(5))))
    yield "error", application(30, sequence(
        version, context(1, integer(30)), context(4, TIME), context(5, integer(123456)), context(6, integer(60)),
        context(9, REALM), context(10, SERVICE)))
    yield "error_preauth", application(30, sequence(
        version, context(1, integer(30)), context(2, TIME), context(3, integer(1)), context(4, TIME),
        context(5, integer(999999)), context(6, integer(25)), context(7, REALM), context(8, USER), context(9, REALM),
        context(10, SERVICE), context(11, general("NEEDED_PREAUTH")),
        context(12, octets(sequence(pa_data(2, b""), pa_data(19, salted), pa_data(136, b""))))))
    yield "time_stamp", stamp
    yield "etype_info", salted
    # AuthPack (RFC 4556, 3.2.1), which PKINIT signs
    yield "auth_pack", auth_pack()


def auth_pack():
    public = sequence(sequence(oid("1.2.840.10046.2.1"), sequence(integer(2**255 - 19), integer(2), integer(2**254))),
                      bits(integer(2**253 + 11)))
    return sequence(
        context(0, sequence(context(0, integer(123456)), context(1, TIME), context(2, integer(42)),
                            context(3, octets(bytes(range(20)))))),
        context(1, public), context(2, sequence(sequence(oid("1.2.840.113549.3.7")))), context(3, octets(bytes(32))))


# ---- SPNEGO (RFC 4178, 4.2), in the token of RFC 2743, 3.1

SPNEGO, KERBEROS, NTLM = "1.3.6.1.5.5.2", "1.2.840.113554.1.2.2", "1.3.6.1.4.1.311.2.2.10"


def spnego():
    mechanisms = context(0, sequence(oid(KERBEROS), oid("1.2.840.48018.1.2.2"), oid(NTLM)))
    # a token of Kerberos (RFC 4121, 4.1): behind the mechanism two octets, which encode no value
    token = application(0, oid(KERBEROS), b"\1\0", dict(kerberos())["ap_req"])
    yield "init", application(0, oid(SPNEGO), context(0, sequence(mechanisms)))
    yield "init_flags", application(0, oid(SPNEGO), context(0, sequence(
        mechanisms, context(1, bits(bytes([0b01110010]), 1)), context(2, octets(token)), context(3, octets(bytes(16))))))
    # negHints as Windows has them ([MS-SPNG], 2.2.1)
    yield "init_hints", application(0, oid(SPNEGO), context(0, sequence(mechanisms, context(3, sequence(
        context(0, general("not_defined_in_RFC4178@please_ignore")))))))
    yield "response", context(1, sequence(context(0, enumerated(1)), context(1, oid(NTLM)),
                                          context(2, octets(b"NTLMSSP\0\2" + bytes(40)))))
    yield "response_done", context(1, sequence(context(0, enumerated(0)), context(3, octets(bytes(16)))))
    yield "response_refused", context(1, sequence(context(0, enumerated(2))))


# ---- objects of the RPKI (RFC 6482, 3; RFC 9286, 4.2; RFC 6493, 5; RFC 9323, 4), each with the type of its contents


def prefix(text, longest=None):
    """An address and its length, as ROAIPAddress."""
    address = ipaddress.ip_network(text)
    count = -(-address.prefixlen // 8)
    found = bits(address.network_address.packed[:count], 8 * count - address.prefixlen)
    return sequence(found, *[integer(longest)] if longest else [])


def resources():
    hashed = hashlib.sha256(b"").digest()
    roa = sequence(integer(64496), sequence(
        sequence(octets(b"\0\1"), sequence(prefix("10.64.0.0/12", 24), prefix("192.0.2.0/24"), prefix("0.0.0.0/0"))),
        sequence(octets(b"\0\2"), sequence(prefix("2001:db8::/32", 48), prefix("2001:db8:8000::/33")))))
    manifest = sequence(
        integer(2**159 - 1), TIME, generalized_time("19940611060317Z"), oid("2.16.840.1.101.3.4.2.1"),
        sequence(*(sequence(ia5(name), bits(hashed)) for name in ("ca.crl", "a-roa.roa", "gb.gbr"))))
    card = "BEGIN:VCARD\r\nVERSION:4.0\r\nFN:Human's Name\r\nEMAIL:human@example.com\r\nEND:VCARD\r\n"
    checklist = sequence(
        sequence(context(0, sequence(context(0, sequence(integer(64496), sequence(integer(64500), integer(64511))))))),
        sequence(oid("2.16.840.1.101.3.4.2.1")),
        sequence(sequence(ia5("file.txt"), octets(hashed)), sequence(octets(hashed))))
    types = {"roa": (24, roa), "manifest": (26, manifest), "ghostbusters": (35, card.encode()),
             "checklist": (48, checklist)}
    return {name: (f"1.2.840.113549.1.9.16.1.{number}", contents) for name, (number, contents) in types.items()}


# ---- attribute certificates (RFC 5755, 4): what is signed of them


def directory(text):
    """A GeneralName of a Name with one attribute, commonName."""
    return context(4, sequence(set_of(sequence(oid("2.5.4.3"), utf8(text)))))


def typed(number, *found):
    """An Attribute."""
    return sequence(oid(number), set_of(*found))


def attribute_certificate(holder, attributes, *extensions, serial=7):
    return sequence(
        integer(1), holder, context(0, sequence(directory("Attribute Authority"))), sequence(oid("1.2.840.10045.4.3.2")),
        integer(serial), sequence(TIME, generalized_time("20370610060317Z")), sequence(*attributes),
        *[sequence(*(sequence(oid(number), *[boolean(True)] * critical, octets(value))
                     for number, critical, value in extensions))] * bool(extensions))


def attribute_certificates():
    base = sequence(context(0, sequence(directory("Issuer")), integer(2**70)))
    named = sequence(context(1, directory("Holder")))
    hashed = sequence(context(2, enumerated(0), sequence(oid("2.16.840.1.101.3.4.2.1")), bits(bytes(32))))
    role = typed("2.5.4.72", sequence(context(0, directory("Roles")), context(1, context_octets(6, "urn:role:admin"))))
    group = typed("1.3.6.1.5.5.7.10.4", sequence(sequence(utf8("staff"), octets(b"\0\1"), oid("2.999.8"))))
    access = typed("1.3.6.1.5.5.7.10.2", sequence(
        context_octets(2, "host.example.com"), context_octets(1, "user@example.com"), octets("secret")))
    clearance = typed("2.5.4.55", sequence(oid("2.999.9"), bits(bytes([0b00101000]), 3)))
    identity = "1.3.6.1.5.5.7.1.4", True, octets(b"\7")
    targets = "2.5.29.55", True, sequence(sequence(context(0, context_octets(2, "example.com"))))
    return {
        "role": attribute_certificate(base, [role], ("2.5.29.56", False, NULL)),
        "group": attribute_certificate(named, [group], serial=2**159 - 1),
        "several": attribute_certificate(hashed, [access, group, clearance, role], identity, targets),
    }


# ---- what openssl doesn't make of CMS: authenticated data (RFC 5652, 9.1), compressed data (RFC 3274, 1.1)


def cms():
    recipient = context(2, integer(4), sequence(octets(b"\xc0\xff")), sequence(oid("2.16.840.1.101.3.4.1.5")),
                        octets(bytes(24)))
    authentic = context(2, typed("1.2.840.113549.1.9.3", oid("1.2.840.113549.1.7.1")),
                        typed("1.2.840.113549.1.9.4", octets(bytes(32))))
    for name, attributes in (("bare", []), ("with_attributes", [authentic])):
        yield f"authenticated_{name}", sequence(oid("1.2.840.113549.1.9.16.1.2"), context(0, sequence(
            integer(0), set_of(recipient), sequence(oid("1.2.840.113549.2.9"), NULL),
            *[context(1, oid("2.16.840.1.101.3.4.2.1"))] * bool(attributes),
            sequence(oid("1.2.840.113549.1.7.1"), context(0, octets("A text"))), *attributes, octets(bytes(32)))))
    yield "compressed", sequence(oid("1.2.840.113549.1.9.16.1.9"), context(0, sequence(
        integer(0), sequence(oid("1.2.840.113549.1.9.16.3.8")),
        sequence(oid("1.2.840.113549.1.7.1"), context(0, octets(zlib.compress(b"A text " * 100)))))))

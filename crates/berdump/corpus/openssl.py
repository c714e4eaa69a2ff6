"""Files that openssl writes."""
import base64, contextlib, os, re, subprocess

from der import *

CONFIGURATION = """
[ca]
default_ca = authority
[authority]
dir = .
database = index.txt
serial = serial
crlnumber = crlnumber
new_certs_dir = .
certificate = authority.pem
private_key = authority.key
default_md = sha256
default_crl_days = 3650
policy = anything
copy_extensions = copy
unique_subject = no
crl_extensions = crl_bare
[anything]
[crl_bare]

[req]
distinguished_name = asked
prompt = no
string_mask = utf8only
[asked]
CN = asked

[tsa]
default_tsa = stamp
[stamp]
serial = tsa_serial
crypto_device = builtin
signer_digest = sha256
default_policy = 1.2.3.4.1
other_policies = 1.2.3.4.5.6, 1.2.3.4.5.7
digests = sha1, sha256, sha384, sha512
accuracy = secs:1, millisecs:500, microsecs:100
clock_precision_digits = 3
ordering = yes
tsa_name = yes
ess_cert_id_chain = yes
ess_cert_id_alg = sha1
[stamp_bare]
serial = tsa_serial
crypto_device = builtin
signer_digest = sha512
default_policy = 1.2.3.4.1
digests = sha256, sha512
ess_cert_id_alg = sha256

[directory]
C = DE
O = Verzeichnis
CN = Jürgen Groß
[relative]
CN = relative
[distribution]
fullname = URI:http://crl.example.com/a.crl
CRLissuer = dirName:directory
reasons = keyCompromise, CACompromise
[distribution_relative]
relativename = relative
[point]
fullname = URI:http://crl.example.com/point.crl
onlyuser = TRUE
indirectCRL = TRUE
[policy]
policyIdentifier = 1.3.5.8
CPS.1 = http://policy.example.com/
CPS.2 = http://policy.example.org/
userNotice.1 = @notice
[notice]
explicitText = UTF8:Hinweis für Nutzer
organization = Organisation
noticeNumbers = 1, 2, 300
[policy_visible]
policyIdentifier = 1.3.5.9
userNotice.1 = @notice_visible
[notice_visible]
explicitText = VISIBLE:A notice
[policy_bmp]
policyIdentifier = 1.3.5.10
userNotice.1 = @notice_bmp
[notice_bmp]
explicitText = BMP:A notice
[addresses]
IPv4.0 = 10.0.0.0/8
IPv4.1 = 192.0.2.0-192.0.2.130
IPv6.0 = 2001:db8::/32
IPv6.1 = 2001:dba:1::-2001:dba:4:ffff:ffff:ffff:ffff:ffff
[addresses_inherited]
IPv4.0 = inherit
IPv6.0 = inherit
[numbers]
AS.0 = 64496
AS.1 = 64500-64511
RDI.0 = inherit
[proxy]
language = id-ppl-anyLanguage
pathlen = 3
policy = text:AB
[period]
a = IMP:0, GENTIME:20240101000000Z
b = IMP:1, GENTIME:20260101000000Z
[statements]
a = SEQUENCE:statement
b = SEQUENCE:limit
[statement]
a = OID:0.4.0.1862.1.1
[limit]
a = OID:0.4.0.1862.1.2
b = SEQUENCE:amount
[amount]
a = PRINTABLE:EUR
b = INT:10000
c = INT:-1
[template]
a = OID:1.3.6.1.4.1.311.21.8.1
b = INT:100
c = INT:3
[directory_attributes]
a = SEQUENCE:birth
[birth]
a = OID:1.3.6.1.5.5.7.9.1
b = SET:births
[births]
a = GENTIME:19710917120000Z
[capabilities]
a = SEQUENCE:capability
[capability]
a = OID:2.16.840.1.101.3.4.1.42
[version]
a = GENSTR:V7.1
b = FORMAT:BITLIST, BITSTR:1,5
[logotype]
a = EXP:2, SEQUENCE:amount
[one_of_each]
a = BOOL:TRUE
b = INT:-129
c = ENUM:7
d = NULL
e = OID:2.999.1
f = UTC:240101000000Z
g = GENTIME:20240101000000Z
h = FORMAT:HEX, OCT:00FF10
i = FORMAT:HEX, BITSTR:A0B0
j = UNIV:universal
k = IA5:user@example.com
l = UTF8:Grüße
m = BMP:two octets each
n = VISIBLE:visible
o = PRINTABLE:printable
p = T61:teletex
q = GENSTR:general
r = NUMERIC:0123 456
s = EXP:5A, EXP:6P, EXP:7C, INT:1
t = OCTWRAP, SEQWRAP, SETWRAP, BITWRAP, BOOL:FALSE
u = SETWRAP, UTF8:in a set
"""

# Lines of extensions: of each a certificate is made.
EXTENSIONS = {
    "constraints": "basicConstraints=critical,CA:TRUE,pathlen:0",
    "constraints_long": "basicConstraints=CA:TRUE,pathlen:70000",
    "constraints_none": "basicConstraints=CA:FALSE",
    "usage": "keyUsage=critical,digitalSignature,keyCertSign,cRLSign",
    "usage_nine": "keyUsage=digitalSignature,nonRepudiation,keyEncipherment,dataEncipherment,keyAgreement,keyCertSign,"
                  "cRLSign,encipherOnly,decipherOnly",
    "usage_last": "keyUsage=decipherOnly",
    "purposes": "extendedKeyUsage=serverAuth,clientAuth,codeSigning,emailProtection,timeStamping,OCSPSigning,ipsecIKE,"
                "msCodeInd,msCodeCom,msCTLSign,msEFS,nsSGC,1.3.6.1.4.1.311.20.2.2,1.3.6.1.5.2.3.5,2.999.7",
    "keys": "subjectKeyIdentifier=hash\nauthorityKeyIdentifier=keyid:always,issuer:always",
    "names": "subjectAltName=DNS:example.com,DNS:*.example.com,email:user@example.com,IP:192.0.2.1,IP:2001:db8::1,"
             "URI:https://example.com/?q=1,RID:1.2.3.4,dirName:directory,"
             "otherName:1.3.6.1.4.1.311.20.2.3;UTF8:user@example.com,otherName:1.3.6.1.5.5.7.8.5;UTF8:xmpp.example.com",
    "names_of_issuer": "issuerAltName=issuer:copy,URI:http://ca.example.com/",
    "names_100": "subjectAltName=" + ",".join(f"DNS:host{at}.example.com" for at in range(100)),
    "points": "crlDistributionPoints=URI:http://crl.example.com/1.crl,URI:ldap://ldap.example.com/cn=1?certificateList",
    "points_in_full": "crlDistributionPoints=distribution,distribution_relative",
    "freshest": "freshestCRL=URI:http://crl.example.com/delta.crl",
    "access": "authorityInfoAccess=OCSP;URI:http://ocsp.example.com/,caIssuers;URI:http://ca.example.com/ca.cer",
    "access_of_subject": "subjectInfoAccess=caRepository;URI:rsync://rpki.example.net/repo/,"
                         "1.3.6.1.5.5.7.48.10;URI:rsync://rpki.example.net/repo/ca.mft,"
                         "1.3.6.1.5.5.7.48.13;URI:https://rrdp.example.net/notify.xml,ad_timestamping;IP:192.0.2.7",
    "policies": "certificatePolicies=2.23.140.1.2.1,1.3.6.1.4.1.11129.2.5.3,@policy",
    "policies_visible": "certificatePolicies=@policy_visible",
    "policies_bmp": "certificatePolicies=@policy_bmp",
    "policies_old": "certificatePolicies=ia5org,@policy,2.5.29.32.0",
    "mappings": "policyMappings=1.2.3.4:1.2.3.5,1.2.3.6:2.999.6",
    "policy_constraints": "policyConstraints=requireExplicitPolicy:3,inhibitPolicyMapping:0",
    "inhibited": "inhibitAnyPolicy=2",
    "subtrees": "nameConstraints=critical,permitted;DNS:.example.com,permitted;IP:192.0.2.0/255.255.255.0,"
                "excluded;email:.example.org,permitted;dirName:directory,excluded;IP:2001:db8::/ffff:ffff::,"
                "permitted;URI:.example.com",
    "no_check": "noCheck=ignored",
    "features": "tlsfeature=status_request,17",
    "netscape": "nsCertType=client,email,objsign,sslCA\nnsComment=a comment\nnsBaseUrl=http://example.com/\n"
                "nsRevocationUrl=r\nnsCaRevocationUrl=c\nnsRenewalUrl=n\nnsCaPolicyUrl=p\nnsSslServerName=s",
    "proxied": "proxyCertInfo=critical,@proxy",
    "addresses": "sbgp-ipAddrBlock=critical,@addresses\nsbgp-autonomousSysNum=critical,@numbers",
    "addresses_inherited": "sbgp-ipAddrBlock=critical,@addresses_inherited",
    "poison": "1.3.6.1.4.1.11129.2.4.3=critical,ASN1:NULL",
    # a list of no signed timestamps, in TLS's form (RFC 6962, 3.3)
    "timestamps": "1.3.6.1.4.1.11129.2.4.2=DER:04020000",
    "period": "2.5.29.16=ASN1:SEQUENCE:period",
    "statements": "qcStatements=ASN1:SEQUENCE:statements",
    "attributes": "2.5.29.9=ASN1:SEQUENCE:directory_attributes",
    "template": "1.3.6.1.4.1.311.21.7=ASN1:SEQUENCE:template\n1.3.6.1.4.1.311.20.2=ASN1:BMP:DomainController\n"
                "1.3.6.1.4.1.311.21.1=ASN1:INT:0",
    "capabilities": "1.2.840.113549.1.9.15=ASN1:SEQUENCE:capabilities",
    "entrust": "1.2.840.113533.7.65.0=ASN1:SEQUENCE:version",
    "own": "2.999.1=ASN1:SEQUENCE:one_of_each\n2.999.2=critical,DER:0C0B4772C3BCC39F6520E282AC\n"
           "1.3.6.1.4.1.55555.1.4294967295=ASN1:UTF8:own",
    "logotype": "1.3.6.1.5.5.7.1.12=ASN1:SEQUENCE:logotype",
}

# Subjects, with the options of `openssl req` that say of what type its texts are.
SUBJECTS = {
    "printable": ("default", "/C=DE/O=Example/CN=Printable"),
    "utf8": ("utf8only", "/C=DE/O=Grüße/CN=Жюль Верн/L=東京/ST=🔑"),
    "bmp": ("MASK:0x800", "/O=Grüße/CN=Жюль Верн/L=東京"),
    "teletex": ("MASK:0x4", "/O=Grüße/CN=Teletex"),
    "attributes": ("utf8only", "/C=US/ST=CA/L=City/street=Road 1/postalCode=12345/O=Org/OU=Unit/CN=Name/SN=Surname"
                               "/GN=Given/initials=G.S./generationQualifier=III/title=Dr./pseudonym=P/dnQualifier=q"
                               "/serialNumber=7"
                               "/emailAddress=user@example.com/UID=user/DC=example/DC=com/description=d/name=n"
                               "/businessCategory=Private Organization/jurisdictionC=US/jurisdictionST=Delaware"
                               "/jurisdictionL=Dover/organizationIdentifier=VATDE-1"
                               "/x500UniqueIdentifier=8/unstructuredName=u/unstructuredAddress=a/dmdName=dmd/role=r"),
    "several": ("utf8only", "/DC=com+O=Several+CN=in one/OU=a+OU=b"),
    "long": ("utf8only", "/O=" + "o" * 64 + "/CN=" + "c" * 64),
    "odd": ("utf8only", "/O=tab\there, \\/ and \"quotes\"/CN=a\\+b = c;<d>#"),
    "own": ("utf8only", "/2.999.4=own/1.3.6.1.4.1.311.60.2.1.3=DE"),
    "none": ("utf8only", "/"),
}

# Keys: the options of `openssl genpkey`.
KEYS = {
    "rsa": "-algorithm RSA -pkeyopt rsa_keygen_bits:2048",
    "rsa_3": "-algorithm RSA -pkeyopt rsa_keygen_bits:1024 -pkeyopt rsa_keygen_pubexp:3",
    "rsa_primes": "-algorithm RSA -pkeyopt rsa_keygen_bits:2048 -pkeyopt rsa_keygen_primes:3",
    "rsa_4096": "-algorithm RSA -pkeyopt rsa_keygen_bits:4096",
    "pss": "-algorithm RSA-PSS -pkeyopt rsa_keygen_bits:2048",
    "pss_limited": "-algorithm RSA-PSS -pkeyopt rsa_keygen_bits:2048 -pkeyopt rsa_pss_keygen_md:sha256 "
                   "-pkeyopt rsa_pss_keygen_mgf1_md:sha512 -pkeyopt rsa_pss_keygen_saltlen:32",
    "p256": "-algorithm EC -pkeyopt ec_paramgen_curve:P-256",
    "p384": "-algorithm EC -pkeyopt ec_paramgen_curve:P-384",
    "p521": "-algorithm EC -pkeyopt ec_paramgen_curve:P-521",
    "p256_explicit": "-algorithm EC -pkeyopt ec_paramgen_curve:P-256 -pkeyopt ec_param_enc:explicit",
    "secp256k1": "-algorithm EC -pkeyopt ec_paramgen_curve:secp256k1",
    "brainpool": "-algorithm EC -pkeyopt ec_paramgen_curve:brainpoolP320r1",
    "sect283k1": "-algorithm EC -pkeyopt ec_paramgen_curve:sect283k1",
    "sm2": "-algorithm SM2",
    "ed25519": "-algorithm ED25519",
    "ed448": "-algorithm ED448",
    "x25519": "-algorithm X25519",
    "x448": "-algorithm X448",
    "dsa": "-paramfile dsa.params",
    "dh": "-algorithm DH -pkeyopt group:ffdhe2048",
    "dhx": "-algorithm DHX -pkeyopt dh_rfc5114:2",
}

# Those that sign, with the digest, and those that only a certificate is for.
SIGNING = {"rsa": "sha256", "rsa_3": "sha1", "rsa_primes": "sha384", "rsa_4096": "sha512", "pss": "sha256",
           "pss_limited": "sha256", "p256": "sha256", "p384": "sha384", "p521": "sha512", "p256_explicit": "sha256",
           "secp256k1": "sha3-256", "brainpool": "sha384", "sect283k1": "sha224", "sm2": "sm3", "ed25519": None,
           "ed448": None, "dsa": "sha256"}
CURVES = ["secp112r1", "secp160k1", "secp192k1", "secp224r1", "prime192v1", "prime239v3", "prime256v1", "secp384r1",
          "secp521r1", "sect113r1", "sect163k1", "sect233k1", "sect409r1", "sect571k1", "c2pnb163v1", "c2tnb239v1",
          "c2tnb431r1", "wap-wsg-idm-ecid-wtls8", "Oakley-EC2N-3", "brainpoolP160r1", "brainpoolP512t1", "SM2"]

BEGIN, END = "20250101000000Z", "20350101000000Z"


class Failed(Exception):
    """openssl doesn't make a file."""


def unarmoured(octets):
    """The octets that a PEM block encodes: some commands of openssl write nothing else."""
    block = re.fullmatch(rb"-----BEGIN .*?-----\n(.*)\n-----END .*?-----\n", octets, re.S)
    return base64.b64decode(block[1]) if block else octets


class Maker:
    """Runs openssl in a folder, and puts what it writes into the corpus."""

    def __init__(self, folder, put):
        self.folder, self.put_octets = folder, put
        self.left_out, self.serial = [], 0
        self.write("openssl.cnf", CONFIGURATION)
        self.write("index.txt", "")
        self.write("crlnumber", "01")
        self.write("tsa_serial", "01")
        self.write("empty", "")
        self.write("text", "A text to be signed.\r\n")
        self.write("long", "A line of a text that is long.\n" * 3000)

    def path(self, name):
        return os.path.join(self.folder, name)

    def write(self, name, contents):
        with open(self.path(name), "wb") as file:
            file.write(contents.encode() if isinstance(contents, str) else contents)

    def read(self, name):
        with open(self.path(name), "rb") as file:
            return file.read()

    def run(self, words, *more, read=b""):
        """Runs openssl with words of a text, and more that may hold spaces."""
        words = ["openssl", *words.split(), *more]
        environment = {**os.environ, "OPENSSL_CONF": self.path("openssl.cnf")}
        ran = subprocess.run(words, input=read, capture_output=True, cwd=self.folder, env=environment, timeout=120)
        if ran.returncode:
            raise Failed(f"{' '.join(words)}: {ran.stderr.decode(errors='replace').strip().splitlines()[-1:]}")
        return ran.stdout

    def put(self, name, words, *more, read=b"", ending="der"):
        """Puts what openssl writes into the corpus, or notes that it fails."""
        try:
            if os.path.exists(self.path("out")):
                os.remove(self.path("out"))
            self.run(words, *more, "-out", "out", read=read)
            self.put_octets(f"{name}.{ending}", unarmoured(self.read("out")))
        except Failed as why:
            self.left_out.append(f"{name}: {why}")

    def put_from(self, name, words, *more):
        """Puts a file that openssl writes beside others, whatever its status, if it writes it."""
        with contextlib.suppress(FileNotFoundError):
            os.remove(self.path("out"))
        with contextlib.suppress(Failed):
            self.run(words, *more)
        if os.path.exists(self.path("out")):
            self.put_octets(f"{name}.der", self.read("out"))
        else:
            self.left_out.append(f"{name}: {words}")

    def certificate(self, name, key, subject="/CN=subject", extensions="", *, issuer=None, mask="utf8only", more="",
                    digest="sha256", begin=BEGIN, end=END, serial=None):
        """Makes a certificate, as NAME.pem. It signs itself where no issuer is named."""
        self.serial += 1
        self.write("serial", serial or f"{0x1000 + self.serial:X}")
        self.write("extensions", f"[more]\n{extensions}\n" + CONFIGURATION)
        self.write("request.cnf", CONFIGURATION.replace("utf8only", mask))
        signed = f"-{digest}" if digest else ""
        self.run(f"req -new -utf8 -config request.cnf -key {key}.key -out request.pem {signed}", "-subj", subject)
        signer = f"-cert {issuer}.pem -keyfile {issuer}.key" if issuer else f"-selfsign -keyfile {key}.key"
        self.run("ca -batch -notext -utf8 -preserveDN -config openssl.cnf -extfile extensions -extensions more "
                 f"-in request.pem -out {name}.pem -startdate {begin} -enddate {end} -md {digest or 'null'} "
                 f"{signer} {more}")

    def put_certificate(self, name, *words, **options):
        try:
            self.certificate("made", *words, **options)
            self.put(f"certificates/{name}", "x509 -in made.pem -outform DER")
        except Failed as why:
            self.left_out.append(f"certificates/{name}: {why}")


def prepare(maker):
    """The keys, an authority, and certificates for what follows."""
    maker.run("dsaparam -out dsa.params 2048")
    for name, words in KEYS.items():
        maker.run(f"genpkey {words} -out {name}.key")
    maker.run("pkey -in p256.key -out authority.key")
    maker.certificate("authority", "authority", "/C=DE/O=Authority/CN=Authority R1",
                      "basicConstraints=critical,CA:TRUE\nkeyUsage=keyCertSign,cRLSign\nsubjectKeyIdentifier=hash")
    usage = "keyUsage=digitalSignature,keyEncipherment,keyAgreement\nsubjectKeyIdentifier=hash"
    for name in ("rsa", "p256", "ed25519", "dsa", "p384"):
        maker.certificate(name, name, f"/O=Example/CN=Signer {name}", usage, issuer="authority")
    maker.certificate("stamper", "rsa", "/O=Example/CN=Stamper", "extendedKeyUsage=critical,timeStamping",
                      issuer="authority")
    maker.certificate("responder", "rsa", "/O=Example/CN=Responder", "extendedKeyUsage=OCSPSigning\nnoCheck=ignored",
                      issuer="authority")


def certificates(maker):
    for name, digest in SIGNING.items():
        maker.put_certificate(f"signed_by_{name}", name, f"/O=Example/CN={name}", digest=digest)
    for name in ("x25519", "x448", "dh", "dhx"):  # keys that don't sign
        maker.run(f"pkey -in {name}.key -pubout -out public.pem")
        maker.run("req -new -key authority.key -out request.pem", "-subj", f"/CN={name}")
        maker.put(f"certificates/of_{name}", "x509 -req -in request.pem -force_pubkey public.pem -CA authority.pem "
                                             "-CAkey authority.key -set_serial 77 -days 3650 -outform DER")
    for salt in ("digest", "max", "0", "20"):
        maker.put_certificate(f"pss_salt_{salt}", "rsa", digest="sha384",
                              more=f"-sigopt rsa_padding_mode:pss -sigopt rsa_pss_saltlen:{salt}")
    for name, lines in EXTENSIONS.items():
        maker.put_certificate(f"extension_{name}", "p384", extensions=lines, issuer="authority")
    for name, (mask, subject) in SUBJECTS.items():
        maker.put_certificate(f"subject_{name}", "p384", subject, mask=mask, issuer="authority")
    # UTCTime up to 2049, GeneralizedTime from 2050 on (RFC 5280, 4.1.2.5)
    for name, begin, end in (("1950", "500101000000Z", "491231235959Z"), ("2050", "20491231235959Z", "20500101000000Z"),
                             ("9999", "20240229000000Z", "99991231235959Z")):
        maker.put_certificate(f"times_{name}", "p384", issuer="authority", begin=begin, end=end)
    for name, serial in (("0", "00"), ("128", "80"), ("20_octets", "7F" + "AB" * 19)):
        maker.put_certificate(f"serial_{name}", "p384", issuer="authority", serial=serial)
    maker.run("req -new -key authority.key -out request.pem", "-subj", "/CN=negative")
    maker.put("certificates/serial_negative", "x509 -req -in request.pem -CA authority.pem -CAkey authority.key "
                                              "-set_serial -32769 -days 3650 -outform DER")
    maker.certificate("made", "p256", issuer="authority")
    maker.put("certificates/trusted", "x509 -in made.pem -trustout -addtrust serverAuth -addreject emailProtection "
                                      "-setalias alias -outform DER")


def requests(maker):
    for name, digest in SIGNING.items():
        maker.put(f"requests/of_{name}", f"req -new -key {name}.key -outform DER" + (f" -{digest}" if digest else ""),
                  "-subj", f"/C=DE/O=Example/CN={name}")
    texts = {
        "challenge": "attributes=more\n[more]\nchallengePassword=secret\nunstructuredName=A name",
        "utf8": "attributes=more\n[more]\nchallengePassword=Grüße\n1.3.6.1.4.1.311.13.2.3=10.0.19045.2",
        "extensions": "req_extensions=more\n[more]\nsubjectAltName=DNS:example.com,IP:192.0.2.1\nkeyUsage=keyAgreement",
        "both": "attributes=more\nreq_extensions=others\n[more]\nchallengePassword=x\n[others]\n"
                "basicConstraints=CA:FALSE\nsubjectKeyIdentifier=hash",
    }
    for name, text in texts.items():
        maker.write("request.cnf", CONFIGURATION.replace("[asked]", f"{text}\n[asked]"))
        maker.put(f"requests/with_{name}", "req -new -utf8 -config request.cnf -key p256.key -outform DER")
    maker.put("requests/of_nothing", "req -new -key p256.key -outform DER", "-subj", "/")
    maker.put("requests/old_dsa", "req -new -key dsa.key -sha1 -outform DER", "-subj", "/CN=old")
    for name, digest in (("rsa", "md5"), ("rsa_3", "sha1"), ("p256", "sha256"), ("dsa", "sha256")):
        spoken = maker.run(f"spkac -key {name}.key -digest {digest} -challenge", f"challenge of {name}").decode()
        maker.put_octets(f"requests/spkac_{name}.der", base64.b64decode(spoken.split("=", 1)[1]))


def revoked(serial, reason=""):
    """A line of the text database of `openssl ca`."""
    return f"R\t350101000000Z\t250601000000Z{reason}\t{serial:04X}\tunknown\t/CN={serial}\n"


def lists(maker):
    reasons = ("unspecified", "keyCompromise", "CACompromise", "affiliationChanged", "superseded",
               "cessationOfOperation", "certificateHold", "removeFromCRL")
    each = "".join(revoked(at, f",{reason}") for at, reason in enumerate(reasons, 1))
    holds = "".join(revoked(at, f",holdInstruction,{it}") for at, it in enumerate(
        ("holdInstructionNone", "holdInstructionCallIssuer", "holdInstructionReject"), 1))
    dated = revoked(1, ",keyTime,20250101000000Z") + revoked(2, ",CAkeyTime,20250101000000Z")
    tables = {"empty": "", "one": revoked(1), "reasons": each, "holds": holds, "times": dated,
              "1000": "".join(revoked(at, ",superseded" if at % 3 == 0 else "") for at in range(1, 1001)),
              "long_serials": "".join(revoked(at << 140 | 255) for at in range(1, 9))}
    extensions = {
        "bare": "", "keys": "authorityKeyIdentifier=keyid:always,issuer:always\nissuerAltName=URI:http://example.com/",
        "point": "issuingDistributionPoint=critical,@point\nfreshestCRL=URI:http://example.com/delta.crl",
        "delta": "2.5.29.27=critical,ASN1:INT:5\nauthorityInfoAccess=caIssuers;URI:http://example.com/ca.cer",
        "numbers": "2.5.29.60=ASN1:GENTIME:20200101000000Z\n1.3.6.1.4.1.311.21.4=ASN1:UTC:250101000000Z",
    }
    made = [(table, "bare", "authority") for table in tables] + [("one", it, "authority") for it in extensions]
    for name in ("rsa", "ed25519", "dsa"):
        made.append(("reasons", "bare", name))
    for table, extension, signer in dict.fromkeys(made):
        maker.write("index.txt", tables[table])
        maker.write("revoked.cnf", CONFIGURATION.replace("[crl_bare]", f"[crl_bare]\n{extensions[extension]}\n"))
        for number, words in (("", ""), ("_of_2050", " -crl_nextupdate 20500101000000Z")):
            if number and (table, signer) != ("one", "authority"):
                continue
            maker.write("crlnumber", "7FFFFFFFFFFFFFFFFF" if number else "80")
            maker.put(f"lists/{table}_{extension}_{signer}{number}",
                      f"ca -gencrl -config revoked.cnf -cert {signer}.pem -keyfile {signer}.key "
                      f"-crl_lastupdate {BEGIN}{words or f' -crl_nextupdate {END}'}")
    maker.write("index.txt", "")


def status(maker):
    """OCSP (RFC 6960)."""
    signers = {"rsa": "rsa", "p256": "p256", "ed25519": "ed25519"}
    asked = "-issuer authority.pem -cert rsa.pem"
    requests = {
        "one": f"{asked} -no_nonce", "nonce": f"{asked} -nonce",
        "sha256": f"-sha256 {asked} -no_nonce", "three": f"{asked} -cert p256.pem -cert ed25519.pem -no_nonce",
        "serials": "-issuer authority.pem -serial 1 -serial 0x80 -serial 0x7fffffffffffffffffff -no_nonce",
        **{f"signed_{name}": f"{asked} -nonce -signer {key}.pem -signkey {key}.key" for name, key in signers.items()},
        "signed_bare": f"{asked} -signer rsa.pem -signkey rsa.key -no_certs",
        "signed_with_more": f"{asked} -signer rsa.pem -signkey rsa.key -sign_other authority.pem",
    }
    for name, words in requests.items():
        maker.put_from(f"status/request_{name}", f"ocsp {words} -reqout out")
    text = maker.run("x509 -in rsa.pem -noout -serial").decode().strip().split("=")[1]
    tables = {"good": f"V\t350101000000Z\t\t{text}\tunknown\t/CN=a\n",
              "revoked": f"R\t350101000000Z\t250601000000Z,keyCompromise\t{text}\tunknown\t/CN=a\n",
              "revoked_bare": f"R\t350101000000Z\t250601000000Z\t{text}\tunknown\t/CN=a\n", "unknown": ""}
    ways = {"": "", "_by_key": "-resp_key_id", "_bare": "-resp_no_certs", "_sha512": "-rmd sha512", "_next": "-ndays 7",
            "_with_more": "-rother authority.pem"}
    for table, lines in tables.items():
        maker.write("status.txt", lines)
        for way, words in ways.items():
            if way and table != "good":
                continue
            maker.put_from(f"status/response_{table}{way}",
                           "ocsp -index status.txt -CA authority.pem -rsigner responder.pem -rkey rsa.key "
                           f"{asked} {words} -respout out")
    # refusals have a status alone (RFC 6960, 4.2.1)
    for number, name in enumerate(("malformed", "internal", "later", "", "signature", "unauthorized"), 1):
        if name:
            maker.put_octets(f"status/response_{name}.der", sequence(enumerated(number)))


def cms(maker):
    """CMS (RFC 5652): in DER, and streamed in BER."""
    signers = {"rsa": "", "p256": "-md sha384", "dsa": "", "p384": "-md sha512"}
    by = {it: f"-signer {it}.pem -inkey {it}.key {words}" for it, words in signers.items()}
    signed = {
        **{f"signed_{name}": f"-nodetach {words}" for name, words in by.items()},
        "signed_by_two": f"-nodetach {by['rsa']} {by['p256']}",
        "signed_by_four": "-nodetach -md sha256 " + " ".join(f"-signer {it}.pem -inkey {it}.key" for it in signers),
        "detached": by["rsa"], "detached_by_two": f"{by['rsa']} {by['p384']}",
        "signed_bare": f"-nodetach -noattr -nocerts {by['rsa']}", "signed_by_key": f"-nodetach -keyid {by['rsa']}",
        "signed_simple": f"-nodetach -nosmimecap -certfile authority.pem {by['p256']}",
        "signed_pss": f"-nodetach {by['rsa']} -keyopt rsa_padding_mode:pss",
        "signed_pss_20": f"-nodetach {by['rsa']} -keyopt rsa_padding_mode:pss -keyopt rsa_pss_saltlen:20",
        "signed_cades": f"-nodetach -cades {by['rsa']}",
        "signed_receipt": f"-nodetach {by['rsa']} -receipt_request_to user@example.com -receipt_request_all",
        "signed_receipt_from": f"-nodetach {by['rsa']} -receipt_request_to a@example.com "
                               "-receipt_request_from b@example.com",
        "signed_type": f"-nodetach -econtent_type 1.2.840.113549.1.9.16.1.4 {by['rsa']}",
        "signed_own_type": f"-nodetach -econtent_type 2.999.5 {by['p256']}",
    }
    made = {name: f"-sign -binary {words}" for name, words in signed.items()}
    for cipher in ("des3", "aes-128-cbc", "aes-192-cbc", "aes-256-cbc", "camellia-128-cbc", "aria-256-cbc", "aes-128-gcm",
                   "aes-256-gcm", "rc2", "seed"):
        made[f"enveloped_{cipher}"] = f"-encrypt -binary -{cipher} -recip rsa.pem"
    made.update({
        "enveloped_to_three": "-encrypt -binary -aes-256-cbc -recip rsa.pem -recip p256.pem -recip p384.pem",
        "enveloped_by_key": "-encrypt -binary -aes-128-cbc -keyid -recip rsa.pem",
        "enveloped_oaep": "-encrypt -binary -aes-128-cbc -recip rsa.pem -keyopt rsa_padding_mode:oaep",
        "enveloped_oaep_sha256": "-encrypt -binary -aes-128-cbc -recip rsa.pem -keyopt rsa_padding_mode:oaep "
                                 "-keyopt rsa_oaep_md:sha256 -keyopt rsa_oaep_label:00ff",
        "enveloped_agreed": "-encrypt -binary -aes-128-cbc -recip p384.pem -keyopt ecdh_kdf_md:sha256",
        "enveloped_agreed_cofactor": "-encrypt -binary -aes-256-cbc -recip p256.pem -keyopt ecdh_cofactor_mode:1",
        "enveloped_to_key": "-encrypt -binary -aes-128-cbc -secretkey 000102030405060708090a0b0c0d0e0f -secretkeyid c0ff",
        "enveloped_to_password": "-encrypt -binary -aes-128-cbc -pwri_password password",
        "encrypted": "-EncryptedData_encrypt -binary -aes-128-cbc -secretkey 000102030405060708090a0b0c0d0e0f",
        "encrypted_des3": "-EncryptedData_encrypt -binary -des3 -secretkey " + "0123456789abcdef" * 3,
        **{f"digested_{it}": f"-digest_create -binary -md {it}"
           for it in ("md5", "sha1", "sha256", "sha512", "sha3-512")},
        "data": "-data_create -binary", "compressed_by_openssl": "-compress -binary",
    })
    for name, words in made.items():
        old = " -provider default -provider legacy" * name.endswith(("rc2", "seed"))
        maker.put(f"cms/{name}", f"cms {words} -in text -outform DER{old}")
    streamed = ["signed_rsa", "signed_by_two", "signed_by_four", "detached", "detached_by_two", "signed_bare",
                "signed_cades", "signed_own_type", "enveloped_aes-128-cbc", "enveloped_aes-256-gcm",
                "enveloped_to_three", "enveloped_to_password", "enveloped_to_key", "encrypted", "digested_sha256",
                "digested_sha512", "data", "compressed_by_openssl"]
    for name in streamed:
        for what in ("text", "long"):
            maker.put(f"streamed/{name}_{what}", f"cms {made[name]} -in {what} -stream -outform DER", ending="ber")
    # one more signer, and a receipt of what was signed (RFC 2634, 2)
    maker.run(f"cms -sign -binary -nodetach {by['rsa']} -in text -outform DER -out signed")
    maker.put("cms/signed_again", f"cms -resign -inform DER -in signed {by['dsa']} -outform DER")
    maker.run(f"cms {made['signed_receipt']} -in text -outform DER -out signed")
    maker.put("cms/receipt", f"cms -sign_receipt -inform DER -in signed {by['p256']} -outform DER")
    maker.put("cms/signed_nothing", f"cms -sign -binary -nodetach {by['rsa']} -in empty -outform DER")


def pkcs_7(maker):
    maker.write("three.pem", b"".join(map(maker.read, ["rsa.pem", "p256.pem", "authority.pem"])))
    maker.run(f"ca -gencrl -config openssl.cnf -out list.pem -crl_lastupdate {BEGIN} -crl_nextupdate {END}")
    made = {
        "certificates": "crl2pkcs7 -nocrl -certfile three.pem", "list": "crl2pkcs7 -in list.pem",
        "both": "crl2pkcs7 -in list.pem -certfile rsa.pem", "nothing": "crl2pkcs7 -nocrl",
        "signed": "smime -sign -binary -nodetach -signer rsa.pem -inkey rsa.key -in text",
        "signed_ec": "smime -sign -binary -nodetach -signer p256.pem -inkey p256.key -in text -md sha512",
        "detached": "smime -sign -binary -signer rsa.pem -inkey rsa.key -in text",
        "signed_bare": "smime -sign -binary -nodetach -noattr -nocerts -signer rsa.pem -inkey rsa.key -in text",
        "signed_by_two": "smime -sign -binary -nodetach -signer rsa.pem -inkey rsa.key -signer p256.pem "
                         "-inkey p256.key -in text",
        **{f"enveloped_{it}": f"smime -encrypt -binary -{it} -in text"
           for it in ("des3", "aes128", "aes256", "camellia128")},
    }
    for name, words in made.items():
        last = ["rsa.pem"] if name.startswith("enveloped") else []
        maker.put_from(f"pkcs_7/{name}", f"{words} -outform DER -out out", *last)
    for name in ("signed", "signed_by_two", "detached"):
        maker.put(f"streamed/pkcs_7_{name}", f"{made[name]} -stream -outform DER", ending="ber")


def keys(maker):
    """Keys in PKCS #8 (RFC 5958), PKCS #1 (RFC 8017), of SEC 1 (RFC 5915), and public keys (RFC 5280, 4.1.2.7)."""
    for name in KEYS:
        maker.put(f"keys/pkcs_8_{name}", f"pkcs8 -topk8 -nocrypt -in {name}.key -outform DER")
        maker.put(f"keys/public_{name}", f"pkey -in {name}.key -pubout -outform DER")
    for name in ("rsa", "rsa_3", "rsa_primes", "dsa", "p256", "p521", "p256_explicit", "sect283k1", "sm2"):
        maker.put(f"keys/traditional_{name}", f"pkey -in {name}.key -traditional -outform DER")
    maker.put("keys/public_pkcs_1", "rsa -in rsa.key -RSAPublicKey_out -outform DER")
    for form in ("compressed", "hybrid"):
        maker.put(f"keys/public_{form}", f"ec -in p256.key -pubout -conv_form {form} -outform DER")
        maker.put(f"keys/traditional_{form}", f"ec -in p256.key -conv_form {form} -outform DER")
    maker.put("keys/traditional_bare", "ec -in p256.key -no_public -outform DER")


def encrypted_keys(maker):
    """Encrypted keys in PKCS #8, with the ways of PKCS #5 (RFC 8018) and PKCS #12 (RFC 7292, appendix C)."""
    ways = {
        "default": "", "aes128": "-v2 aes-128-cbc", "aes192": "-v2 aes-192-cbc",
        "aes256_sha1": "-v2 aes-256-cbc -v2prf hmacWithSHA1",
        "aes256_sha512": "-v2 aes-256-cbc -v2prf hmacWithSHA512 -iter 1",
        "camellia": "-v2 camellia-256-cbc", "aria": "-v2 aria-128-cbc", "des3": "-v2 des3", "des": "-v2 des-cbc",
        "rc2": "-v2 rc2-cbc", "scrypt": "-scrypt -scrypt_N 1024 -scrypt_r 8 -scrypt_p 16", "iterated": "-iter 1000000",
    }
    old = ("PBE-MD5-DES", "PBE-SHA1-DES", "PBE-MD5-RC2-64", "PBE-SHA1-RC2-64", "PBE-SHA1-3DES", "PBE-SHA1-2DES",
           "PBE-SHA1-RC2-40", "PBE-SHA1-RC2-128", "PBE-SHA1-RC4-40", "PBE-SHA1-RC4-128")
    ways.update({it.lower(): f"-v1 {it}" for it in old})
    for name, words in ways.items():
        maker.put(f"encrypted_keys/{name}", f"pkcs8 -topk8 -in p256.key -passout pass:secret -outform DER {words} "
                                            "-provider default -provider legacy")


def pkcs_12(maker):
    """PKCS #12 (RFC 7292)."""
    ways = {
        "default": "", "chain": "-certfile authority.pem", "mac_sha1": "-macalg sha1", "mac_sha384": "-macalg sha384",
        "mac_sha512": "-macalg sha512 -iter 1", "mac_md5": "-macalg md5", "mac_none": "-nomac", "mac_once": "-nomaciter",
        "legacy": "-legacy", "des3": "-keypbe PBE-SHA1-3DES -certpbe PBE-SHA1-3DES", "rc2": "-certpbe PBE-SHA1-RC2-40",
        "rc4": "-keypbe PBE-SHA1-RC4-128 -certpbe PBE-SHA1-RC4-128", "plain": "-keypbe NONE -certpbe NONE",
        "aes128": "-keypbe AES-128-CBC -certpbe AES-128-CBC",
        "camellia": "-keypbe CAMELLIA-256-CBC -certpbe CAMELLIA-128-CBC",
        "machine": "-LMK", "usage": "-keyex", "usage_signature": "-keysig", "key_alone": "-nocerts",
        "certificate_alone": "-nokeys", "many_rounds": "-iter 100000",
    }
    for name, words in ways.items():
        key = "" if name == "certificate_alone" else "-inkey p256.key"
        maker.put(f"pkcs_12/{name}", f"pkcs12 -export -in p256.pem {key} -passout pass:secret {words} "
                                     "-provider default -provider legacy")
    for name, words in (("named", ["-name", "A friendly name"]),
                        ("named_utf8", ["-name", "Grüße 東京", "-caname", "Жюль"]),
                        ("provider", ["-CSP", "Microsoft Enhanced Cryptographic Provider v1.0"])):
        maker.put(f"pkcs_12/{name}", "pkcs12 -export -in rsa.pem -inkey rsa.key -certfile authority.pem "
                                     "-passout pass:secret", *words)


def parameters(maker):
    """Parameters: of DH (PKCS #3), X9.42, DSA (RFC 3279, 2.3.2), curves (RFC 3279, 2.3.5; RFC 5480)."""
    for name in CURVES:
        maker.put(f"parameters/curve_{name}", f"ecparam -name {name} -outform DER")
        maker.put(f"parameters/curve_{name}_explicit", f"ecparam -name {name} -param_enc explicit -outform DER")
    maker.put("parameters/curve_compressed", "ecparam -name P-256 -param_enc explicit -conv_form compressed -outform DER")
    maker.put("parameters/curve_without_seed", "ecparam -name P-256 -param_enc explicit -no_seed -outform DER")
    maker.put("parameters/dsa", "dsaparam -in dsa.params -outform DER")
    maker.put_from("parameters/dh_512", "dhparam -outform DER -out out 512")
    maker.put_from("parameters/dh_of_dsa", "dhparam -dsaparam -outform DER -out out 1024")
    for name in ("ffdhe2048", "ffdhe8192", "modp_2048"):
        maker.put(f"parameters/dh_{name}", f"genpkey -genparam -algorithm DH -pkeyopt group:{name} -outform DER")
    for number in (1, 2, 3):
        maker.put(f"parameters/dhx_{number}",
                  f"genpkey -genparam -algorithm DHX -pkeyopt dh_rfc5114:{number} -outform DER")


def stamps(maker):
    """Time stamps (RFC 3161)."""
    requests = {"sha256": "-sha256", "sha1_bare": "-sha1 -no_nonce", "sha512_certificate": "-sha512 -cert",
                "policy": "-sha384 -cert -tspolicy 1.2.3.4.5.6", "refused_policy": "-sha256 -tspolicy 2.999.6",
                "refused_digest": "-sha224"}
    for name, words in requests.items():
        maker.put(f"stamps/request_{name}", f"ts -query -data text {words}")
        maker.run(f"ts -query -data text {words} -out stamp.tsq")
        signed = "ts -reply -config openssl.cnf -queryfile stamp.tsq -signer stamper.pem -inkey rsa.key"
        maker.put(f"stamps/reply_{name}", signed)
        if not name.startswith("refused"):
            maker.put(f"stamps/token_{name}", f"{signed} -chain authority.pem -token_out")
    maker.run("ts -query -data text -sha256 -cert -out stamp.tsq")
    maker.put("stamps/reply_sha256_ids", "ts -reply -config openssl.cnf -section stamp_bare -queryfile stamp.tsq "
                                         "-signer stamper.pem -inkey rsa.key")


def management(maker):
    """CMP (RFC 4210) and CRMF (RFC 4211): a client's messages, and those of openssl's mock server."""
    maker.run("req -new -key p256.key -out request.pem", "-subj", "/CN=asked")
    common = ("cmp -config extensions -section none -use_mock_srv -rsp_cert p256.pem -recipient /CN=server "
              "-subject /CN=new -newkey p256.key -certout made.pem -implicit_confirm")
    secret = "-srv_ref user -srv_secret pass:test -ref user -secret pass:test"
    signed = ("-srv_cert p256.pem -srv_key p256.key -srv_trusted authority.pem -trusted authority.pem -cert p256.pem "
              "-key p256.key -ignore_keyusage")
    maker.write("extensions", "[none]\n")
    commands = {"ir": "", "cr": "-sans example.com -days 7", "kur": "-oldcert p256.pem", "p10cr": "-csr request.pem",
                "rr": "-oldcert p256.pem -revreason 1", "genm": "-geninfo 1.2.3:int:987"}
    for command, words in commands.items():
        for way, protection in (("secret", secret), ("signed", signed)):
            for part, flag in (("request", "-reqout"), ("response", "-rspout")):
                maker.put_from(f"management/{command}_{way}_{part}",
                               f"{common} -cmd {command} {words} {protection} {flag} out")


def signed_objects(maker):
    """What CMS signs in the RPKI (RFC 6488), in PKINIT (RFC 4556), and attribute certificates (RFC 5755)."""
    import messages

    maker.certificate("resources", "rsa", "/CN=resources", "subjectKeyIdentifier=hash\nauthorityKeyIdentifier=keyid\n"
                      "sbgp-ipAddrBlock=critical,@addresses\nkeyUsage=critical,digitalSignature", issuer="authority")
    for name, (kind, contents) in messages.resources().items():
        if name != "ghostbusters":  # these contents are a text
            maker.put_octets(f"resources/{name}_contents.der", contents)
        maker.write("contents", contents)
        maker.put(f"resources/{name}", "cms -sign -binary -nodetach -keyid -md sha256 -nosmimecap -signer resources.pem "
                                       f"-inkey rsa.key -econtent_type {kind} -in contents -outform DER")
    maker.write("contents", messages.auth_pack())
    maker.run("cms -sign -binary -nodetach -signer rsa.pem -inkey rsa.key -econtent_type 1.3.6.1.5.2.3.1 -in contents "
              "-outform DER -out signed")
    # PA-PK-AS-REQ (3.2.1)
    maker.put_octets("kerberos/pa_pk_as_req.der", sequence(context_octets(0, maker.read("signed"))))
    for name, information in messages.attribute_certificates().items():
        maker.write("contents", information)
        signature = maker.run("dgst -sha256 -sign p256.key contents")
        maker.put_octets(f"attribute_certificates/{name}.der",
                         sequence(information, sequence(oid("1.2.840.10045.4.3.2")), bits(signature)))


VALUES = ["BOOL:TRUE", "BOOL:FALSE", "NULL", "INT:0", "INT:127", "INT:128", "INT:-128", "INT:-129", "INT:32768",
          "INT:0x7FFFFFFFFFFFFFFF", "INT:0x8000000000000000", "INT:-0x8000000000000000", "INT:-0x8000000000000001",
          "INT:0xFFFFFFFFFFFFFFFF", "INT:0x10000000000000000", "ENUM:2147483647", "ENUM:-2", "OID:2.5.4.3",
          "OID:2.999.4294967295", "OID:1.2.840.113549", "OID:0.0", "OID:2.100.3", "UTC:500101000000Z",
          "GENTIME:99991231235959Z", "OCT:A text", "FORMAT:BITLIST,BITSTR:0,7,8,31",
          "FORMAT:UTF8,UTF8:Grüße", "BMP:text", "UNIV:text", "T61:text", "VISIBLE:text", "GENSTR:text", "NUMERIC:1 2",
          "EXP:0A,EXP:30C,EXP:2P,INT:5", "IMP:200,OCT:text", "OCTWRAP,BITWRAP,OCTWRAP,INT:6", "SETWRAP,SEQWRAP,UTF8:a"]


def values(maker):
    """Values of each type, as openssl writes them, and the identifiers that it knows."""
    for at, value in enumerate(VALUES):
        maker.put(f"values/openssl_{at:02}", "asn1parse -noout -genstr", value)
    maker.write("each.cnf", "asn1=SEQUENCE:one_of_each\n" + CONFIGURATION)
    maker.put("values/openssl_one_of_each", "asn1parse -noout -genconf each.cnf")
    known = [line.split(" = ")[0] for line in maker.run("list -objects").decode().splitlines() if line[0] != "#"]
    lines = "".join(f"{at} = OID:{name}\n" for at, name in enumerate(known))
    maker.write("known.cnf", f"asn1=SEQUENCE:known\n[known]\n{lines}")
    maker.put("identifiers/all_of_openssl", "asn1parse -noout -genconf known.cnf")


def make(folder, put):
    """Makes all of them in a folder, and returns what openssl doesn't make."""
    maker = Maker(folder, put)
    prepare(maker)
    for part in (certificates, requests, lists, status, cms, pkcs_7, keys, encrypted_keys, pkcs_12, parameters, stamps,
                 management, signed_objects, values):
        part(maker)
    return maker.left_out

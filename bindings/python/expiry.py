"""Prints the subject of each certificate of a PEM file, the time at which its validity ends, and
its other names, which are in the extension subjectAltName (RFC 5280 4.2.1.6).

python3 expiry.py certificates.pem
"""
import pathlib
import sys

from soqavise import Rules, Schema, name_text, pem_blocks

schema, names = Schema("Certificate"), Schema("SubjectAltName")
for block in pem_blocks(pathlib.Path(sys.argv[1]).read_bytes()):
    schema.check(block.octets)
    body = schema.loads(block.octets, native=True)["tbsCertificate"]
    print(name_text(Rules.DER, schema.find(block.octets, "tbsCertificate.subject").whole))
    print("valid until", body["validity"]["notAfter"].value)
    for extension in body.get("extensions", []):
        if extension["extnID"] == "2.5.29.17":
            for kind, name in names.loads(extension["extnValue"], native=True):
                print(kind, name)

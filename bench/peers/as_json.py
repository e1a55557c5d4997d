"""as_json.py FILE: prints each certificate of a file, a line of base64 each, as JSON, by asn1crypto."""
import base64
import json
import sys

from asn1crypto import x509

with open(sys.argv[1], encoding="ascii") as lines:
    for line in lines:
        print(json.dumps(x509.Certificate.load(base64.b64decode(line)).native, default=str))

#!/usr/bin/env python3
"""Signs a credential: sign.py KEY < credential > signed, where KEY is hexadecimal digits."""
import hashlib
import hmac
import sys

ALGORITHM = b"sig-hmac-sha256-hex:"
credential = sys.stdin.buffer.read()
code = hmac.new(bytes.fromhex(sys.argv[1]), credential + ALGORITHM, hashlib.sha256).hexdigest().encode()
sys.stdout.buffer.write(credential + b'Signature: "' + ALGORITHM + code + b'"\n')

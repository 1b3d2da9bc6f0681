"""The order of the first place of an offer, for its whole limit: settle.py < OFFER. It prints the node and the request's body."""
import hashlib
import hmac
import json
import sys

offer = json.load(sys.stdin)
place = offer["offers"][0]
said = place["node"].to_bytes(4, "big") + offer["piece_length"].to_bytes(8, "big")
tag = hmac.new(bytes.fromhex(offer["serial_key"]), said, hashlib.sha256).hexdigest()
print(place["node"], json.dumps({"order": place["limit"] + said[4:].hex() + tag}))

"""The script of the load of attestations: the counter and the token of a request each 500 steps,
10,000 of them, under a challenge and a key of zeros.
"""
import hmac

for number in range(10000):
    counter = (number + 1).to_bytes(4, "little")
    token = hmac.digest(bytes(64), b"\1" + bytes(32) + counter, "sha256")
    print(f"at {500 * number} rx {(counter + token).hex()}")

#!/usr/bin/env python3
"""Makes the table that the program `vectors` compares: python3 make_table.py > stdin

Every block comes from the ChaCha20 of the Python package `cryptography` and, once more, from `openssl enc -chacha20`;
the two must agree. What RFC 8439 prints is typed in below and must agree with both. The pad words are those of keys and
nonces drawn from a fixed seed, so that the table comes out the same each time.
"""
import random
import subprocess

from cryptography.hazmat.primitives.ciphers import Cipher, algorithms

SEED = 8439
KEYS = 40
LAST_SLOT = 2**32 - 1


def start(counter, nonce):
    """The counter and the nonce as both implementations take them."""
    return counter.to_bytes(4, "little") + nonce


def block(key, nonce, counter):
    """One block of the key stream, from two implementations that must agree."""
    zeros = bytes(64)
    cipher = Cipher(algorithms.ChaCha20(key, start(counter, nonce)), mode=None)
    made = cipher.encryptor().update(zeros)
    command = ["openssl", "enc", "-chacha20", "-K", key.hex(), "-iv", start(counter, nonce).hex()]
    again = subprocess.run(command, input=zeros, capture_output=True, check=True).stdout
    assert made == again, (key.hex(), nonce.hex(), counter)
    return made


COUNTING = bytes(range(32))
ZERO_KEY = bytes(32)
ZERO_NONCE = bytes(12)

# where RFC 8439 prints it, key, nonce, counter, and the bytes printed there (in some places the first of the block only)
PRINTED = [
    ("section 2.3.2", COUNTING, "000000090000004a00000000", 1,
     "10f1e7e4d13b5915500fdd1fa32071c4c7d1f4c733c068030422aa9ac3d46c4e"
     "d2826446079faa0914c2d705d98b02a2b5129cd1de164eb9cbd083e8a2503c4e"),
    ("section 2.4.2, first block", COUNTING, "000000000000004a00000000", 1,
     "224f51f3401bd9e12fde276fb8631ded8c131f823d2c06e27e4fcaec9ef3cf78"
     "8a3b0aa372600a92b57974cded2b9334794cba40c63e34cdea212c4cf07d41b7"),
    ("section 2.4.2, second block, of which 50 bytes are printed", COUNTING, "000000000000004a00000000", 2,
     "69a6749f3f630f4122cafe28ec4dc47e26d4346d70b98c73f3e9c53ac40c5945"
     "398b6eda1a832c89c167eacd901d7e2bf363"),
    ("section 2.6.2, of which 32 bytes are printed", bytes(range(0x80, 0xa0)), "000000000001020304050607", 0,
     "8ad5a08b905f81cc815040274ab29471a833b637e3fd0da508dbb8e2fdd1a646"),
    ("appendix A.1, vector 1", ZERO_KEY, "000000000000000000000000", 0,
     "76b8e0ada0f13d90405d6ae55386bd28bdd219b8a08ded1aa836efcc8b770dc7"
     "da41597c5157488d7724e03fb8d84a376a43b8f41518a11cc387b669b2ee6586"),
    ("appendix A.1, vector 2", ZERO_KEY, "000000000000000000000000", 1,
     "9f07e7be5551387a98ba977c732d080dcb0f29a048e3656912c6533e32ee7aed"
     "29b721769ce64e43d57133b074d839d531ed1f28510afb45ace10a1f4b794d6f"),
    ("appendix A.1, vector 3", bytes(31) + b"\x01", "000000000000000000000000", 1,
     "3aeb5224ecf849929b9d828db1ced4dd832025e8018b8160b82284f3c949aa5a"
     "8eca00bbb4a73bdad192b5c42f73f2fd4e273644c8b36125a64addeb006c13a0"),
    ("appendix A.1, vector 4", b"\x00\xff" + bytes(30), "000000000000000000000000", 2,
     "72d54dfbf12ec44b362692df94137f328fea8da73990265ec1bbbea1ae9af0ca"
     "13b25aa26cb4a648cb9b9d1be65b2c0924a66c54d545ec1b7374f4872e99f096"),
    ("appendix A.1, vector 5", ZERO_KEY, "000000000000000000000002", 0,
     "c2c64d378cd536374ae204b9ef933fcd1a8b2288b3dfa49672ab765b54ee27c7"
     "8a970e0e955c14f3a88e741b97c286f75f8fc299e8148362fa198a39531bed6d"),
    ("appendix A.4, vector 2, of which 32 bytes are printed", bytes(31) + b"\x01", "000000000000000000000002", 0,
     "ecfa254f845f647473d3cb140da9e87606cb33066c447b87bc2666dde3fbb739"),
    ("appendix A.4, vector 3, of which 32 bytes are printed",
     bytes.fromhex("1c9240a5eb55d38af333888604f6b5f0473917c1402b80099dca5cbc207075c0"), "000000000000000000000002", 0,
     "965e3bc6f9ec7ed9560808f4d229f94b137ff275ca9b3fcbdd59deaad23310ae"),
]


def print_blocks():
    for where, key, nonce, counter, printed in PRINTED:
        nonce = bytes.fromhex(nonce)
        made = block(key, nonce, counter)
        assert made.startswith(bytes.fromhex(printed)), where
        print(f"# RFC 8439, {where}")
        print("block", key.hex(), nonce.hex(), counter, made.hex())


def print_words():
    """The first eight bytes of each slot's block, which read as a number with the highest byte first."""
    drawn = random.Random(SEED)
    print(f"# Pad words of {KEYS} keys and nonces")
    for _ in range(KEYS):
        key, nonce = drawn.randbytes(32), drawn.randbytes(12)
        for slot in (1, 2, 2**31, LAST_SLOT, drawn.randint(1, LAST_SLOT), drawn.randint(1, LAST_SLOT)):
            print("word", key.hex(), nonce.hex(), slot, block(key, nonce, slot)[:8].hex())


print("# Made by make_table.py: blocks that RFC 8439 prints, and pad words from another implementation")
print_blocks()
print_words()

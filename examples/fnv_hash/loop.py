"""The hash over unsigned numbers, and at the end the signed ones with the same 64 bits.

The published hash of foobar is 0x85944171f73967e8.
"""
value, hashes = 0xCBF29CE484222325, []
for byte in [None] + [int(line.split(",")[1]) for line in open("byte.csv")]:
    if byte is not None:
        value = (value ^ byte) * 0x100000001B3 % 2**64
    hashes.append(value)
assert hashes[6] == 0x85944171F73967E8
for i, value in enumerate(hashes):
    print("H", i, value - 2**64 if value >= 2**63 else value, sep=",")

"""A generation as the bits of one number: the next one is n xor (2n or 4n), one bit wider on both sides."""
generation, codes = 1, []
for t in range(13):
    codes.append(generation)
    generation ^= generation << 1 | generation << 2
for t, code in enumerate(codes):
    print("Code", t, code, sep=",")
for t, code in enumerate(codes):
    print("Centre", t, code >> t & 1, sep=",")

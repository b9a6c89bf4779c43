"""Decodes a volume of 3 by 3 by 6 texels, two blocks of 3x3x3 behind each other of which the second is damaged; prints how many blocks are bad and the
first of them, and the greys of the first block's layers."""

import stallbrook

sound = bytes([0x13, 0, 0, 0xFE, 1, 0, 0, 0, 0, 0, 0, 0, 0, 0x5F, 0x63, 0x11])
texels, tally = stallbrook.Volume(sound + bytes(16), "3x3x3", 3, 3, 6).decode("srgb8")
print(f"{tally.faulty} of 2 blocks are bad, first block {tally.first.block}: {tally.first.fault}")
for layer in texels.tolist()[:3]:
    print("  |  ".join(" ".join(f"{texel[0]:3}" for texel in row) for row in layer))

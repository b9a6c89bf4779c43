"""Decodes an image of 8 by 4 texels, two blocks of 4x4 of which the second is damaged; prints which blocks are bad, and the top row."""

import stallbrook

sound = bytes([0x42, 0, 0, 0xFE, 1, 0, 0, 0, 0, 0, 0, 0, 0, 0, 0, 0x80])
picture = stallbrook.Picture(sound + bytes(16), "4x4", 8, 4)  # or stallbrook.open("frame.astc")
texels, tally = picture.decode("srgb8")
for index, fault in picture.bad_blocks("srgb8").items():
    print(f"block {index} is bad: {fault}")
print(*("({} {} {} {})".format(*texel) for texel in texels.tolist()[0]))

#!/usr/bin/env python3
"""Writes pan.y4m: a camera that moves over a texture, a patch that moves otherwise, and noise.

Blocks are found again a few pixels off, and further off than a search looks at once; much is black or white, or nearly.
"""
import sys

WIDTH, HEIGHT = 36, 24
# How far the camera moves before each picture.
WAYS = [(0, 0), (1, 0), (4, -2), (-3, 5), (-7, 0), (0, 6), (2, -8), (9, 3), (5, 5), (0, 0), (-1, 1)]

def scattered(a, b, c):
    return (a * 73856093 ^ b * 19349663 ^ c * 83492791) % 65521 * 40503 % 65536 // 256

def texture(u, v):
    a, b, i, j = u // 6, v // 6, u % 6, v % 6
    top = scattered(a, b, 0) * (6 - i) + scattered(a + 1, b, 0) * i
    low = scattered(a, b + 1, 0) * (6 - i) + scattered(a + 1, b + 1, 0) * i
    return (top * (6 - j) + low * j) // 18 - 128

def pixel(x, y, number, u, v):
    patch = 0 <= x - 4 - 2 * number < 10 and 0 <= y - 6 - number < 9
    value = texture(x - 2 * number + 300, y - number + 300) if patch else texture(x + u, y + v)
    return max(0, min(255, value + scattered(x, y, number + 1) % 5 - 2))

out = sys.stdout.buffer
out.write(b'YUV4MPEG2 W%d H%d F10:1 Ip A1:1 Cmono XCOLORRANGE=FULL\n' % (WIDTH, HEIGHT))
u, v = 100, 100
for number, (du, dv) in enumerate(WAYS):
    u, v = u + du, v + dv
    out.write(b'FRAME\n' + bytes(pixel(x, y, number, u, v) for y in range(HEIGHT) for x in range(WIDTH)))

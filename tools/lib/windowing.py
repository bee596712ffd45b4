"""Random windows, and crops of decoded images, for trials."""


def stretch(chance, size):
    """Where a window begins and how long it is, along a side of so many samples."""
    kind = chance.choice(("one", "low", "high", "whole", "inner", "inner", "inner", "past", "far"))
    begin = chance.randrange(size)
    if kind == "one":
        return begin, 1
    if kind == "low":
        return 0, chance.randint(1, size)
    if kind == "high":
        return begin, size - begin
    if kind == "whole":
        return 0, size
    if kind == "past":
        return begin, chance.choice((size + 1, 1 << 31, (1 << 32) - 1))
    if kind == "far" and chance.random() < 0.2:
        return chance.choice(((size, 1), (begin, 0), ((1 << 32) - 1, (1 << 32) - 1)))
    return begin, chance.randint(1, min(size - begin, 1 + size // 3))


def crop(whole, x, y, w, h):
    """Width, height, bytes a pixel and raster of a part of an image, or nothing where it has no sample."""
    width, height, pixel, raster = whole
    right, lower = min(width, x + w), min(height, y + h)
    if right <= x or lower <= y:
        return None
    return right - x, lower - y, pixel, b"".join(raster[(row * width + x) * pixel:(row * width + right) * pixel] for row in range(y, lower))

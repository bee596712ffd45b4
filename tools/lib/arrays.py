"""Random arrays and parameters for the Python package, for trials."""
import numpy as np

ORDERS = ("LRCP", "RLCP", "RPCL", "PCRL", "CPRL")
# Styles of code-blocks, with their bits in the header's struct (include/jk.h).
STYLES = {"reset": 2, "causal": 8, "segments": 32}


def picture(chance):
    """Samples, and how many bits they have."""
    depth = chance.randint(1, 16)
    components = chance.choice((1, 3))
    shape = (chance.randint(1, 90), chance.randint(1, 90)) + ((3,) if components == 3 else ())
    kind, top = chance.choice(("noise", "flat", "slope")), (1 << depth) - 1
    values = np.random.default_rng(chance.randrange(1 << 30))
    if kind == "noise":
        samples = values.integers(0, top + 1, shape)
    elif kind == "flat":
        samples = np.minimum(top // 2 + values.integers(0, 2, shape), top)
    else:
        y, x = np.mgrid[0:shape[0], 0:shape[1]]
        samples = np.broadcast_to(((3 * x + 5 * y) % (top + 1)).reshape(shape[:2] + (1,) * (len(shape) - 2)), shape)
    return samples.astype(np.uint8 if depth <= 8 else np.uint16), depth


def options(chance, samples):
    """Random parameters: for the package, as words of the command, and as words of convert.c."""
    components = 1 if samples.ndim == 2 else 3
    levels = chance.randint(0, 5)
    chosen = {
        "levels": levels, "layers": chance.choice((1, 1, 2, 5)), "order": chance.choice(ORDERS),
        "tile": chance.choice(((0, 0), (0, 0), (chance.randint(7, 60), chance.randint(7, 60)))),
        "block": chance.choice(((6, 6), (2, 2), (3, 7), (10, 2), (5, 4))),
        "colour": components == 3 and chance.random() < 0.7,
        "sop": chance.random() < 0.3, "eph": chance.random() < 0.3, "raw": chance.random() < 0.4,
        **{style: chance.random() < 0.3 for style in STYLES},
        "precincts": [],
    }
    if chance.random() < 0.03:
        chosen["layers"] = 33
    if chance.random() < 0.4:
        chosen["precincts"] = [(chance.randint(1, 8), chance.randint(1, 8)) for _ in range(levels + 1)]
    words = ["--levels", levels, "--layers", chosen["layers"], "--order", chosen["order"],
             "--block-x", chosen["block"][0], "--block-y", chosen["block"][1]]
    if chosen["tile"] != (0, 0):
        words += ["--tile-width", chosen["tile"][0], "--tile-height", chosen["tile"][1]]
    if chosen["precincts"]:
        words += ["--precincts", "".join("%x%x" % (high, wide) for wide, high in chosen["precincts"])]
    words += ["--no-colour"] * (components == 3 and not chosen["colour"])
    words += [f"--{name}" for name in ("sop", "eph", "raw", *STYLES) if chosen[name]]
    numbers = [levels, chosen["layers"], ORDERS.index(chosen["order"]), *chosen["tile"], *chosen["block"],
               *(int(chosen[name]) for name in ("colour", "sop", "eph", "raw")),
               sum(bit for style, bit in STYLES.items() if chosen[style]),
               *(wide | high << 4 for wide, high in chosen["precincts"])]
    return chosen, [str(word) for word in words], [str(number) for number in numbers]

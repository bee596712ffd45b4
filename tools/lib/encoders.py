"""Random images, parameters of jk and of other encoders, and files of these, for trials."""
import os
import subprocess

ORDERS = ("LRCP", "RLCP", "RPCL", "PCRL", "CPRL")
STYLES = {2: "reset", 8: "causal", 10: "reset, causal", 32: "segments", 34: "reset, segments",
          40: "causal, segments", 42: "reset, causal, segments"}


def picture(chance, components, depth, width, height):
    """A PGM or PPM file: a slope, waves of noise, or noise alone."""
    top = (1 << depth) - 1
    kind = chance.choice(("slope", "noise", "flat", "edges"))
    step = chance.randint(1, max(1, top // 64))
    values = []
    for y in range(height):
        for x in range(width):
            for c in range(components):
                if kind == "noise":
                    value = chance.randint(0, top)
                elif kind == "flat":
                    value = top // 2 + chance.randint(0, 1)
                elif kind == "edges":
                    value = top if (x // 7 + y // 5 + c) % 2 else 0
                else:
                    value = (x * step + y * 2 * step + c * 5 + chance.randint(0, step)) % (top + 1)
                values.append(value)
    head = b"P%d\n%d %d\n%d\n" % (5 if components == 1 else 6, width, height, top)
    size = 1 if top < 256 else 2
    return head + b"".join(value.to_bytes(size, "big") for value in values)


def precincts(chance, levels):
    """Sizes for some of the resolutions, the highest first. Encoders halve the last for each lower one, and a side of 1
    may stand at the lowest resolution alone."""
    side = lambda: 1 << chance.randint(max(3, levels), levels + 5)
    return ",".join("[%d,%d]" % (side(), side()) for _ in range(chance.randint(1, 3)))


def options(chance, encoder, components, width, height, most):
    """Options of an encoder, at most so many levels, and the names of what they ask for."""
    plain = encoder == "OpenJPEG"
    words, names = [], []

    def ask(name, *more):
        words.extend(more)
        names.append(name)

    def either(share):
        return chance.random() < share

    levels = chance.randint(0, most)
    words += ["-n", str(levels + 1)]
    names.append("%d levels" % levels)
    order = chance.choice(ORDERS)
    ask(order, "-p", order)
    if either(0.6):
        across = chance.randint(2, 8)
        ask("code-blocks", "-b", "%d,%d" % (1 << across, 1 << chance.randint(2, min(8, 12 - across))))
    if either(0.4):
        style = chance.choice(tuple(STYLES))
        ask(STYLES[style], "-M", str(style))
    if either(0.35):
        ask("precincts", "-c", precincts(chance, levels))
    if either(0.35):
        ask("tiles", "-t", "%d,%d" % (chance.randint(max(1, width // 5), width + 9), chance.randint(max(1, height // 5), height + 9)))
    if either(0.3):
        x, y = chance.randint(0, 40), chance.randint(0, 40)
        ask("offset", "-d", "%d,%d" % (x, y))
        if either(0.5):
            ask("tile offset", "-T", "%d,%d" % (chance.randint(0, x), chance.randint(0, y)))
    if either(0.4):
        rates = sorted(chance.sample(range(2, 60), chance.randint(1, 4)), reverse=True)
        ask("layers", "-r", ",".join(str(rate) for rate in rates) + ",1")
    if either(0.4):
        ask("SOP", "-SOP" if plain else "-S")
    if either(0.4):
        ask("EPH", "-EPH" if plain else "-E")
    if either(0.3):
        ask("PLT", "-PLT" if plain else "-L")
    if either(0.3):
        ask("TLM", "-TLM" if plain else "-X")
    # With many precincts an encoder would number more tile-parts than the 255 that the format has.
    if either(0.3) and "precincts" not in names:
        ask("tile-parts", "-TP" if plain else "-u", chance.choice("RLC"))
    if components == 3 and either(0.4):
        ask("no colour transform", "-mct" if plain else "-Y", "0")
    return words, names


def run(command):
    return subprocess.run(command, stdout=subprocess.DEVNULL, stderr=subprocess.PIPE, timeout=60)


def encode(chance, number, folder, most=6, side=300):
    """Another encoder's file of a random image: the paths, what was asked for, or nothing where it refused."""
    encoder = chance.choice(("OpenJPEG", "Grok"))
    components = chance.choice((1, 1, 3))
    depth = chance.choice((8, 8, 8, 9, 10, 12, 14, 16, 16))
    width, height = chance.choice(((1, 1), (1, 90), (90, 1))) if chance.random() < 0.06 else (chance.randint(2, side), chance.randint(2, side))
    image = os.path.join(folder, "%05d.%s" % (number, "pgm" if components == 1 else "ppm"))
    with open(image, "wb") as file:
        file.write(picture(chance, components, depth, width, height))
    older = os.path.join(folder, "%05d.%s" % (number, "ppm" if components == 1 else "pgm"))
    if os.path.exists(older):
        os.remove(older)
    stored = os.path.join(folder, "%05d.%s" % (number, chance.choice(("jp2", "j2k"))))
    words, names = options(chance, encoder, components, width, height, most)
    program = "opj_compress" if encoder == "OpenJPEG" else "grk_compress"
    try:
        done = run([program, "-i", image, "-o", stored] + words)
    except subprocess.TimeoutExpired:
        return None
    if done.returncode != 0 or not os.path.exists(stored):
        return None
    return encoder, image, stored, names + ["%d bits" % depth, "%d components" % components], program, words


def gives_back(encoder, stored, image, folder):
    """Whether the encoder's own decoder gives the image."""
    program = "opj_decompress" if encoder == "OpenJPEG" else "grk_decompress"
    own = os.path.join(folder, "own" + os.path.splitext(image)[1])
    if os.path.exists(own):
        os.remove(own)
    done = run([program, "-i", stored, "-o", own])
    if done.returncode != 0 or not os.path.exists(own):
        return False
    raster = open(image, "rb").read().split(b"\n", 3)[3]
    return open(own, "rb").read().endswith(raster)


def parameters(chance, components, width, height):
    """Options of `jk encode`, and the names of what they ask for."""
    words, names = [], []

    def ask(name, *more):
        words.extend(str(word) for word in more)
        names.append(name)

    def either(share):
        return chance.random() < share

    levels = chance.randint(0, 5)
    ask("%d levels" % levels, "--levels", levels)
    order = chance.choice(ORDERS)
    ask(order, "--order", order)
    if either(0.6):
        across = chance.randint(2, 8)
        ask("code-blocks", "--block-x", across, "--block-y", chance.randint(2, min(8, 12 - across)))
    if either(0.35):
        sizes = ["%d%d" % (chance.randint(1, 8), chance.randint(1, 8)) for _ in range(levels + 1)]
        ask("precincts", "--precincts", "".join(sizes))
    if either(0.35):
        ask("tiles", "--tile-width", chance.randint(max(1, width // 5), width + 9), "--tile-height", chance.randint(max(1, height // 5), height + 9))
    if either(0.3):
        ask("offset", "--x0", chance.randint(0, 40), "--y0", chance.randint(0, 40))
    if either(0.4):
        ask("layers", "--layers", chance.randint(2, 20))
    for share, name in ((0.4, "sop"), (0.4, "eph"), (0.3, "raw"), (0.3, "reset"), (0.3, "causal"), (0.3, "segments")):
        if either(share):
            ask(name, "--" + name)
    if components == 3 and either(0.4):
        ask("no colour transform", "--no-colour")
    return words, names


def numbers(path):
    """Width, height, samples a pixel and the bytes of a sample of a PGM or PPM file, and its raster."""
    with open(path, "rb") as file:
        data = file.read()
    head = [word for line in data[:400].split(b"\n")[:5] if not line.startswith(b"#") for word in line.split()]
    width, height, top = int(head[1]), int(head[2]), int(head[3])
    across, size = 3 if head[0] == b"P6" else 1, 1 if top < 256 else 2
    return width, height, across * size, data[len(data) - width * height * across * size:]


def decodes(program, stored, reduce, out):
    """What another decoder makes of a file at a reduction, or nothing where it refuses."""
    return decodes_by([program, "-i", stored, "-r", str(reduce), "-o", out], out)


def decodes_by(command, out):
    """The image that a command writes, or nothing where it refuses."""
    if os.path.exists(out):
        os.remove(out)
    try:
        done = run(command)
    except subprocess.TimeoutExpired:
        return None
    return numbers(out) if done.returncode == 0 and os.path.exists(out) else None


def own(jk, chance, folder):
    """A file of jk's own: its path, and the extension of its image."""
    components, depth = chance.choice((1, 1, 3)), chance.randint(1, 16)
    width, height = chance.randint(1, 200), chance.randint(1, 200)
    image = os.path.join(folder, "own.%s" % ("pgm" if components == 1 else "ppm"))
    with open(image, "wb") as file:
        file.write(picture(chance, components, depth, width, height))
    words, names = parameters(chance, components, width, height)
    stored = os.path.join(folder, "own." + ("j2k" if "raw" in names else "jp2"))
    run([jk, "encode", image, stored] + words)
    return stored, os.path.splitext(image)[1]

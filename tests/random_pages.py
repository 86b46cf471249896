#!/usr/bin/env python3
"""Holds `balunsep inspect` and `balunsep seal` to the model in pages_model.py on random and damaged page files.

    tests/random_pages.py PROGRAM [ROUNDS] [SEED]
"""
import os, random, struct, subprocess, sys, tempfile
from pages_model import STUDIO, inspection, sealed


def random_types(r):
    types = []
    for _ in range(r.randint(1, 32)):
        size = r.choice([1, 2, 3, 7, 20, 61, 62, r.randint(1, 62)])
        types.append((size, r.getrandbits(size)))
    return types


def random_link(r, pages):
    if r.random() < 0.3 or not pages:
        return 0
    return 64 * r.randint(1, pages) + r.randint(1, 63)


def lawful_page(r, types, pages):
    c, u = [0] * 64, 0
    while r.random() < 0.9:
        t = r.randint(1, len(types))
        size, mask = types[t - 1]
        if u + 1 + size > 63:
            break
        c[u + 1] = t
        for f in range(size):
            c[u + 2 + f] = random_link(r, pages) if mask >> f & 1 else r.getrandbits(r.choice([4, 12, 64]))
        u += 1 + size
    c[0] = u
    return c


def damaged(r, c):
    k = r.randrange(64)
    c[k] = r.choice([0, 1, c[k] + 1, c[k] ^ (1 << r.randrange(64)), r.getrandbits(64), 63, 64, 65, 577, c[k] * 64]) % 2**64
    if r.random() < 0.3:
        c[0] = r.choice([0, 1, 62, 63, 64, 65, max(c[0], 1) - 1, min(c[0] + 1, 2**64 - 1)])
    return c


def one(r, program, folder):
    types = STUDIO if r.random() < 0.5 else random_types(r)
    pages = r.choice([0, 1, 2, 8, 30, 66, 67] + ([131, 1023, 1024, 1026] if r.random() < 0.05 else []))
    data = b""
    for _ in range(pages):
        c = lawful_page(r, types, min(pages, 1024))
        if r.random() < 0.5:
            c = damaged(r, c)
        if r.random() < 0.05:
            c = [r.getrandbits(64) for _ in c]
        data += struct.pack("<64Q", *c)
    if r.random() < 0.3:
        data += bytes(r.randrange(1, 512))
    file = os.path.join(folder, "pages")
    with open(file, "wb") as f:
        f.write(data)
    store = r.choice(["image", "frozen", "checks", "checks", "split:%d" % r.choice([0, 1, 5, pages, pages + 3, 2000])])
    if store == "checks" and r.random() < 0.7:
        want, changed = sealed(data)
        ran = subprocess.run([program, "seal", file], capture_output=True, text=True)
        with open(file, "rb") as f:
            data = f.read()
        if ran.returncode or ran.stderr or ran.stdout != "changed %d cells\n" % changed or data != want:
            print("seal differs:", ran.stdout, ran.stderr)
            return False
        if r.random() < 0.6 and data:
            spoilt = bytearray(data)
            for _ in range(r.randint(1, 3)):
                spoilt[r.randrange(len(spoilt))] ^= 1 << r.randrange(8)
            data = bytes(spoilt)
            with open(file, "wb") as f:
                f.write(data)
    words = [program, "inspect", file]
    if store != "image" or r.random() < 0.5:
        words += ["--store", store]
    if types is not STUDIO:
        catalogue = os.path.join(folder, "catalogue")
        with open(catalogue, "w") as f:
            f.write("".join("%d %d\n" % t for t in types))
        words += ["--catalogue", catalogue]
    ran = subprocess.run(words, capture_output=True, text=True)
    got = [line.split("  #")[0] for line in ran.stdout.splitlines() if not line.startswith("  ")]
    want = inspection(data, types, store)
    if ran.returncode or ran.stderr or got != want:
        print("differs; the file is kept as", file)
        for g, w in zip(got + [""] * len(want), want):
            if g != w:
                print("  printed:", g, "\n  wanted: ", w)
                break
        print(ran.stderr)
        return False
    return True


def main():
    program = os.path.abspath(sys.argv[1])
    rounds = int(sys.argv[2]) if len(sys.argv) > 2 else 300
    seed = int(sys.argv[3]) if len(sys.argv) > 3 else 1
    r = random.Random(seed)
    folder = tempfile.mkdtemp()
    for i in range(rounds):
        if not one(r, program, folder):
            sys.exit("round %d of seed %d differs" % (i, seed))
    print("%d page files agree with the model" % rounds)


main()

"""An independent model of the page form in plain Python, written from docs/FORMATS.md."""
import struct

STUDIO = [(3, 6), (6, 48), (4, 14), (4, 14), (3, 6)]
NONE = (0, 64, 63)


def cells(page):
    return struct.unpack("<64Q", page)


def is_link(x, pages):
    return x == 0 or (1 <= x // 64 <= pages and x % 64 >= 1)


def first_fault(page, number, pages, types):
    """None for a lawful page, else the eight numbers of its first fault."""
    c = cells(page)
    u = c[0]
    if u > 63:
        return (13, 3, number, 0, 63) + NONE
    k = 1
    while k <= u:
        if not 1 <= c[k] <= len(types):
            return (14, 3, number, k, 63) + NONE
        size, mask = types[c[k] - 1]
        if k + size > u:
            return (15, 3, number, k, 63) + NONE
        for f in range(size):
            if mask >> f & 1 and not is_link(c[k + 1 + f], pages):
                return (16, 3, number, k, f) + NONE
        k += 1 + size
    for k in range(u + 1, 64):
        if c[k]:
            return (17, 3, number, k, 63) + NONE
    return None


def objects(page, types):
    """(cell, type, fields) of each object of a lawful page."""
    c = cells(page)
    found, k = [], 1
    while k <= c[0]:
        size = types[c[k] - 1][0]
        found.append((k, c[k], c[k + 1:k + 1 + size]))
        k += 1 + size
    return found


def check(page):
    return sum((i + 1) * b for i, b in enumerate(page))


def image(data):
    """The pages of a store, each its bytes or a mark (cause, layer)."""
    return [data[512 * n:512 * n + 512] for n in range(min(1024, len(data) // 512))]


def checked(below):
    """The pages of the checks layer over these pages."""
    q = len(below)
    p = q - (q + 64) // 65
    pages = []
    for n in range(1, p + 1):
        page, sums = below[n - 1], below[p + (n - 1) // 64]
        for mark in (page, sums):
            if isinstance(mark, tuple):
                page = mark
                break
        else:
            if cells(sums)[(n - 1) % 64] != check(page):
                page = (12, 8)
        pages.append(page)
    return pages


def split(data, first):
    cut = 512 * min(first, len(data) // 512)
    return (image(data[:cut]) + image(data[cut:]))[:1024]


def sealed(data):
    """The file with all checks of its pages put, and how many cells that changed."""
    q = len(image(data))
    p = q - (q + 64) // 65
    out, changed = bytearray(data), 0
    for n in range(1, p + 1):
        at = 512 * (p + (n - 1) // 64) + 8 * ((n - 1) % 64)
        want = struct.pack("<Q", check(data[512 * (n - 1):512 * n]))
        if out[at:at + 8] != want:
            out[at:at + 8] = want
            changed += 1
    return bytes(out), changed


def seen(data, store):
    if store == "checks":
        return checked(image(data))
    if store.startswith("split:"):
        return split(data, int(store[6:]))
    return image(data)


def inspection(data, types, store="image"):
    """The lines of `balunsep inspect` but for remarks and the objects' own lines."""
    below = seen(data, store)
    pages = len(below)
    lines, lawful, total, links = [], 0, 0, 0
    for n, page in enumerate(below, 1):
        if isinstance(page, tuple):
            fault = page + (n, 64, 63) + NONE
        else:
            fault = first_fault(page, n, pages, types)
        if fault:
            lines.append("page %d refused %s" % (n, " ".join(map(str, fault))))
            continue
        found = objects(page, types)
        lawful += 1
        total += len(found)
        for _, t, fields in found:
            links += sum(1 for f, x in enumerate(fields) if types[t - 1][1] >> f & 1 and x)
        lines.append("page %d lawful %d objects %d free" % (n, len(found), 63 - cells(page)[0]))
    if len(data) // 512 > 1024:
        lines.append("passed over: %d pages past page 1024" % (len(data) // 512 - 1024))
    if len(data) % 512:
        lines.append("passed over: %d bytes past the last page" % (len(data) % 512))
    lines.append("total %d pages %d lawful %d objects %d links" % (pages, lawful, total, links))
    return lines

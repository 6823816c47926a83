"""How many bytes an evidence names, beside the fewest that do by trying: sharp.c tries what the models of vectors/ know."""
import os
import statistics
import subprocess
import sys
from concurrent.futures import ThreadPoolExecutor

HERE = os.path.dirname(os.path.abspath(__file__))
ROOT = os.path.dirname(HERE)
sys.path.insert(0, f"{ROOT}/vectors/model")
import answers
import evidence
from decided import BRANDS, EBML, EXTENSIONS, FOLDERS, MATROSKA, NAMES, ZIP, decode, fields_of

# How many bytes of a file are looked at, and how many of zeros stand behind a sample.
FRONT = 8192
BEHIND = 1100
# Where a search may find a text: the first 1024 bytes of a PDF document, the first 256 of a Matroska file.
PDF_END, MATROSKA_END = 1024, 256
PDF = EXTENSIONS.index("pdf")


def joined(asked):
    """Bytes at places as texts, each as long as it goes on."""
    texts = []
    for place, byte in sorted(asked):
        if texts and texts[-1][0] + len(texts[-1][1]) == place:
            texts[-1] = (texts[-1][0], texts[-1][1] + byte)
        else:
            texts.append((place, byte))
    return texts


def of_fixed():
    """Of each alternative of each row, a text that it has."""
    rows = [*answers.BUILT_IN.values(), *(it.fixed for it in answers.FURTHER)]
    for alternative in (it for row in rows for it in row):
        yield joined((place, bytes([min(allowed)])) for place, allowed in alternative.asked)


def of_relations():
    """Texts that are searched, at each place, and what is not 00 of the samples of all rows."""
    yield from ([(place, b"%PDF")] for place in range(PDF_END - 3))
    yield from ([(0, EBML), (place, kind)] for kind in MATROSKA.values() for place in range(4, MATROSKA_END - len(kind) + 1))
    for majors, bases, compatible in BRANDS.values():
        yield from ([(0, b"\0\0\0\x10ftyp"), (8, major)] for major in majors)
        yield from ([(0, b"\0\0\0\x14ftyp"), (8, base), (16, brand)] for base in bases if base for brand in compatible)
    yield from ([(0, ZIP), (30, it)] for it in [*FOLDERS.values(), *NAMES])
    for sample in evidence.samples():
        yield joined((place, sample[place : place + 1]) for place in range(len(sample)) if sample[place])


def write_trials(path):
    with open(path, "wb") as out:
        for texts in [*of_fixed(), *of_relations()]:
            out.write(len(texts).to_bytes(4, "little"))
            for place, text in texts:
                out.write(place.to_bytes(4, "little") + len(text).to_bytes(4, "little") + text)


def tried(program, trials, word, bufs):
    """Of each buffer how many ranges are wanted, how many bytes are named, the fewest, and whether a search for "%PDF" is told."""
    cores = len(os.sched_getaffinity(0))
    packs = [b"".join(len(it).to_bytes(4, "little") + it for it in bufs[core::cores]) for core in range(cores)]
    ask = lambda pack: subprocess.run([program, word, trials, str(PDF)], input=pack, stdout=subprocess.PIPE, check=True).stdout.decode().splitlines()
    with ThreadPoolExecutor(cores) as pool:
        return [tuple(map(int, line.split(" "))) for lines in pool.map(ask, packs) for line in lines]


def fronts(paths):
    found = []
    for path in paths:
        with open(path, "rb") as file:
            found.append(file.read(FRONT))
    return found


def groups(paths):
    """The buffers that are asked, by what they are called."""
    samples = evidence.samples()
    vectors = [decode(tokens) for *_, tokens in fields_of("vectors.tsv")] + [buf for _, buf in evidence.further_vectors()]
    yield "samples", samples
    yield f"samples followed by {BEHIND} zeros", [it + bytes(BEHIND) for it in samples]
    yield "vectors", [it for it in vectors if len(it) <= FRONT]
    if paths:
        yield f"first {FRONT} bytes of {len(paths):,} files", fronts(paths)


def row_of(told):
    """The median and the largest number of bytes that are named, the same of the fewest, and the ratio of both at the median."""
    named, fewest = [it[1] for it in told], [it[2] for it in told]
    ratio = statistics.median(more / less for more, less in zip(named, fewest) if less)
    return [len(told), round(statistics.median(named)), max(named), round(statistics.median(fewest)), max(fewest), ratio]


def rows(room, paths):
    """Rows of a table: of each evidence and each group, and of those buffers of it for which no "%PDF" was searched. The driver
    stands on the library in c/out."""
    program, trials = f"{room}/sharp", f"{room}/trials"
    subprocess.run(["cc", "-O2", "-I", f"{ROOT}/c", f"{HERE}/sharp.c", f"{ROOT}/c/out/libinfer.a", "-o", program], check=True)
    write_trials(trials)
    for word, name in (("built_in", "`evidence`"), ("wider", "`more_evidence`")):
        for label, bufs in groups(paths):
            told = tried(program, trials, word, bufs)
            yield f"{name}, {label}", row_of(told)
            yield f"{name}, those where no search is reported", row_of([it for it in told if not it[3]])

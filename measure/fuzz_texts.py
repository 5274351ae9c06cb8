#!/usr/bin/env python3
"""Writes the first texts of measure/fuzz.sh, its dictionaries and the files that it holds, to a folder: measure/fuzz_texts.py FOLDER

They are the studies, reports, clauses, proofs and words from which measure/strange.py draws, as far as they are short: first_TARGET has those of a
target, a file each, TARGET.dict what stands in them, and held the studies by number over which reports and proofs are read, and the files that
words may name.
"""
import os
import re
import sys

sys.dont_write_bytecode = True
import strange

LONGEST, WORDS = 6_000, 1_000
PIECE = re.compile(rb"[A-Za-z_]{1,32}|[^\sA-Za-z_0-9]{1,3}|[0-9]+")
NAMES = {strange.STUDY: b"study", strange.REPORT: b"report", strange.CNF: b"cnf", strange.PROOF: b"proof"}
VALUES = {**NAMES, b"KIND": b"sets", b"N": b"7", b"AXIOM": b"pareto", b"NUMBER": b"1"}


def is_short(text):
    return len(text) < LONGEST


def small_studies(seeds):
    """Studies over which a report is checked, and a proof adopted, in a moment."""
    texts = lambda seed: seed.texts["report"] + seed.texts["sharp"]
    return [seed for seed in seeds if seed.profiles <= 36 and seed.dearest <= 5_000 and not seed.refused and any(map(is_short, texts(seed)))][:64]


def words_of_commands():
    """Each command with its words, and with each option in three forms."""
    for command, (program, forms, options, _, _) in strange.COMMANDS.items():
        plain = [program.encode(), command.encode(), *(VALUES[form] for form in forms)]
        yield plain
        for option in options:
            for more in ([option, b"2"], [option + b"=2"], [b"--", option]):
                yield plain + more


def first_texts(seeds, loose, small):
    """The texts of each target."""
    reports = [bytes([number]) + text for number, seed in enumerate(small) for text in seed.texts["report"] + seed.texts["sharp"]]
    proofs = [bytes([number]) + text for number, seed in enumerate(small) for text in seed.texts["proof"]]
    pairs = loose + [pair for seed in seeds for pair in zip(seed.texts["cnf"], seed.texts["proof"])]
    return {
        "study": [seed.study for seed in seeds],
        "report": reports,
        "lrat": [cnf + b"\0" + proof for cnf, proof in pairs],
        "adopt": proofs,
        "words": [b"".join(word + b"\0" for word in words) for words in words_of_commands()],
    }


def hold(path, text):
    os.makedirs(os.path.dirname(path), exist_ok=True)
    with open(path, "wb") as file:
        file.write(text)


def main(folder):
    programs = strange.Programs(*(f"{strange.ROOT}/crates/{name}/out/{name}" for name in ("bench", "explain")), folder)
    seeds, loose = strange.seeds_of(programs)
    small = small_studies(seeds)
    for target, texts in first_texts(seeds, loose, small).items():
        texts = list(filter(is_short, texts))
        for number, text in enumerate(texts):
            hold(f"{folder}/first_{target}/{number}", text)
        pieces = sorted({piece for text in texts for piece in PIECE.findall(text)}, key=lambda piece: (len(piece), piece))[:WORDS]
        hold(f"{folder}/{target}.dict", "".join('"' + "".join(f"\\x{byte:02x}" for byte in piece) + '"\n' for piece in pieces).encode())
    for number, seed in enumerate(small):
        hold(f"{folder}/held/{number}", seed.study)
    one = next(seed for seed in small if seed.texts["report"] and seed.texts["cnf"] and seed.texts["proof"])
    for name, text in ((b"study", one.study), *((name.encode(), one.texts[name][0]) for name in ("report", "cnf", "proof"))):
        hold(f"{folder}/held/{name.decode()}", text)


if __name__ == "__main__":
    main(sys.argv[1])

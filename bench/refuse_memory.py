#!/usr/bin/env python3
"""Refuses the program one allocation at a time, and shows each run that ends neither as usual nor with status 7 and nothing written.

    python3 bench/refuse_memory.py [--program PROGRAM] [--rest] [--most N] [--seed SEED] [--jobs N] [WORDS ..]

WORDS are those of one run, with paths from where you stand; where none are given, each command that the program has is run over the
examples, under each protocol. First a run counts the allocations, then as many runs follow, in each of which one more of them is refused: the first, the
second, and so on. With --rest all later ones are refused too. Where there are more than N (2,000 where none is given), N of them are
taken, evenly spread from a first one that the seed gives. PROGRAM is what `rt ci` or `./block` built, where none is given.

It needs Python's standard library, `cc` and the GNU C library. The gate makes some runs of it, whose seed is the commit (.ci/run).
Where threads take memory, which one comes as the Nth is not the same in each run.
"""
import argparse
import concurrent.futures
import os
import random
import re
import shutil
import subprocess
import sys
import tempfile
from pathlib import Path

from commands import BUILT, TOP, built, run
from cizborg.protocols import WORDS

EXAMPLES = TOP / "examples"

REFUSER = r"""
#define _GNU_SOURCE
#include <errno.h>
#include <fcntl.h>
#include <stdio.h>
#include <stdlib.h>
#include <sys/syscall.h>
#include <unistd.h>
extern void *__libc_malloc(size_t), *__libc_calloc(size_t, size_t), *__libc_realloc(void *, size_t), *__libc_memalign(size_t, size_t);
static unsigned long taken, refused;
static int counts, rest;
static int is_refused(void) {
    if (!counts) return 0;
    unsigned long n = __atomic_add_fetch(&taken, 1, __ATOMIC_SEQ_CST);
    if (!refused || !(n == refused || (rest && n > refused))) return 0;
    errno = ENOMEM;
    return 1;
}
void *malloc(size_t n) { return is_refused() ? NULL : __libc_malloc(n); }
void *calloc(size_t n, size_t m) { return is_refused() ? NULL : __libc_calloc(n, m); }
void *realloc(void *p, size_t n) { return is_refused() ? NULL : __libc_realloc(p, n); }
void *memalign(size_t a, size_t n) { return is_refused() ? NULL : __libc_memalign(a, n); }
void *aligned_alloc(size_t a, size_t n) { return memalign(a, n); }
int posix_memalign(void **p, size_t a, size_t n) { void *q = memalign(a, n); if (q) *p = q; return q ? 0 : ENOMEM; }
__attribute__((constructor)) static void begin(void) {
    char *at = getenv("REFUSED");
    refused = at ? strtoul(at, NULL, 10) : 0;
    rest = getenv("REFUSED_REST") != NULL;
    counts = 1;
}
static void leave(int status) {
    syscall(SYS_exit_group, status);
    __builtin_unreachable();
}
__attribute__((destructor)) static void tell(void) {
    counts = 0;
    char *path = getenv("COUNTED"), text[32];
    int file = path ? open(path, O_WRONLY | O_CREAT | O_TRUNC, 0644) : -1;
    if (file < 0) return;
    if (write(file, text, snprintf(text, sizeof text, "%lu", taken)) < 0) leave(70);
    close(file);
}
/* a program that ends by this call runs no destructor */
void _exit(int status) { tell(); leave(status); }
"""


class Refusals:
    """Runs of a program in which allocations are refused."""

    def __init__(self, program, folder, rest):
        self.program = program
        self.folder = folder
        self.seen = 0
        self.environment = {**os.environ, "LD_PRELOAD": str(folder / "refuser.so"), **({"REFUSED_REST": "1"} if rest else {})}

    def count(self, words):
        """How many allocations a run makes."""
        counted = self.folder / "counted"
        subprocess.run([self.program, *words], env={**self.environment, "COUNTED": str(counted)}, stdin=subprocess.DEVNULL, capture_output=True)
        return int(counted.read_text())

    def end_of(self, words, number):
        """How a run ends in which the allocation of this number is refused, none for 0."""
        try:
            ran = subprocess.run([self.program, *words], env={**self.environment, "REFUSED": str(number)}, stdin=subprocess.DEVNULL, capture_output=True, timeout=600)
        except subprocess.TimeoutExpired:
            return "not ended", b"", b""
        return ran.returncode, ran.stdout, ran.stderr

    def try_each(self, words, most, jobs, seed):
        """Refuses each allocation of a run in turn. Returns how many runs ended otherwise than they may."""
        usual, count = self.end_of(words, 0), self.count(words)
        self.seen += count
        first = random.Random(f"{seed} {words}").randrange(count) if count else 0
        numbers = range(1, count + 1) if count <= most else sorted({1 + (first + step * count // most) % count for step in range(most)})
        sevens, finds = 0, 0
        with concurrent.futures.ThreadPoolExecutor(jobs) as pool:
            for number, end in zip(numbers, pool.map(lambda n: self.end_of(words, n), numbers)):
                sevens += end[0] == 7
                if end not in (usual, (7, b"", b"")):
                    finds += 1
                    print(f"FIND: allocation {number} of {' '.join(words)}: status {end[0]}, {end[1][:100]!r}, {end[2][:100]!r}")
        print(f"{' '.join(map(shown, words))}: {count} allocations, {len(numbers)} refused, {sevens} with status 7, {len(numbers) - sevens - finds} as usual (status {usual[0]}), {finds} finds", flush=True)
        return finds


def shown(word):
    """A word of a command, without the folders above the top or above what was made here."""
    if not os.path.isabs(word):
        return word
    return os.path.relpath(word, TOP) if word.startswith(f"{TOP}/") else os.path.basename(word)


def over_pair(program, folder, protocol):
    """Words of each command that reads a certificate or a recording, over the pair of tasks under a protocol."""
    pair, short, jobs, rows = (str(EXAMPLES / name) for name in ("pair.json", "pair-short.json", "pair-jobs.csv", "pair-rows.csv"))
    certificate, old, refusal = (folder / f"{kind}-{protocol}" for kind in ("certificate", "old", "refusal"))
    certificate.write_bytes(subprocess.run([program, "analyse", protocol, pair], capture_output=True).stdout)
    old.write_bytes(re.sub(rb'"set":"[0-9a-f]{64}",', b"", certificate.read_bytes()).replace(b'"version":2', b'"version":1'))
    refusal.write_bytes(subprocess.run([program, "refute", protocol, short], capture_output=True).stdout)
    yield from (["check", protocol, pair, str(certificate)], ["report", protocol, pair, str(certificate)], ["upgrade", protocol, pair, str(old)])
    yield from (["refute", protocol, short], ["settle", protocol, short], ["confirm", protocol, short, str(refusal)])
    yield from (["conform", protocol, pair, jobs, rows], ["simulate", protocol, pair, jobs, "50"], ["audit", protocol, pair, str(certificate), jobs, rows])


def commands_of(program, folder):
    """Words of each command that the program has, over the examples."""
    plant = str(EXAMPLES / "plant.json")
    every = [[command, protocol, plant] for protocol in WORDS for command in ("analyse", "settle", "report")]
    # the search is made where the analysis is wide
    every += [["settle", protocol, str(EXAMPLES / "wide.json")] for protocol in WORDS]
    every += [["analyse", "mpcp", str(EXAMPLES / "overloaded.json")], ["analyse", "fmlp+", str(EXAMPLES / "none.json")], ["--help"], ["study", "0", "1"]]
    every += [words for protocol in WORDS for words in over_pair(program, folder, protocol)]
    for words in every:
        if words == ["--help"] or subprocess.run([program, *words], capture_output=True).returncode != 2:
            yield words
        else:
            print(f"left out, since the program has no such command: {' '.join(map(shown, words))}")


def arguments():
    given = argparse.ArgumentParser()
    given.add_argument("--program", default=str(BUILT))
    given.add_argument("--rest", action="store_true")
    given.add_argument("--most", type=int, default=2000)
    given.add_argument("--seed", default="1")
    given.add_argument("--jobs", type=int, default=1)
    given.add_argument("words", nargs=argparse.REMAINDER)
    return given.parse_args()


def main():
    given = arguments()
    program = built(given.program)
    if shutil.which("cc") is None:
        sys.exit("cc is missing: what refuses memory can't be compiled")
    with tempfile.TemporaryDirectory(prefix="refuse-") as name:
        folder = Path(name)
        (folder / "refuser.c").write_text(REFUSER)
        run(["cc", "-O1", "-shared", "-fPIC", "refuser.c", "-o", "refuser.so"], folder)
        refusals = Refusals(program, folder, given.rest)
        every = [given.words] if given.words else list(commands_of(program, folder))
        finds = sum(refusals.try_each(words, given.most, given.jobs, given.seed) for words in every)
    if not refusals.seen:
        sys.exit("no allocation was seen, so nothing was tried: the program doesn't take its memory from the C library")
    sys.exit(1 if finds else 0)


main()

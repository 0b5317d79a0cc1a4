#!/usr/bin/env python3
"""Refuses the growths of a run one after the other: the built program formats a book while its Nth call for memory fails, for each N
from 1 up to the first run that has fewer. Each run has to answer `no memory` (status 9) and write nothing, or be done with the
listing of a run that nothing was refused.

    bench/refused.py [PROGRAM [HTML [CSS ..]]]        without files a chapter with notes, references, strings and margin boxes

It needs a C compiler (`cc`, or what CC names), which makes the library that refuses. Prints how many growths were refused, and each
run that answered anything else."""
import os
import subprocess
import sys
import tempfile

TOP = os.path.dirname(os.path.dirname(os.path.abspath(__file__)))
PROGRAM = sys.argv[1] if len(sys.argv) > 1 else f"{TOP}/crates/bookfmt/out/bookfmt"
NO_MEMORY = 9
LIBRARY = r"""
#define _GNU_SOURCE
#include <dlfcn.h>
#include <errno.h>
#include <stdlib.h>
#include <string.h>
#include <unistd.h>
/* Calls for memory, with the one that fails; what dlsym itself asks for comes before it and is never refused. */
static long calls, refused;
static void *(*take)(size_t), *(*retake)(void *, size_t), *(*clear)(size_t, size_t);
static int (*align)(void **, size_t, size_t);
__attribute__((constructor)) static void begin(void) {
    take = dlsym(RTLD_NEXT, "malloc");
    retake = dlsym(RTLD_NEXT, "realloc");
    clear = dlsym(RTLD_NEXT, "calloc");
    align = dlsym(RTLD_NEXT, "posix_memalign");
    const char *text = getenv("REFUSED");
    refused = text ? atol(text) : 0;
    calls = 0;
}
__attribute__((destructor)) static void end(void) {
    if (refused && calls < refused) { if (write(2, "never refused\n", 14)) {} }
}
static int refuses(void) { return ++calls == refused; }
extern void *__libc_malloc(size_t);
extern void *__libc_realloc(void *, size_t);
extern void *__libc_calloc(size_t, size_t);
void *malloc(size_t n) { if (!take) return __libc_malloc(n); if (refuses()) { errno = ENOMEM; return 0; } return take(n); }
void *realloc(void *p, size_t n) { if (!retake) return __libc_realloc(p, n); if (refuses()) { errno = ENOMEM; return 0; } return retake(p, n); }
void *calloc(size_t a, size_t b) { if (!clear) return __libc_calloc(a, b); if (refuses()) { errno = ENOMEM; return 0; } return clear(a, b); }
int posix_memalign(void **p, size_t a, size_t n) { if (refuses()) return ENOMEM; return align(p, a, n); }
"""
METRICS = "bookmetrics 1\nface test normal 400 16 12 4 8\n"
HTML = """<!DOCTYPE html><title>A chapter</title><div class=toc><a href="#one"></a> <a href="#two"></a></div>
<h1 id=one>One</h1><p>Some words with a note<span class=fn>which is <em>short</em>, and goes on for a few words more</span>
and some more words, as <b>many</b> as fill a line or two on a narrow page, so that there is something to break.</p>
<ol><li>first<li>second<ul><li>inside</ul></ol><table><tr><td>a<td>b</table><h1 id=two>Two</h1>
""" + "<p>Words and words, and a note<span class=fn>of its own</span>, and words.</p>\n" * 12
CSS = """.fn{float:footnote}.toc a::after{content:" "target-counter(attr(href),page)}h1{string-set:t content();break-before:page}
@page{size:300px 200px;margin:20px}@page:left{margin-left:30px}@page:right{@top-right{content:string(t)}
@bottom-center{content:counter(page)" of "counter(pages)}}p{widows:3;orphans:3;text-align:justify;hyphens:auto}
div{border:1px solid red;background-color:blue;page:contents}@page contents{@top-left{content:"Contents"}}"""


def compiled(folder):
    with open(f"{folder}/refuse.c", "w", encoding="utf-8") as it:
        it.write(LIBRARY)
    made = f"{folder}/refuse.so"
    subprocess.run([os.environ.get("CC", "cc"), "-O1", "-shared", "-fPIC", "-o", made, f"{folder}/refuse.c", "-ldl"], check=True)
    return made


def run(words, library, refused):
    """The status, the listing and the messages of a run whose call of this number is refused; 0 refuses none."""
    known = {**os.environ, "LD_PRELOAD": library, "REFUSED": str(refused)}
    told = subprocess.run(words, env=known, stdin=subprocess.DEVNULL, capture_output=True, check=False)
    return told.returncode, told.stdout, told.stderr


def files(folder):
    if len(sys.argv) > 2:
        named = sys.argv[2:]
    else:
        named = []
        for name, text in (("html", HTML), ("css", CSS)):
            with open(f"{folder}/{name}", "w", encoding="utf-8") as it:
                it.write(text)
            named.append(f"{folder}/{name}")
    with open(f"{folder}/metrics", "w", encoding="utf-8") as it:
        it.write(METRICS)
    return [PROGRAM, "format", f"{folder}/metrics", *named]


def main():
    with tempfile.TemporaryDirectory() as folder:
        library, words = compiled(folder), files(folder)
        status, whole, _ = run(words, library, 0)
        if status:
            sys.exit(f"without a refusal the run ends with status {status}")
        refused = done = wrong = 0
        while True:
            status, listing, told = run(words, library, refused + 1)
            if b"never refused" in told:
                break
            refused += 1
            if status == 0 and listing == whole:
                done += 1
            elif status != NO_MEMORY or listing:
                wrong += 1
                print(f"call {refused}: status {status}, {len(listing)} bytes, {told[:80]!r}")
        print(f"{refused} growths refused in turn: {refused - done - wrong} runs without memory and output, {done} done, {wrong} other")
        sys.exit(1 if wrong or not refused else 0)


if __name__ == "__main__":
    main()

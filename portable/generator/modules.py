"""Turns a recorded module into one for any target."""
import re
import subprocess

from .places import clang
from .stopping import Stopped

HOST = ["--target=x86_64-unknown-linux-gnu", "-Wno-override-module"]
# Vectors and unrolled loops make C longer, and a compiler of C makes its own.
OPTIMIZED = ["-fno-vectorize", "-fno-slp-vectorize", "-fno-unroll-loops", "-fno-pic", "-fno-pie", "-Xclang", "-fmerge-functions"]
# The attributes that belong to x86-64, or to the place where the module was to be linked.
OF_PROCESSOR = re.compile(r' "(?:target-cpu|target-features|probe-stack|stack-probe-size)"="[^"]*"')
ENTRY = "program_main"
LEVELS = {"pcapfile_c": "-O3", "capcopy": "-O3", "pcapfile": "-O2"}
# A function's head with the path of its name. The first word of the path is the crate. A call for C has only its name.
DEFINITION = re.compile(r'^(define [^\n]*@"?([\w:]+)[^"\n]*"?\([^\n]*\)) ((?:local_)?unnamed_addr )?(#\d+) \{$', re.M)
# The functions that handle each packet in pcapfile must be fast.
FAST = r"pcap_(classic|ng|blocks|core|items|times|file)|pcapfile_(lines|info|shown|run|cut|merge)|pcap_filter|pcapfile_words_check::list"
FAST += r"|capcopy_run|jiff\w*|itoa|core(?!::fmt\b)|std_alloc"
# The functions that run once for a command line or a file: what reads the command line, and the texts of `check` and `info`.
RARE = r"(clap|strsim|std_io)\b.*|pcapfile::words::.*|pcapfile_shown::(report|told)::.*|pcapfile_run::checked::.*Display.*"
# Which functions must be small, and which as small as possible.
SMALL = {
    "pcapfile_c": (r"(pcap_tolerant\w*|pcap_raw_options|pcapfile_take_block_as_is)\b.*", ""),
    "pcapfile": (rf"(?!({FAST})\b).*", RARE),
}


def run_clang(words, given):
    ran = subprocess.run([clang(), *words], input=given, capture_output=True)
    if ran.returncode:
        raise Stopped(f"clang {' '.join(words)}: {ran.stderr.decode(errors='replace')[:1000]}")
    return ran.stdout


def text_of(module):
    """Returns a module's text, as it was lowered."""
    with open(module, "rb") as it:
        given = it.read()
    words = [*HOST, "-x", "ir", "-", "-S", "-emit-llvm", "-Xclang", "-disable-llvm-passes", "-o", "-"]
    return run_clang(words, given).decode()


def without_processor(text):
    return OF_PROCESSOR.sub("", text)


def with_entry(text):
    """Replaces a program's `main`, which tests the processor and calls its start, by a function that only calls the start."""
    head = re.search(r"^define i32 @main\(\)(.*)\{$", text, re.M)
    if not head:
        return text
    end = text.index("\n}\n", head.start()) + 3
    start = re.search(r'call i32 (@"[^"]*\+start")\(\)', text[head.start() : end])
    if not start:
        raise Stopped("the program's main calls no start")
    entry = f"define i32 @{ENTRY}(){head[1]}{{\nstart:\n  %r = call i32 {start[1]}()\n  ret i32 %r\n}}\n"
    return without_unused(text[: head.start()] + entry + text[end:])


def without_unused(text):
    """Removes the declarations of what only the old main called."""
    for name in ("__sysv_signal", "__x86_get_cpuid_feature_leaf", "__write"):
        if not re.search(rf"call [^@\n]*@{name}\(", text):
            text = re.sub(rf"^declare [^@\n]*@{name}\(.*\n", "", text, flags=re.M)
    return text


def prepared(module):
    """Returns the text of a recorded module for any processor."""
    return with_entry(without_processor(text_of(module)))


def sized(name, text):
    """Returns the module with a mark on each function that must be small rather than fast."""
    small, smallest = map(re.compile, SMALL.get(name, ("", "")))

    def marked(found):
        words = "optsize minsize " if smallest.fullmatch(found[2]) else "optsize " if small.fullmatch(found[2]) else ""
        return f"{found[1]} {found[3] or ''}{words}{found[4]} {{"

    return DEFINITION.sub(marked, text)


def optimized(name, text):
    """Returns the module after LLVM's own passes, without which the C would be many times slower."""
    words = [*HOST, "-x", "ir", "-", LEVELS[name], *OPTIMIZED, "-S", "-emit-llvm", "-o", "-"]
    return run_clang(words, sized(name, text).encode()).decode()

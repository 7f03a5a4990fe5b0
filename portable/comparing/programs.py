"""Runs each word of pcapfile and capcopy over each capture: standard output, standard error, status, and the files that remain."""
import filecmp
import hashlib
import os
import shutil
import subprocess
import tempfile

from .forms import TOP

PROVED = {"pcapfile": f"{TOP}/crates/pcapfile/out/pcapfile", "capcopy": f"{TOP}/crates/capcopy/out/capcopy"}
STEMS = {"pcapfile": "pcapfile_program", "capcopy": "capcopy_program"}
SECONDS = 300
# With one of these variables `make` may build in another form.
MAKES_OTHERWISE = {"CC", "CFLAGS", "CPPFLAGS"}
BOTH_WAYS = (
    [[word, *flags] for word, lenient in (("check", "--as-is"), ("list", "--as-is"), ("info", "--repair")) for flags in ([], [lenient])]
    + [["list", flag] for flag in ("--csv", "--json", "--utc", "--hex")]
    + [["info", "--json"], ["info", "--json", "--repair"], ["check", "--quiet"], ["list", "--json", "--as-is"]]
)
CUTS = (["--packets", "2-4"], ["--every", "3"], ["--from", "1000000000.5"], ["--until", "1400000000"], ["--bytes", "5000"], ["--seconds", "60"])


def words_of_pcapfile():
    found = [[*words, "IN"] for words in BOTH_WAYS]
    for to in ([], ["--to", "pcap"], ["--to", "pcapng"]):
        found += [["convert", *to, "IN", "-o", "OUT"], ["convert", *to, "--repair", "IN", "-o", "OUT"]]
    for cut in CUTS:
        found += [["cut", *cut, "IN", "-o", "OUT.pcap"], ["cut", *cut, "--repair", "IN", "-o", "OUT.pcap"]]
    found += [["cut", "--parts", "3", "IN", "-o", "OUT.pcap"], ["repair", "IN", "-o", "OUT"], ["join", "IN", "IN", "-o", "OUT"]]
    found += [["cut", "--snaplen", "60", "--shift", "1.5", "--dedup", "IN", "-o", "OUT"], ["sort", "IN", "-o", "OUT"]]
    found += [["cut", flag, "IN", "-o", "OUT"] for flag in ("--nanoseconds", "--microseconds")]
    found += [["merge", "IN", "NEXT", "-o", "OUT"], ["merge", "--repair", "--to", "pcap", "IN", "NEXT", "-o", "OUT"]]
    found += [["check", "IN", "NEXT", "nothing-here"], ["check", "--recursive", "."], ["cut", "--until", "-1s", "IN", "-o", "OUT"]]
    return found + [["convert", "-", "-o", "-"], ["repair", "-", "-o", "-"], ["list", "-"], ["info", "-"], ["convert", "IN", "-o", "IN"]]


WORDS = {
    "pcapfile": words_of_pcapfile(),
    "capcopy": [["list"], ["copy"], ["copy", "big", "nano"], ["copy", "little", "micro"], ["blocks"], ["wrong"]],
}
# The words that need no capture, tried once.
ALONE = {
    "pcapfile": [[], ["--help"], ["--version"], ["wrong"], ["list"], ["cut", "IN"], ["convert", "--to", "text", "IN"]]
    + [[word, "--help"] for word in ("check", "info", "list", "convert", "cut", "join", "merge", "sort", "repair")]
    + [["cut", "--from", "yesterday", "IN", "-o", "OUT"], ["check", "."], ["help", "cut"]],
    "capcopy": [[], ["--help"], ["--version"], ["copy", "wrong"]],
}


def digest(data):
    return hashlib.sha256(data).hexdigest()[:20]


def told(command, words, capture, following, room):
    """Returns all that one run of a program leaves."""
    folder = tempfile.mkdtemp(dir=room)
    try:
        shutil.copyfile(capture, f"{folder}/IN")
        shutil.copyfile(following, f"{folder}/NEXT")
        with open(capture, "rb") as given:
            ran = subprocess.run([*command, *words], cwd=folder, stdin=given, capture_output=True, timeout=SECONDS)
        names = sorted(it for it in os.listdir(folder) if it != "NEXT")
        files = [(it, digest(content(f"{folder}/{it}"))) for it in names]
        return ran.returncode, digest(ran.stdout), digest(ran.stderr), files, ran.stderr[-200:]
    finally:
        shutil.rmtree(folder)


def content(path):
    with open(path, "rb") as it:
        return it.read()


def runs(program, captures):
    """Returns each run as its words, the capture and the one after it."""
    found = [(words, captures[0], captures[-1]) for words in ALONE[program]]
    for at, capture in enumerate(captures):
        found += [(words, capture, captures[(at + 1) % len(captures)]) for words in WORDS[program]]
    return found


def compared(program, command, captures, room, pool, wanted):
    """Returns the answers of a program by this command, and the runs whose answers are not the wanted ones."""
    all_runs = runs(program, captures)
    got = list(pool.map(lambda it: told(command, *it, room), all_runs))
    if wanted is None:
        return got, []
    return got, [(run, want, mine) for run, want, mine in zip(all_runs, wanted, got) if want[:4] != mine[:4]]


def built_by_make(form, program, source):
    """Returns the program that `make` built from the same file, if it is in this form and not older than its sources, or None."""
    made, sources = f"{TOP}/out/{program}", [f"{TOP}/portable/{it}" for it in (f"{STEMS[program]}.c", "os.c")]
    if form.name != "gcc" or MAKES_OTHERWISE & os.environ.keys() or not os.path.isfile(made):
        return None
    is_gcc = os.path.realpath(shutil.which("cc") or "") == os.path.realpath(shutil.which("gcc"))
    is_new = max(map(os.path.getmtime, sources)) <= os.path.getmtime(made)
    return made if is_gcc and is_new and filecmp.cmp(source, sources[0], shallow=False) else None


def build(form, program, folder, room):
    """Builds a program in one form, or copies the one that `make` built so. Returns its path, and what went wrong, or None. Each has a name
    of its own, since its help contains that."""
    made, source = f"{room}/{form.name}/{program}", form.source(STEMS[program], folder)
    os.makedirs(f"{room}/{form.name}", exist_ok=True)
    known = built_by_make(form, program, source)
    if known:
        shutil.copy(known, made)
        return made, None
    return made, form.build([source, f"{TOP}/portable/os.c"], made, *["-DASSEMBLY"] * bool(form.target))

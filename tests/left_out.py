"""Reports what a part of the gate leaves out, in the form that `.ci/run` collects."""
import functools
import shutil

# The packages of Debian 12 that have these tools.
PACKAGES = {"capinfos": "wireshark-common", "editcap": "wireshark-common", "mergecap": "wireshark-common"}
PACKAGES |= {"wasm-ld": "lld", "wasm-opt": "binaryen", "node": "nodejs"}


@functools.lru_cache(maxsize=None)
def has(tool, what):
    """Returns whether a tool is installed. If it isn't, prints one line with what is left out."""
    is_there = shutil.which(tool) is not None
    if not is_there:
        print(f"left out: {what} (Debian package {PACKAGES.get(tool, tool)})", flush=True)
    return is_there

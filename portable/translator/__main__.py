"""python3 -m translator IN.ll OUT.c"""
import sys

from .failure import Unknown
from .file import File
from .module import module_of


def main(source, target):
    with open(source, encoding="utf-8") as it:
        module = module_of(it.read())
    text = File(module).text("/* Generated: do not edit. */\n")
    with open(target, "w", encoding="utf-8") as it:
        it.write(text)


if __name__ == "__main__":
    try:
        main(*sys.argv[1:])
    except Unknown as why:
        sys.exit(f"translator: {why}")

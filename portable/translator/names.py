"""How functions and data of a module are called in C."""
import re

# What the C library has under the same name and with the same meaning.
OF_C = {"memcmp": "memcmp", "bcmp": "memcmp", "memcpy": "memcpy", "memmove": "memmove", "memset": "memset"}
# What prelude.h has.
OF_HEAP = {"rattle_alloc": "allocate", "rattle_realloc": "reallocate", "rattle_dealloc": "deallocate"}
LONGEST = 64


class Names:
    """One name of C for each function and each piece of data."""

    def __init__(self, module):
        self.names, self.taken = {}, set()
        for function in module.functions:
            if not function.is_local:
                self.give(function.name, function.name[1:].strip('"'))
        for name in module.declarations:
            if not name.startswith("@llvm."):
                self.give(name, self.of_system(name[1:]))
        for made in [*module.functions, *module.globals]:
            if made.name not in self.names:
                self.give(made.name, self.local(made.name))

    def __getitem__(self, name):
        return self.names[name]

    def give(self, name, wanted):
        made, number = wanted, 1
        while made in self.taken and wanted not in OF_C.values():
            number += 1
            made = f"{wanted}_{number}"
        self.taken.add(made)
        self.names[name] = made

    def of_system(self, name):
        if name in OF_C:
            return OF_C[name]
        return OF_HEAP.get(name) or "os_" + name.removeprefix("rattle_").strip("_")

    def local(self, name):
        """The path, with the first digits of what an instance is for."""
        path = name[1:].strip('"').replace("::<#", "_")
        path = re.sub(r"_([0-9a-f]{4})[0-9a-f]{12}>", r"_\1", path)
        made = re.sub(r"\W+", "_", path).strip("_")
        return made[-LONGEST:].strip("_") if len(made) > LONGEST else made

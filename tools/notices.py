"""What the built program and the library for C have in them that others wrote: libraries of the toolchain, functions of GCC, and in the
program the C library where it is linked with it. Their licences want their texts to go with each copy, and operators have to list
what they run."""
import json
import os
import re
from pathlib import Path

import repository

# By what the text of a licence is known.
KNOWN = {"Runtime Library Exception": "GPL-3.0-or-later WITH GCC-exception-3.1", "Apache License": "Apache-2.0",
         "Permission is hereby granted, free of charge": "MIT", "Boost Software License": "BSL-1.0",
         "GNU LESSER GENERAL PUBLIC LICENSE": "LGPL-2.1-or-later"}
# Where Debian has the texts of some licences. A copyright file of Debian leads there, and all others have the text.
COMMON = {"Apache-2.0": Path("/usr/share/common-licenses/Apache-2.0"), "LGPL-2.1-or-later": Path("/usr/share/common-licenses/LGPL-2.1")}
OWN = """dollar: no licence is given yet; the choice is the owner's.

The program, and the library for C, have in them code of others, under the licences below. contents.json lists it.
"""
GCC = """What the compiler calls for numbers of 128 bits is GCC's, under the GNU General Public License, version 3 or later, with the GCC
Runtime Library Exception, version 3.1: what has it in it may be given away under any terms.
"""
RELINKED = """
The program is linked with the GNU C library. {object} is the program without it: with that, and gcc, it can be linked with another
version: gcc -static-pie -o dollar {object}
"""


def libraries(kit):
    """The libraries of the toolchain that the program uses, and those that these use, by their names."""
    own = repository.below("dollar")
    found, left = set(), [name for used in own.values() for name in used if name not in own]
    while left:
        name = left.pop()
        if name not in found:
            found.add(name)
            left += re.findall(r"(?m)^dep (\w+)$", Path(kit, "rlibs", f"{name}.rlib", "format").read_text(errors="replace"))
    return sorted(found)


def licence_of(text):
    return next(licence for words, licence in KNOWN.items() if words in text)


class Notices:
    """The libraries whose authors want a notice, each with its version, if its page names one, and with the texts of its licences."""

    def __init__(self, kit, has_c_library):
        self.texts, self.versions = {"libgcc": [GCC]}, {"libgcc": None}
        for name in libraries(kit):
            found = [file.read_text() for file in sorted(Path(kit, "rattle", name).glob("LICENSE*"))]
            if found:
                page = Path(kit, "rattle", name, "README.md").read_text(errors="replace")
                version = re.search(rf"`{name}` (\d+\.\d+\.\d+)", page)
                self.texts[name], self.versions[name] = found, version and version[1]
        if has_c_library:
            self.texts["glibc"] = [COMMON["LGPL-2.1-or-later"].read_text()]
            self.versions["glibc"] = os.confstr("CS_GNU_LIBC_VERSION").split()[1]

    def contents(self, toolchain, version):
        """The list of what is inside, as JSON: dollar first, whose licence is not given yet."""
        inside = [{"name": "dollar", "version": version, "licences": []},
                  *({"name": name, "version": self.versions[name], "licences": sorted(map(licence_of, texts))}
                    for name, texts in self.texts.items())]
        return json.dumps({"toolchain": toolchain, "inside": inside}, indent=1) + "\n"

    def copyright(self, relinked, is_debian):
        """The text that says under which licences the parts are: each licence once, after the names of those that it is of."""
        found = {}
        for name, texts in self.texts.items():
            for text in texts:
                found.setdefault(text, []).append(name)
        said = [OWN, RELINKED.format(object=relinked) if "glibc" in self.texts else ""]
        for text, names in found.items():
            place = COMMON.get(licence_of(text)) if is_debian else None
            said.append(f"\n{', '.join(names)}: {licence_of(text)}\n\n{f'The text is in {place}.' if place else text.strip()}\n")
        return "".join(said)

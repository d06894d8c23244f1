"""imports: looks that the modules of the command import each other in one direction alone."""
import glob
import os
import re
import sys

HERE = os.path.dirname(os.path.realpath(__file__))
failures = 0
for crate in ("survey",):
    imports = {}
    for path in glob.glob(f"{HERE}/../../{crate}/src/*.rs"):
        name = os.path.basename(path)[:-3]
        if name in ("main", "lib"):
            continue
        code = re.sub(r"//.*", "", open(path).read().split("#[cfg(test)]")[0])
        found = set(re.findall(r"crate::(\w+)", code))
        for group in re.findall(r"crate::\{([^}]*)\}", code):
            found |= set(re.findall(r"\w+", group))
        imports[name] = found
    imports = {name: {other for other in found if other in imports and other != name} for name, found in imports.items()}
    left = dict(imports)
    while free := [name for name, found in left.items() if not found & left.keys()]:
        for name in free:
            del left[name]
    if left:
        failures += 1
        print(f"NOT SO: {crate}: {', '.join(sorted(left))} import each other")
    print(f"imports: {len(imports)} modules of {crate}, {sum(map(len, imports.values()))} imports")
sys.exit(1 if failures else 0)

"""For tools/tried and tools/quick-archive: a program that reaches each exported function of a source, with lists of one word; or, with --libraries CRATES.TXT KIT ROOT
NAME, the words that pass the crates below NAME and the kit's libraries as source."""
import re
import sys


def program(source):
    text = open(source, encoding="utf-8").read()
    calls = re.findall(r'extern "C" fn (\w+)\((.*?)\) -> u32\n', text, re.S)
    print("// Reaches each call for C.\n#![tactic(auto)]\n")
    for name, parameters in calls:
        lines, words = [], []
        for i, parameter in enumerate(p.strip() for p in parameters.split(",\n") if p.strip()):
            kind = parameter.split(": ", 1)[1]
            list_of = re.fullmatch(r"&(mut )?\[(.*)\]", kind)
            if not list_of:
                words.append("0")
                continue
            element = list_of[2]
            zero = "[0, 0, 0, 0, 0]" if element.startswith("[") else "0"
            lines.append(f"    let {list_of[1] or ''}x{i}: [{element}; 1] = [{zero}];")
            words.append(f"&{list_of[1] or ''}x{i}")
        print(f"fn reach_{name}() {{\n" + "\n".join([*lines, f"    plate_track::{name}({', '.join(words)});"]) + "\n}\n")
    print("fn main() {\n" + "\n".join(f"    reach_{name}();" for name, _ in calls) + "\n}")


def libraries(listed, kit, root, top):
    uses = {}
    for line in open(listed, encoding="utf-8"):
        line = line.split("#")[0].strip()
        if line:
            name, _, deps = line.partition(":")
            uses[name.split()[0]] = deps.split()
    seen = []

    def below(name):
        for dep in uses.get(name, []):
            if dep not in seen:
                seen.append(dep)
                below(dep)

    below(top)
    for name in seen:
        print(f"--lib\n{name}:{','.join(['core', 'std', *uses[name]])}={root}/crates/{name}/src/lib.rt")
    names = ["std"]
    for name in names:
        with open(f"{kit}/rlibs/{name}.rlib/format", encoding="utf-8") as f:
            deps = re.findall(r"^dep (\w+)$", f.read(), re.M)
        names += [d for d in deps if d not in names]
        print(f"--lib\n{name}:{','.join(deps)}={kit}/rattle/{name}/src/lib.rt")


if __name__ == "__main__":
    if sys.argv[1] == "--libraries":
        libraries(*sys.argv[2:])
    else:
        program(sys.argv[1])

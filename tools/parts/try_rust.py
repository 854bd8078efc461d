#!/usr/bin/env python3
"""tools/try rust [FOLDER]: whether rust/ has the version, the structs and the calls of include/pafteis.h, and its tests over
the library in a folder (out/lib)."""
import os, re, subprocess, sys, tempfile

from versions import TOP, VERSION

TYPES = {"uint64_t": "u64", "uint32_t": "u32", "uint8_t": "u8", "size_t": "usize", "bool": "bool", "void *": "*mut c_void"}

def read(name):
    return re.sub(r"/\*.*?\*/", "", open(os.path.join(TOP, name), encoding="utf-8").read(), flags=re.S)

def rust_type(kind, name):
    """A field of C as Rust has it: its name and its type."""
    kind, stars = kind.strip(), name.count("*")
    name, _, count = name.strip(" *").partition("[")
    told = TYPES.get(kind + " *" * stars, kind)
    return name, "[%s; %s]" % (told, count.rstrip("]")) if count else told

def structs_of_c(text):
    for body, name in re.findall(r"typedef struct {([^}]*)} (\w+);", text):
        fields = (it.split(None, 1) for it in body.split(";") if it.strip())
        yield name, [rust_type(kind, one) for kind, names in fields for one in names.split(",")]

def structs_of_rust(text):
    for name, body in re.findall(r"#\[repr\(C\)\]\n(?:#.*\n)?pub struct (\w+) {([^}]*)}", text):
        yield name, re.findall(r"pub (\w+): ([^\n]+),", body)

def argument(told):
    """An argument of C as Rust has it, without its name."""
    kind, stars = re.match(r"((?:const )?\w+)\s*(\**)", told.strip()).groups()
    bare = TYPES.get(kind.replace("const ", ""), kind.replace("const ", ""))
    return ("*const " if "const" in kind else "*mut ") + bare if stars else bare

def calls_of_c(text):
    for name, arguments in re.findall(r"^uint32_t (\w+)\(([^)]*)\);", text, re.M):
        yield name, [argument(it) for it in arguments.split(",") if it != "void"]

def calls_of_rust(text):
    for name, arguments in re.findall(r"pub fn (\w+)\((.*)\) -> u32;", text):
        yield name, [it.split(": ")[1] for it in arguments.split(", ") if it]

def main():
    folder = os.path.abspath(sys.argv[1] if len(sys.argv) > 1 else os.path.join(TOP, "out/lib"))
    header, crate = read("include/pafteis.h"), read("rust/pafteis-sys/src/lib.rs")
    right = ['version = "%s"' % VERSION in read("rust/Cargo.toml"),
             dict(structs_of_c(header)) == dict(structs_of_rust(crate)),
             dict(calls_of_c(header)) == dict(calls_of_rust(crate))]
    with tempfile.TemporaryDirectory() as target:
        env = {**os.environ, "PAFTEIS_LIB_DIR": folder, "LD_LIBRARY_PATH": folder, "CARGO_TARGET_DIR": target}
        done = subprocess.run(["cargo", "test", "--offline", "--quiet"], cwd=os.path.join(TOP, "rust"), env=env,
                              capture_output=True, text=True)
    right.append(done.returncode == 0)
    for told, fine in zip(("the version", "structs", "calls", done.stdout + done.stderr), right):
        print(end="" if fine else "rust/ differs: %s\n" % told)
    print("%d tried, %d wrong" % (len(right), right.count(False)))
    return int(False in right)

if __name__ == "__main__":
    sys.exit(main())

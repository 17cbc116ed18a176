#!/usr/bin/env python3
"""Builds the program of a commit without proving it, to compare its speed with that of another program built in the same way.

    bench/unproved.py COMMIT PROGRAM

A proof of the whole program takes an hour of processor time, and the kit builds nothing that is not proved. But `rt try` compiles a
program for one run with checks, in LLVM's code. This takes that code, leaves the checks out, gives the functions of
bench/unproved.attributes the attributes that they have in a proved build, and compiles it with the options of one. Two such
programs are good for comparing with each other, and for nothing else: nothing about them is proved. The instructions of one
differ from those of the proved program by up to 4 percent, its time by some 10, so compare like with like:

    bench/unproved.py d6febe24 /tmp/before
    bench/unproved.py HEAD /tmp/now
    bench/run.py --program /tmp/now --against /tmp/before

It needs the kit (`rt` on the PATH) and three minutes."""
import os
import re
import shutil
import subprocess
import sys
import tempfile

HERE = os.path.dirname(os.path.abspath(__file__))
# The options of a proved build, as `rt run` gives them.
OPTIONS = """-march=x86-64 -mllvm -no-trap-after-noreturn -ffunction-sections -fdata-sections -mllvm -trap-unreachable
    -mllvm -no-x86-call-frame-opt -mllvm -disable-machine-licm -mllvm -disable-postra-machine-licm
    -mllvm -sink-common-insts=false --no-default-config -no-canonical-prefixes -fintegrated-cc1 -fno-crash-diagnostics -Werror
    -fPIE -O3 -Xclang -fmerge-functions -mllvm -mergefunc-use-aliases""".split()
# The number of each attribute group that is added, far from those that `rt try` writes.
GROUPS = {
    "inline": (1001, "inlinehint"),
    "never": (1002, "noinline"),
    "cold": (1003, "cold"),
    "cold-never": (1004, "cold noinline"),
}
MACHINE = '"probe-stack"="inline-asm" "stack-probe-size"="3072" "target-cpu"="x86-64-v2"'
CHECKS = re.compile(r'  call void (@"rattle-(llvm-checks|try)::|@llvm\.memset\.p0\.i64\(.*, i8 -86, )')
DEFINITION = re.compile(r'^define .*?@("[^"]+"|[\w.$]+)\(.*\) #0[ {]')


def shadow_kit(kit, folder):
    """A kit whose compiler and linker keep what they are given, and else are those of the kit."""
    shadow = os.path.join(folder, "kit")
    for below in ("bin", "toolchain/bin"):
        os.makedirs(os.path.join(shadow, below))
    for name in os.listdir(kit):
        if name not in ("bin", "toolchain"):
            os.symlink(os.path.join(kit, name), os.path.join(shadow, name))
    for name in os.listdir(os.path.join(kit, "bin")):
        shutil.copy2(os.path.join(kit, "bin", name), os.path.join(shadow, "bin", name))
    os.symlink(os.path.join(kit, "toolchain/lib"), os.path.join(shadow, "toolchain/lib"))
    kept = {
        "clang": 'for word; do case $word in *.bc) cp "$word" %s/module.bc;; esac; done' % folder,
        "ld.lld": "cp input-* %s/" % folder,
    }
    for name in os.listdir(os.path.join(kit, "toolchain/bin")):
        tool = os.path.join(kit, "toolchain/bin", name)
        with open(os.path.join(shadow, "toolchain/bin", name), "w") as script:
            script.write('#!/bin/sh\n%s\nexec %s "$@"\n' % (kept.get(name, ":"), tool))
        os.chmod(script.name, 0o755)
    return shadow


def run(words, **how):
    ran = subprocess.run(words, stdout=subprocess.PIPE, stderr=subprocess.STDOUT, text=True, **how)
    if ran.returncode != 0:
        sys.exit("bench/unproved.py: %s ended with status %d: %s" % (words[0], ran.returncode, ran.stdout[-500:]))


def attributes():
    """What kind of function each listed one is, by its name."""
    with open(os.path.join(HERE, "unproved.attributes")) as lines:
        return dict(reversed(line.split(maxsplit=1)) for line in map(str.strip, lines) if line and not line.startswith("#"))


def general(name):
    """A function's name without what depends on the types that it is made for, and on the crate of this repository that has it."""
    return re.sub(r"\bnm_[a-z]+", "nm", re.sub(r"<#[0-9a-f]+>", "<>", name)).strip('"')


def without_checks(lines):
    """The lines of LLVM's code without checks, as a proved build has them."""
    kinds = attributes()
    for line in lines:
        if CHECKS.match(line):
            continue
        defined = DEFINITION.match(line)
        kind = defined and kinds.get(general(defined[1]))
        if kind:
            head, tail = line.rsplit("#0", 1)
            line = "%s#%d%s" % (head, GROUPS[kind][0], tail)
        if line.startswith("attributes"):
            line = re.sub(r' sanitize_address| ?"frame-pointer"="all"', "", line).replace('"x86-64"', '"x86-64-v2"')
            line = line.replace("{ }", "{ nounwind }")
        yield line
    for number, words in GROUPS.values():
        yield "attributes #%d = { %s nounwind %s }\n" % (number, words, MACHINE)


def link(kit, folder, program):
    lib = os.path.join(kit, "toolchain/lib")
    words = """-m elf_x86_64 -pie --dynamic-linker /lib64/ld-linux-x86-64.so.2 --as-needed -z relro -z now -z noexecstack
        --eh-frame-hdr --gc-sections --no-dependent-libraries --threads=1""".split()
    # (input-0 is the program's own code with checks, and input-4 the library of these)
    given = [os.path.join(folder, name) for name in ("plain.o", "input-1", "input-2", "input-3")]
    first, last = (
        [os.path.join(lib, name) for name in names.split()]
        for names in (
            "Scrt1.o crti.o crtbeginS.o",
            "libm.so.6 libc.so.6 libc_nonshared.a ld-linux-x86-64.so.2 libgcc.a libgcc_s.so.1 crtendS.o crtn.o",
        )
    )
    words += ["-o", program, *first, *given, *last]
    run([os.path.join(kit, "toolchain/bin/ld.lld"), *words])


def compiled(kit, folder, commit):
    """LLVM's code of the program of a commit, as `rt try` compiles it, with checks. The linker's other input is beside it."""
    tree, packed, code = (os.path.join(folder, name) for name in ("tree", "tree.tar", "module.bc"))
    os.mkdir(tree)
    run(["git", "archive", "-o", packed, commit], cwd=os.path.dirname(HERE))
    run(["tar", "-xf", packed, "-C", tree])
    # (what the program prints, and its status, do not matter: to run it at all, rt try compiles it)
    quiet = {"stdin": subprocess.DEVNULL, "stdout": subprocess.DEVNULL, "stderr": subprocess.DEVNULL}
    rt = os.path.join(shadow_kit(kit, folder), "bin/rt")
    subprocess.run([rt, "try", "--", "--version"], cwd=os.path.join(tree, "crates/numatrace"), check=False, **quiet)
    if not os.path.exists(code):
        sys.exit("bench/unproved.py: rt try compiled nothing of %s" % commit)
    return code


def main():
    if len(sys.argv) != 3:
        sys.exit("usage: bench/unproved.py COMMIT PROGRAM")
    commit, program = sys.argv[1], os.path.abspath(sys.argv[2])
    rt = shutil.which("rt") or sys.exit("bench/unproved.py: the Rattle kit is needed: its command rt is not on the PATH")
    kit = os.path.dirname(os.path.dirname(os.path.realpath(rt)))
    with tempfile.TemporaryDirectory() as folder:
        code = compiled(kit, folder, commit)
        shown, plain, made = (os.path.join(folder, name) for name in ("shown.ll", "plain.ll", "plain.o"))
        clang = [os.path.join(kit, "toolchain/bin/clang"), "--target=x86_64-unknown-linux-gnu"]
        run([*clang, "-x", "ir", code, "-S", "-emit-llvm", "-o", shown, "-O0", "-w"])
        with open(shown) as lines, open(plain, "w") as out:
            out.writelines(without_checks(lines))
        run([*clang, "--sysroot=" + os.path.join(kit, "toolchain"), *OPTIONS, "-c", "-x", "ir", plain, "-o", made])
        link(kit, folder, program)


if __name__ == "__main__":
    main()

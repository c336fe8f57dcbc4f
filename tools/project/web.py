"""Makes web/motesim.wasm and web/motecheck.wasm from the crates, and web/motesim.html: tools/dev/build_web [NAME ..]

The modules are made from the programs `serial_program`, which simulates the scenario in its standard input on one
thread, and `serial_check`, which answers claims about one. The kit compiles a program to LLVM's intermediate code. If
all libraries below it are proved here (`rt ci` and ./prove do this), the kit first proves the program too; otherwise it
compiles the sources without a proof. The intermediate code is then edited for WebAssembly with addresses of 64 bits
(the names of the target, attributes of functions, and the name of `main`), compiled and linked with
tools/project/runtime.c by the kit's own clang, and lowered to addresses of 32 bits by Debian's `binaryen`. Code with a
part that the tool doesn't know, such as an external function, is refused.

web/NAME.json names the sources, the kit and the kind of the intermediate code. From the same sources, with the same
kit and the same version of binaryen, a module is the same, byte for byte.
"""
from __future__ import annotations

import hashlib
import json
import re
import shutil
import subprocess
import tempfile
from collections.abc import Iterator, Sequence
from pathlib import Path
from typing import NamedTuple

from motesim.command import command
from motesim.faults import Fault
from motesim.runner.module import SOURCES, About, about_of, file_of, read_about
from motesim.runner.programs import CODE, TOP, digest
from motesim.words import words_of
from project import kit, page

RUNTIME = Path(__file__).with_name('runtime.c')
# What the intermediate code may use: functions of the runtime, and families of LLVM's own functions.
EXTERNALS = frozenset('__sysv_signal __write __x86_get_cpuid_feature_leaf _exit rattle_alloc rattle_dealloc '
                      'rattle_errno rattle_realloc read write'.split())
INTRINSICS = frozenset('abs arithmetic.fence assume bswap ctlz ctpop cttz fshl fshr memcpy memmove memset '
                       'sadd.with.overflow smax smin smul.with.overflow ssub.with.overflow trap uadd.sat '
                       'uadd.with.overflow umax umin umul.with.overflow usub.sat usub.with.overflow'.split())
TARGET = 'wasm64-unknown-unknown'
LAYOUT = 'e-m:e-p:64:64-p10:8:8-p20:8:8-i64:64-i128:128-n32:64-S128-ni:1:10:20'
# The edits: for lines that begin with a text, a pattern and what replaces it. They change the target and the name of
# `main`; and they remove a hint to an x86-64 processor in a waiting loop, and attributes for x86-64 or for a sanitizer.
EDITS = [
    ('target datalayout = ', r'".*"', '"%s"' % LAYOUT),
    ('target triple = ', r'".*"', '"%s"' % TARGET),
    ('define i32 @main()', r'@main', '@motesim_main'),
    ('  call void @llvm.x86.sse2.pause()', r'.*', ''),
    ('declare void @llvm.x86.sse2.pause()', r'.*', ''),
    ('attributes #', r' sanitize_address\b', ''),
    ('attributes #', r' "(?:frame-pointer|probe-stack|stack-probe-size|target-cpu|target-features)"="[^"]*"', ''),
    ('attributes #', r'\{ *\}', '{ nounwind }'),
]
# The kit's own options for WebAssembly.
OPTIONS = ['--target=' + TARGET, '-mcpu=lime1', '-mllvm', '-expand-div-rem-bits=64', '-mllvm',
           '-expand-fp-convert-bits=64', '-mllvm', '-trap-unreachable', '-mllvm', '-disable-machine-licm', '-mllvm',
           '-disable-postra-machine-licm', '-mllvm', '-sink-common-insts=false', '-ffunction-sections',
           '-fdata-sections', '--no-default-config', '-fintegrated-cc1', '-Werror', '-O2', '-c']
STACK = 8 << 20
IMPORTS, EXPORTS = ['host.read', 'host.write'], ['memory', 'run']
NO_BINARYEN = 'this needs wasm-opt: on Debian `apt-get install binaryen` installs it'


class Unknown(Fault):
    """The intermediate code has a part that this tool doesn't know."""


# The intermediate code.

def declared(text: str) -> list[str]:
    """The functions that the code uses but doesn't define."""
    return re.findall(r'^declare [^@]*@"?([^("]+)', text, re.M)


def unknown_parts(text: str) -> Iterator[str]:
    """The parts of the code of which the tool can't know that they have the same meaning in WebAssembly."""
    for name in declared(text):
        family = re.sub(r'(\.[pif]\d+)+\Z', '', name.removeprefix('llvm.'))
        if name not in EXTERNALS and not (name.startswith('llvm.') and family in INTRINSICS):
            yield 'the external function %s' % name
    for line in text.splitlines():
        if 'asm ' in line and not line.startswith('@') and 'asm sideeffect "", "~{memory}"' not in line:
            yield 'inline assembly: %s' % line.strip()
        elif line.startswith('@') and 'thread_local' in line:
            yield 'a variable of a thread: %s' % line.strip()
        elif ' call ' in line and re.search(r' call [^"@]*%[\w.]+\(', line):
            yield 'a call through a pointer: %s' % line.strip()
        elif line.startswith('attributes #') and re.search(r'"[^"]*"=|\bsanitize', line):
            yield 'attributes: %s' % line


def edited(line: str) -> str:
    for begin, pattern, by in EDITS:
        if line.startswith(begin):
            line = re.sub(pattern, by, line)
    return line


def retargeted(text: str) -> str:
    """Intermediate code for x86-64 as code for WebAssembly. Raises `Unknown` if it has a part that isn't known."""
    made = '\n'.join(map(edited, text.splitlines())) + '\n'
    for part in unknown_parts(made):
        raise Unknown('the intermediate code has %s, which tools/project/web.py doesn\'t know' % part)
    return made


class Code(NamedTuple):
    """A file with intermediate code, and whether it is that of a proved program."""
    file: Path
    is_proved: bool


def code_of(source: str, top: Path, room: Path) -> Code:
    """The intermediate code of a program: proved if the libraries below it are proved here."""
    if kit.are_libraries_built(source, top):
        return Code(kit.proved_code(source, top, room), True)
    parts = room / 'parts'
    said = kit.compiled(source, top, room, room / source, parts)
    if said is not None:
        raise Fault('the program was not compiled, as these lines say:\n%s' % said.rstrip())
    return Code(parts / 'bitcode', False)


# The module.

def run(words: Sequence[str | Path], room: Path, executable: Path | None = None) -> None:
    """Runs a command in a folder. Raises a fault if it fails."""
    done = subprocess.run([str(it) for it in words], executable=executable, cwd=room, stdin=subprocess.DEVNULL,
                          capture_output=True, encoding='utf-8', errors='replace')
    if done.returncode:
        raise Fault('%s failed: %s' % (Path(words[0]).name, (done.stdout + done.stderr).strip()[-2000:]))


def leb128(data: bytes, at: int) -> tuple[int, int]:
    """The number at a place, and the place after it."""
    number = shift = 0
    while True:
        byte, at = data[at], at + 1
        number, shift = number | (byte & 127) << shift, shift + 7
        if byte < 128:
            return number, at


def sections(module: bytes) -> Iterator[tuple[int, int, int]]:
    """The sections of a module: the kind of each, where its content begins, and where it ends."""
    at = 8
    while at < len(module):
        size, begin = leb128(module, at + 1)
        yield module[at], begin, begin + size
        at = begin + size


def with_narrow_table(module: bytes) -> bytes:
    """The module with a table whose indices have 32 bits; binaryen doesn't know tables with 64. The table is empty:
    no call goes through it."""
    made = bytearray(module)
    for kind, begin, _ in sections(module):
        if kind == 9:
            raise Unknown('the module has functions in its table, so that a call may go through a pointer')
        if kind == 4:
            assert made[begin] == 1 and made[begin + 2] & 4
            made[begin + 2] &= ~4
    return bytes(made)


def names(module: bytes, kind: int) -> list[str]:
    """The names of the functions that a module imports (section 2), or of all that it exports (section 7)."""
    found = []
    for section, at, _ in sections(module):
        if section == kind:
            count, at = leb128(module, at)
            for _ in range(count):
                words = []
                for _ in range(2 if kind == 2 else 1):
                    size, at = leb128(module, at)
                    words.append(module[at:at + size].decode())
                    at += size
                found.append('.'.join(words))
                _, at = leb128(module, at + 1)
    return found


def module_of(code: Path, room: Path) -> bytes:
    """The module of intermediate code."""
    lower = shutil.which('wasm-opt')
    if not lower:
        raise Fault(NO_BINARYEN)
    clang = kit.clang()
    run([clang, '-S', '-emit-llvm', '-x', 'ir', code, '-o', 'x86.ll', '-O0', '-Xclang', '-disable-llvm-passes',
         '--target=x86_64-unknown-linux-gnu'], room)
    (room / 'code.ll').write_text(retargeted((room / 'x86.ll').read_text('utf-8')), 'utf-8')
    run([clang, *OPTIONS, '-x', 'ir', 'code.ll', '-o', 'code.o'], room)
    run([clang, *OPTIONS, '-ffreestanding', '-fno-builtin', '-Wall', '-x', 'c', RUNTIME, '-o', 'runtime.o'], room)
    # (the linker is a part of the kit's clang)
    run(['wasm-ld', '-m', 'wasm64', '--no-entry', '--gc-sections', '--strip-all', '--stack-first', '-z',
         'stack-size=%d' % STACK, 'code.o', 'runtime.o', '-o', 'wide.wasm'], room, clang)
    (room / 'wide.wasm').write_bytes(with_narrow_table((room / 'wide.wasm').read_bytes()))
    run([lower, '--all-features', '--memory64-lowering', '-O0', '--strip-debug', '--strip-producers',
         '--strip-target-features', 'wide.wasm', '-o', 'module.wasm'], room)
    module = (room / 'module.wasm').read_bytes()
    for what, kind, expected in ('imports', 2, IMPORTS), ('exports', 7, EXPORTS):
        if sorted(names(module, kind)) != expected:
            raise Unknown('the module %s %s instead of %s' % (what, names(module, kind), expected))
    return module


def binaryen() -> str:
    """The version of binaryen."""
    done = subprocess.run([shutil.which('wasm-opt') or 'wasm-opt', '--version'], capture_output=True, text=True)
    return done.stdout.strip().removeprefix('wasm-opt ')


class Made(NamedTuple):
    """A module, and what is known about it."""
    module: bytes
    about: About


def build(name: str, top: Path = TOP) -> Made:
    """The module of a program, from the sources of a tree."""
    if not shutil.which('wasm-opt'):
        raise Fault(NO_BINARYEN)
    with tempfile.TemporaryDirectory(prefix='motesim-web-') as room:
        code = code_of(SOURCES[name], top, Path(room))
        module = module_of(code.file, Path(room))
    kind = 'proved' if code.is_proved else 'compiled'
    return Made(module, About(digest(top, CODE, SOURCES[name]), kind, kit.version(), binaryen(),
                              hashlib.sha256(module).hexdigest()))


def write(name: str, made: Made) -> None:
    """Replaces a module of this tree."""
    file_of(name).write_bytes(made.module)
    about_of(name).write_text(json.dumps(made.about._asdict(), indent=2) + '\n', 'utf-8')


def difference(kept: About, made: About) -> str | None:
    """Why the module of this tree isn't the one that was made from its sources; None if it is, or if another kit or
    version of binaryen made it."""
    if kept.sources != made.sources:
        return 'it was made from other sources'
    if (kept.kit, kept.binaryen, kept.code) == (made.kit, made.binaryen, made.code) and kept.sha256 != made.sha256:
        return 'the bytes differ from those that this kit makes of the sources'
    return None


@command('build_web')
def main() -> int:
    words = words_of(__doc__)
    words.add_argument('names', metavar='NAME', nargs='*', choices=[[], *SOURCES])
    for name in words.parse_args().names or SOURCES:
        made, kept = build(name), read_about(name)
        write(name, made)
        print('%s: %d bytes, from the intermediate code of the %s program%s' % (
            file_of(name).relative_to(TOP), len(made.module), made.about.code,
            ', as before' if kept == made.about else ''))
    return page.main()

"""Programs in C that call the proved loops, which the static library crates/loop_bench exports."""
import os
import subprocess

TOP = os.path.dirname(os.path.dirname(os.path.abspath(__file__)))


def run(words, given=None):
    """What a command writes, from the repository's top; it must succeed."""
    return subprocess.run(words, input=given, stdout=subprocess.PIPE, stderr=subprocess.DEVNULL, check=True, cwd=TOP).stdout


def build(name, work):
    """Compiles bench/NAME.c with the library, to a program of that name in a folder."""
    print("proving and building the static library ..", flush=True)
    subprocess.run([f"{TOP}/tools/build", "loop_bench"], stdout=subprocess.DEVNULL, check=True)
    # The calls of malloc and free that the library makes.
    heap = os.path.dirname(run(["rt", "doc"]).decode().strip()) + "/c/liblibc_c.a"
    library = f"{TOP}/crates/loop_bench/out/libloop_bench.a"
    run(["gcc", "-std=c99", "-D_POSIX_C_SOURCE=199309L", "-O2", "-o", f"{work}/{name}", f"{TOP}/bench/{name}.c", library, heap])

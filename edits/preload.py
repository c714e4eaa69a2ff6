"""Programs that are built, and C libraries that are loaded before the C library: for `growths` and `programs`."""
import os, shutil, subprocess, sys

CRATES = os.path.join(os.path.dirname(os.path.dirname(os.path.abspath(__file__))), "crates")


def stop(why):
    sys.exit(f"edits/{os.path.basename(sys.argv[0])}: {why}")


def put_program(name, folder, built=""):
    """Puts the program of a crate into a folder, as it stands in its `out/`, or in `built` if that is named."""
    program = os.path.join(built or f"{CRATES}/{name}/out", name)
    if not os.path.isfile(program):
        stop(f"{name} isn't built")
    shutil.copyfile(program, f"{folder}/{name}")
    os.chmod(f"{folder}/{name}", 0o755)


def put_library(text, file):
    """Compiles C code to the library `file`, by `cc` or what CC names."""
    compiler = os.environ.get("CC", "cc")
    if not shutil.which(compiler):
        stop(f"there is no C compiler {compiler}, so nothing was run")
    with open(f"{file}.c", "w", encoding="utf-8") as out:
        out.write(text)
    subprocess.run([compiler, "-O1", "-shared", "-fPIC", "-o", file, f"{file}.c", "-ldl"], check=True)

"""Builds the benchmark's driver: our archive and the Rust's canvas, both for release, linked into target/bench/driver."""
import os
import shutil
import subprocess
import sys

HERE = os.path.dirname(os.path.abspath(__file__))
ROOT = os.path.dirname(HERE)
BUILD = os.path.join(ROOT, "target", "bench")
DRIVER = os.path.join(BUILD, "driver")
LAID_OUT = os.path.join(ROOT, "target", "compare", "plain")
STANDINS = os.path.join(ROOT, "compare", "standins")

sys.path.append(os.path.join(ROOT, "compare"))
import programs

# What cargo takes for --release, but with one unit of code, as compare/build has it.
RELEASE = ["-C", "opt-level=3", "-C", "codegen-units=1", "-C", "overflow-checks=off", "-C", "debug-assertions=off"]
LIBRARIES = ["itertools", "line_clipping", "ratatui_core"]


def build(sources):
    """Gives the path of the archive that the driver was linked with."""
    programs.make_judge(sources)
    os.makedirs(BUILD, exist_ok=True)
    for name in LIBRARIES:
        compile_library(name, os.path.join(STANDINS, name + ".rs"), [])
    compile_library("canvas_plain", os.path.join(LAID_OUT, "lib.rs"), LIBRARIES)
    compile_library("canvas_std", lay_out_with_std(), LIBRARIES, "--cfg", 'feature="std"')
    uses = ["ratatui_core", "canvas_plain", "canvas_std"]
    main_file = os.path.join(HERE, "driver", "main.rs")
    ours = make_archive()
    rustc("--crate-name", "driver", "-o", DRIVER, main_file, *externs(uses), "-C", f"link-arg={ours}")
    return ours


def lay_out_with_std():
    """The same sources in a crate that has std, so that its float functions take the place of the polyfills."""
    folder = os.path.join(BUILD, "with_std")
    shutil.rmtree(folder, ignore_errors=True)
    shutil.copytree(LAID_OUT, folder)
    root = os.path.join(folder, "lib.rs")
    with open(root, "a", encoding="utf-8") as file:
        file.write("\nextern crate std;\n")
    return root


def make_archive():
    """Our static library: the file in the environment variable ARCHIVE, or the repository's own, proved and built."""
    given = os.environ.get("ARCHIVE")
    if given:
        return os.path.abspath(given)
    if subprocess.run([os.path.join(ROOT, "bindings", "archive")], cwd=ROOT, stdout=subprocess.DEVNULL).returncode:
        sys.exit("bench: the archive could not be made")
    return os.path.join(ROOT, "target", "staticlib", "libmossbuckle.a")


def rustc(*arguments):
    if subprocess.run(["rustc", "--edition", "2024", *RELEASE, "-L", BUILD, *arguments]).returncode:
        sys.exit("bench: rustc failed")


def externs(names):
    return [part for name in names for part in ("--extern", f"{name}={BUILD}/lib{name}.rlib")]


def compile_library(name, path, uses, *more):
    kind = ["--cap-lints", "allow", "--crate-type", "rlib", "--crate-name", name]
    rustc(*kind, *more, "--out-dir", BUILD, path, *externs(uses))

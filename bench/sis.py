"""Builds SIS, the interpreter of SPARC in gdb's source (sim/erc32), from Debian's source package of gdb."""
import os
import shutil
import subprocess
import sys

SOURCE = "deb-src [signed-by=/usr/share/keyrings/debian-archive-keyring.gpg] http://deb.debian.org/debian bookworm main\n"
PACKAGE = "gdb=13.1-3"
ARCHIVE = "gdb_13.1.orig.tar.xz"
TOP = "gdb-13.1"
PATCH = "sis_leon.patch"
TOOLS = {"apt-get": "apt", "dpkg-source": "dpkg-dev", "gcc": "build-essential", "make": "build-essential",
         "patch": "patch", "bison": "bison", "flex": "flex"}
HEADERS = {"gmp.h": "libgmp-dev", "mpfr.h": "libmpfr-dev", "readline/readline.h": "libreadline-dev", "zlib.h": "zlib1g-dev"}
LEFT_OUT = "gdb gdbserver binutils ld gas gprof nls".split()


def has_header(header):
    """Whether the C compiler finds this header."""
    line = f"#include <stdio.h>\n#include <{header}>\n"
    return subprocess.run(["gcc", "-E", "-"], input=line.encode(), capture_output=True).returncode == 0


def missing():
    """Debian's packages that the build needs and that are not installed."""
    tools = {package for tool, package in TOOLS.items() if not shutil.which(tool)}
    if not shutil.which("gcc"):
        return sorted(tools)
    return sorted(tools | {package for header, package in HEADERS.items() if not has_header(header)})


def logged(folder, log, command, within=None):
    """Runs a command with its text in a log of the folder, and ends the measurement where the command fails."""
    path = os.path.join(folder, log)
    with open(path, "w") as out:
        status = subprocess.run(command, cwd=within or folder, stdout=out, stderr=out, stdin=subprocess.DEVNULL).returncode
    if status != 0:
        sys.exit(f"peers: {command[0]} failed with status {status}; its text is in {path}")


def fetch(folder):
    """Fetches the source with lists and sources of the folder's own, so that those of the machine stay as they are."""
    apt = os.path.join(folder, "apt")
    for part in ("lists/partial", "cache/archives/partial"):
        os.makedirs(os.path.join(apt, part), exist_ok=True)
    with open(os.path.join(apt, "sources.list"), "w") as out:
        out.write(SOURCE)
    options = {"Dir::Etc::sourcelist": f"{apt}/sources.list", "Dir::Etc::sourceparts": "-", "Dir::State::lists": f"{apt}/lists",
               "Dir::Cache": f"{apt}/cache", "APT::Sandbox::User": "root"}
    get = ["apt-get"] + [word for key, value in options.items() for word in ("-o", f"{key}={value}")]
    logged(folder, "update.log", get + ["update"])
    logged(folder, "source.log", get + ["source", "--download-only", PACKAGE])


def unpack(folder):
    """Unpacks the source anew and gives SIS the memory map of this machine."""
    shutil.rmtree(os.path.join(folder, TOP), ignore_errors=True)
    logged(folder, "unpack.log", ["tar", "xf", ARCHIVE])
    patch = os.path.join(os.path.dirname(os.path.abspath(__file__)), PATCH)
    logged(folder, "patch.log", ["patch", "-p1", "-d", TOP, "-i", patch])


def compile_sis(folder):
    """Compiles the simulator and the libraries that it needs, and no other part of gdb."""
    build = os.path.join(folder, "build")
    shutil.rmtree(build, ignore_errors=True)
    os.makedirs(build)
    options = ["--target=sparc-rtems", "--enable-sim", "--with-system-zlib"] + [f"--disable-{part}" for part in LEFT_OUT]
    logged(folder, "configure.log", [f"../{TOP}/configure"] + options, build)
    logged(folder, "make.log", ["make", f"-j{os.cpu_count()}", "MAKEINFO=true", "all-sim"], build)


def built(folder):
    """The path of SIS, which is built where the folder does not have it yet."""
    program = os.path.join(folder, "build/sim/erc32/sis")
    if os.path.exists(program):
        return program
    if packages := missing():
        sys.exit(f"peers: SIS needs these packages of Debian: {' '.join(packages)}")
    print("peers: building SIS", file=sys.stderr)
    if not os.path.exists(os.path.join(folder, ARCHIVE)):
        fetch(folder)
    unpack(folder)
    compile_sis(folder)
    return program

"""Runs programs with one request for memory refused, for tools/refusals and tools/refused-tests."""
import os
import shutil
import subprocess
import threading
from pathlib import Path

TOOLS = Path(__file__).resolve().parent


def compilers():
    """Each C compiler that is here, as words: that in CC, cc, gcc, clang, and the kit's."""
    for name in (os.environ.get("CC"), "cc", "gcc", "clang"):
        if name and shutil.which(name):
            yield [name]
    rt = os.environ.get("RT", "rt")
    if shutil.which(rt):
        page = subprocess.run([rt, "doc"], capture_output=True, text=True).stdout.strip()
        kit = Path(page).parent / "toolchain" / "bin"
        if (kit / "clang").exists():
            yield [kit / "clang", "-nostdlib", f"--ld-path={kit / 'ld.lld'}"]


def library(folder):
    """Builds tools/refuse.c in the folder, or says that nothing was tried and answers None."""
    made = Path(folder) / "refuse.so"
    for words in compilers():
        words = [*words, "-shared", "-fPIC", "-o", made, TOOLS / "refuse.c"]
        if subprocess.run(words).returncode == 0:
            return made
    print("FAILED no C compiler builds tools/refuse.c, so no request for memory was refused;")
    print("it takes one: that in CC, or cc, gcc, clang, or that of the kit of rt")
    return None


def run(words, made, which=0, given=b""):
    """Plays a program whose request for memory numbered `which` is refused, or none where it is 0.

    It answers the status, the lines printed, the text on standard error, and how many requests the
    program made: 0 where it did not end by itself.
    """
    count = made.with_name(f"count-{threading.get_ident()}")
    count.unlink(missing_ok=True)
    env = dict(os.environ, LD_PRELOAD=str(made), REFUSE=str(which), COUNT=str(count))
    ran = subprocess.run(words, input=given, capture_output=True, timeout=60, env=env)
    made_requests = int(count.read_text()) if count.exists() else 0
    errors = ran.stderr.decode(errors="replace")
    return ran.returncode, ran.stdout.decode(errors="replace").splitlines(), errors, made_requests

#!/usr/bin/env python3
"""Runs the commands of docs/TUTORIAL.md in order in an empty folder, and compares what they print with the page.

usage: checks/tutorial.py [--pabble PROGRAM]

The program `pabble-renew` is the one that RENEW names, or that the script of that name runs.

A block between ```sh and ``` is given to bash; what it prints must be the ```text block behind it, or nothing where there is none.
Blocks that call mpirun are passed over where no MPI is installed, which the last line says.
"""
import os
import re
import shutil
import subprocess
import sys
import tempfile

TOP = os.path.dirname(os.path.dirname(os.path.realpath(__file__)))
FREE = {
    "OMPI_ALLOW_RUN_AS_ROOT": "1",
    "OMPI_ALLOW_RUN_AS_ROOT_CONFIRM": "1",
    "OMPI_MCA_rmaps_base_oversubscribe": "1",
    "OMPI_MCA_mpi_yield_when_idle": "1",
    "MPIR_CVAR_POLLS_BEFORE_YIELD": "1",
}


def main():
    words = sys.argv[1:]
    pabble = words[1] if words[:1] == ["--pabble"] else subprocess.check_output([f"{TOP}/scripts/program.sh"], text=True).strip()
    renew = subprocess.check_output([f"{TOP}/scripts/program.sh"], text=True, env={**os.environ, "PROGRAM_CRATE": "pabble_renew"}).strip()
    with open(f"{TOP}/docs/TUTORIAL.md") as it:
        blocks = re.findall(r"^```sh\n(.*?)^```\n(?:```text\n(.*?)^```\n)?", it.read(), re.M | re.S)
    has_mpi = bool(shutil.which("mpicc") and shutil.which("mpirun"))
    passed = failed = skipped = 0
    with tempfile.TemporaryDirectory() as room:
        os.makedirs(f"{room}/bin")
        os.makedirs(f"{room}/empty")
        os.symlink(os.path.realpath(pabble), f"{room}/bin/pabble")
        os.symlink(os.path.realpath(renew), f"{room}/bin/pabble-renew")
        how = {**os.environ, **FREE, "PATH": f"{room}/bin:{os.environ['PATH']}"}
        for commands, wanted in blocks:
            if not has_mpi and "mpirun" in commands:
                commands = "\n".join(it for it in commands.split("\n") if "mpirun" not in it)
                wanted, skipped = "", skipped + 1
            got = subprocess.run(
                ["bash", "-c", commands], cwd=f"{room}/empty", env=how, stdout=subprocess.PIPE, stderr=subprocess.STDOUT, text=True
            ).stdout
            if got == wanted:
                passed += 1
            else:
                failed += 1
                print(f"this block:\n{commands}printed:\n{got}and not:\n{wanted}", flush=True)
    print(f"{passed} blocks passed, {failed} failed" + (f"; without an MPI, {skipped} of them only in part" if skipped else ""))
    return 1 if failed or not passed else 0


if __name__ == "__main__":
    sys.exit(main())

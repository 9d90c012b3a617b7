#!/usr/bin/env python3
"""Runs a script (.wast) by wabt's wast2json and spectest-interp:   suite/host/spectest.py PROBE.wast"""
import os
import subprocess
import sys
import tempfile


def main():
    with tempfile.TemporaryDirectory() as room:
        made = os.path.join(room, "script.json")
        for command in (["wast2json", sys.argv[1], "-o", made], ["spectest-interp", made]):
            run = subprocess.run(command, capture_output=True, text=True, errors="replace")
            if run.returncode != 0:
                sys.stderr.write(run.stderr + run.stdout)
                return 1
    return 0


if __name__ == "__main__":
    sys.exit(main())

"""deals-tricks, built from its sources."""

import subprocess

import harness
import packages

BUILD = harness.TOP / "companion" / "build"
PROGRAM = harness.TOP / "companion" / "out" / "deals-tricks"


def build(*words):
    """The program, built if it is missing or older than its sources. With a folder its package is made too."""
    packages.need("g++", "g++")
    packages.need("libdds-dev", "/usr/include/dds/dll.h")
    packages.need("nlohmann-json3-dev", "/usr/include/nlohmann/json.hpp")
    subprocess.run([BUILD, *words], check=True)
    return PROGRAM

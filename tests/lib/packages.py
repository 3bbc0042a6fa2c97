"""Debian's packages that the other programs come from: installed where they are missing and that is allowed."""

import functools
import os
import shutil
import subprocess


class Missing(Exception):
    """A program that isn't there and can't be installed."""


def is_there(what):
    """Whether a program, or a file by its path, is there."""
    return os.path.exists(what) if what.startswith("/") else shutil.which(what) is not None


# What doesn't come, or is locked, is tried again, but not without end.
OPTIONS = ["-q", "-y", "-o", "Acquire::Retries=3", "-o", "Acquire::http::Timeout=20", "-o", "DPkg::Lock::Timeout=60"]
SECONDS = 600


def leave():
    """What comes before `apt-get` where it may install something; None where it may not. Without root's rights it is
    asked for them in an automatic run alone."""
    if not is_there("apt-get"):
        return None
    if os.geteuid() == 0:
        return []
    return ["sudo", "-n"] if os.environ.get("CI") == "true" and is_there("sudo") else None


def apt(*words):
    """Runs `apt-get`, which asks nothing, and tells whether it did all."""
    command = [*leave(), "env", "DEBIAN_FRONTEND=noninteractive", "apt-get", *OPTIONS, *words]
    try:
        ended = subprocess.run(command, stdin=subprocess.DEVNULL, capture_output=True, timeout=SECONDS, check=False)
    except subprocess.TimeoutExpired:
        return False
    return ended.returncode == 0


@functools.cache
def refresh():
    """Renews the lists of packages, once."""
    return apt("update")


@functools.cache
def install(package):
    """Installs a package, if need be by new lists."""
    words = ["install", "--no-install-recommends", package]
    return apt(*words) or (refresh() and apt(*words))


def need(package, *provided):
    """What a package provides, programs or files, is there afterwards, or `Missing` is raised."""
    if all(is_there(what) for what in provided):
        return
    if leave() is not None:
        install(package)
    if not all(is_there(what) for what in provided):
        raise Missing(f"{package} is not installed, and can't be")

"""Boards in LIN, in a viewer of hand records."""

import os
import subprocess
import time

import packages

TENACE = "/usr/games/tenace"


def display():
    """A display of its own: the process of its server, and its name."""
    reading, writing = os.pipe()
    server = subprocess.Popen(
        ["Xvfb", "-displayfd", str(writing), "-screen", "0", "520x430x24"],
        pass_fds=[writing], stdout=subprocess.DEVNULL, stderr=subprocess.DEVNULL,
    )
    os.close(writing)
    with os.fdopen(reading) as names:
        return server, f":{names.readline().strip()}"


def opened(make, folder):
    """tenace opens sixteen boards of all dealers and vulnerabilities without a complaint; a picture of it."""
    packages.need("tenace", TENACE)
    packages.need("xvfb", "Xvfb")
    packages.need("imagemagick", "import", "identify")
    file, picture = folder / "boards.lin", folder / "tenace.png"
    file.write_bytes(make("--seed", "7", "--candidates", "16", "--format", "lin"))
    server, name = display()
    settings = {**os.environ, "DISPLAY": name, "HOME": str(folder), "LC_ALL": "C"}
    viewer = subprocess.Popen([TENACE, file], env=settings, stdout=subprocess.PIPE, stderr=subprocess.STDOUT, text=True)
    try:
        time.sleep(5)
        ended = viewer.poll()
        subprocess.run(["import", "-window", "root", picture], env=settings, check=True)
    finally:
        viewer.terminate()
        said, _ = viewer.communicate()
        server.terminate()
        server.wait()
    complaints = [line for line in said.splitlines() if "Gtk-WARNING" not in line and line.strip()]
    yield "tenace, sixteen boards", "; ".join(complaints) or (None if ended is None else "ended")
    colors = subprocess.run(["identify", "-format", "%k", picture], capture_output=True, text=True, check=True).stdout
    yield "picture, tenace", None if int(colors) > 10 else "empty"

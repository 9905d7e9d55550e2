#!/usr/bin/env python3
"""Runs the example of docs/SECURITY.md, a cluster of Dask's with TLS, on this machine.

    tests/secure_cluster.py PROGRAM

A campaign on that cluster has the results of one process. A client without the key gets none, nor one that doesn't encrypt. Where openssl
or Dask (Debian's `python3-distributed`) isn't there, a line says so, and nothing is judged. The last line is 'N passed, M failed'.
"""
import os
import re
import shutil
import signal
import socket
import subprocess
import sys
import tempfile
import time

sys.dont_write_bytecode = True
from checks import judging

SYSTEM_PYTHON = "/usr/bin/python3"
PATIENCE = 120

TEST = os.path.join(judging.EXAMPLES, "store-buffering.litmus")


def missing():
    """What isn't there to run the example; nothing where all is."""
    for word in ("openssl", "dask-scheduler", "dask-worker"):
        if shutil.which(word) is None:
            return word
    done = subprocess.run([SYSTEM_PYTHON, "-c", "import distributed, cloudpickle"], stderr=subprocess.DEVNULL)
    return "Dask for %s" % SYSTEM_PYTHON if done.returncode else None


def blocks():
    """The commands of the example: those that make its files, and those that use them."""
    part = judging.content(judging.TOP, "docs", "SECURITY.md").split("## A cluster")[1].split("\n## ")[0]
    return re.findall(r"^```sh\n(.*?)^```$", part, re.MULTILINE | re.DOTALL)


def free_port():
    with socket.socket() as free:
        free.bind(("127.0.0.1", 0))
        return str(free.getsockname()[1])


def campaign(program, room, name, environment, *words):
    """A campaign's answer, and its results."""
    command = [SYSTEM_PYTHON, os.path.join(judging.TOP, "tools", "campaign"), "outcomes", program, "--results", name, *words, TEST]
    done = subprocess.run(command, cwd=room, env=environment, stdin=subprocess.DEVNULL, stdout=subprocess.PIPE, stderr=subprocess.PIPE,
                          timeout=PATIENCE, check=False)
    path = os.path.join(room, name)
    return done, judging.content(path) if os.path.exists(path) else ""


def begin(line, room, environment, port):
    """Starts a line of the example, of the scheduler or of a worker, with its host and port here."""
    words = line.split("#")[0].replace("HOST", "127.0.0.1").replace("8786", port).split()
    return subprocess.Popen(words, cwd=room, env=environment, stdin=subprocess.DEVNULL, stdout=subprocess.DEVNULL, stderr=subprocess.DEVNULL,
                            start_new_session=True)


def wait_for(port):
    """Waits until somebody listens there."""
    end = time.monotonic() + PATIENCE
    while time.monotonic() < end:
        with socket.socket() as asks:
            if asks.connect_ex(("127.0.0.1", int(port))) == 0:
                return
        time.sleep(0.1)
    raise OSError("no scheduler listens")


def judged(program, room):
    """The rows, each with its faults."""
    making, using = blocks()
    subprocess.run(["sh", "-ec", making], cwd=room, check=True, stdout=subprocess.DEVNULL, stderr=subprocess.DEVNULL)
    lines, port = using.splitlines(), free_port()
    plain = {name: value for name, value in os.environ.items() if name != "DASK_CONFIG"}
    secure = dict(plain, DASK_CONFIG=os.path.join(room, "cluster.yaml"))
    _, wanted = campaign(program, room, "alone", plain)
    started = [begin(lines[1], room, secure, port)]
    try:
        wait_for(port)
        started.append(begin(lines[2], room, secure, port))
        done, found = campaign(program, room, "found", secure, "--scheduler", "tls://127.0.0.1:" + port)
        yield "with the key", [] if found == wanted and done.returncode == 0 else ["%r: %r" % (found, done.stderr[-300:])]
        for name, address in (("without the key", "tls://"), ("without encryption", "tcp://")):
            done, found = campaign(program, room, name, plain, "--scheduler", address + "127.0.0.1:" + port)
            yield name, ["status 0, %r" % found] if done.returncode == 0 or found else []
    finally:
        for process in started:
            os.killpg(process.pid, signal.SIGTERM)
            process.wait(PATIENCE)


def main():
    program = judging.asked(__doc__, with_part=False).program
    tally = judging.Tally()
    lacking = missing()
    if lacking:
        print("not tried: a cluster with TLS, which needs %s" % lacking)
        print("0 passed, 0 failed")
        return 0
    with tempfile.TemporaryDirectory() as room:
        tally.add("a cluster with TLS", list(judged(program, room)))
    return tally.end()


if __name__ == "__main__":
    sys.exit(main())

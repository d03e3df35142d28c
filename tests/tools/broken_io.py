#!/usr/bin/env python3
"""Runs a program whose input or output fails, and passes on its standard output and standard error.

    tests/tools/broken_io.py pipe PROGRAM FILE     FILE into it; its output is a non-blocking pipe that is not read until it has ended
    tests/tools/broken_io.py reset PROGRAM FILE    its input is a socket that is reset after the bytes of FILE
"""
import os
import socket
import subprocess
import sys


def pipe(program, path):
    out, into = os.pipe()
    os.set_blocking(into, False)
    with open(path, "rb") as data:
        said = subprocess.run([program], stdin=data, stdout=into, stderr=subprocess.PIPE, timeout=60).stderr
    os.close(into)
    with os.fdopen(out, "rb") as left:
        return left.read(), said


def reset(program, path):
    ours, theirs = socket.socketpair()
    theirs.send(b"unread")  # a side that closes with bytes unread resets the other
    with open(path, "rb") as data:
        ours.sendall(data.read())
    ours.close()
    run = subprocess.run([program], stdin=theirs, stdout=subprocess.PIPE, stderr=subprocess.PIPE, timeout=60)
    return run.stdout, run.stderr


written, said = {"pipe": pipe, "reset": reset}[sys.argv[1]](*sys.argv[2:])
sys.stdout.buffer.write(written)
sys.stderr.buffer.write(said)

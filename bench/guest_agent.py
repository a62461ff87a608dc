#!/usr/bin/env python3
"""Runs what it is told, in a machine that guests.py starts: a connection brings a command of the shell, and takes what
that prints, a zero byte and its status."""
import socket
import subprocess
import threading


def serve(connection):
    with connection, connection.makefile("rb") as stream:
        told = subprocess.run(
            ["sh", "-c", stream.read()], stdin=subprocess.DEVNULL, stdout=subprocess.PIPE, stderr=subprocess.STDOUT
        )
        connection.sendall(told.stdout + b"\0%d" % told.returncode)


listener = socket.create_server(("0.0.0.0", 7000))
while True:
    threading.Thread(target=serve, args=(listener.accept()[0],), daemon=True).start()

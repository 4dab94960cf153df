#!/usr/bin/env python3
"""Serves TCP connections by the program's command `pipe`, one after another: relay.py PORT [WORD..]

    tools/relay.py 9000 --root /srv/store --drives 6 --parity 2

listens on 127.0.0.1:9000, and for each connection starts `ostore --root /srv/store --drives 6 --parity 2 pipe` with the
connection as its input and output. The words before the command are handed on as they are. At first it runs the command
`status` with the same words, which prints what the drives have for formats, and ends where they are no command line.

One process at a time may have a root, so a connection waits until the one before it has ended. A connection on which
nothing comes for 60 seconds, or that takes nothing for as long, is cut. Without --root each connection has a store of its
own, in memory. With port 0 the system chooses one. OSTORE may name another program. The line 'relay: PORT' on standard output says that it listens.
"""

import os
import pathlib
import socket
import struct
import subprocess
import sys

PROGRAM = os.environ.get("OSTORE") or str(pathlib.Path(__file__).resolve().parent.parent / "ostore")
# How long a connection may be idle, in seconds.
IDLE = 60
# How long, in seconds, and how much of what a client still sends is read behind the last reply, so that the reply reaches it.
LINGER = 0.5
LINGER_BYTES = 1 << 20


def limit_waits(peer):
    """Has each read and write of the connection fail that takes too long, also those of another process."""
    for which in (socket.SO_RCVTIMEO, socket.SO_SNDTIMEO):
        peer.setsockopt(socket.SOL_SOCKET, which, struct.pack("ll", IDLE, 0))


def end(peer):
    """Ends a connection: a system that closes one with bytes unread may take the last reply back from the client."""
    try:
        peer.shutdown(socket.SHUT_WR)
        peer.settimeout(LINGER)
        left = LINGER_BYTES
        while left > 0 and (got := peer.recv(65536)):
            left -= len(got)
    except OSError:
        pass
    peer.close()


def main():
    if len(sys.argv) < 2 or not sys.argv[1].isdigit() or int(sys.argv[1]) > 65535:
        print(__doc__, file=sys.stderr)
        return 2
    words = [PROGRAM, *sys.argv[2:]]
    status = subprocess.run([*words, "status"], stdin=subprocess.DEVNULL, check=False).returncode
    if status:
        return status
    with socket.create_server(("127.0.0.1", int(sys.argv[1]))) as door:
        print(f"relay: {door.getsockname()[1]}", flush=True)
        while True:
            peer, _ = door.accept()
            peer.setsockopt(socket.IPPROTO_TCP, socket.TCP_NODELAY, 1)
            limit_waits(peer)
            subprocess.run([*words, "pipe"], stdin=peer, stdout=peer, check=False)
            end(peer)


try:
    sys.exit(main())
except KeyboardInterrupt:
    sys.exit(130)

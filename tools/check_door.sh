#!/usr/bin/env bash
# Shows how a door over TCP serves, on the loopback alone. It makes a temporary repository with copies of the crates and of a
# server that sends back what comes by 8 workers, each at a door of its own; proves and builds that, which takes some minutes
# the first time; and looks at it as clients do, with shorter times than the usual ones. Each check prints a line:
#   together  8 clients are served at once, with a descriptor each, and a ninth once one of them has ended
#   slow      one that sends a byte every 200 ms holds its own worker alone, beside 7 fast ones
#   idle      one that sends nothing is cut, before and after a request, and one that takes no reply too
#   pace      one that sends a byte now and then is cut, and one that gives 2,000 bytes a second is not
#   many      1,000 connections come and go, and no descriptor is lost
#   few       where descriptors are short the server rests, and goes on once there are some
#   reply     a long last reply reaches a client that has sent more than was read; without a time for the end it doesn't
set -euo pipefail

here="$(dirname "$(readlink -f "${BASH_SOURCE[0]}")")/../bench"
source "$here/common.sh"
source "$here/door_echo.sh"

make_echo_server
cat >"$work/clients.py" <<'END_OF_PROGRAM'
"""What clients of the server see: clients.py CHECK PORT PID"""
import os
import socket
import sys
import threading
import time

CHECK, PORT, PID = sys.argv[1], int(sys.argv[2]), sys.argv[3]
ANSWER = 1 << 20


def must(holds, what):
    if not holds:
        sys.exit(f"{CHECK}: {what}")


def connect(buffer=0):
    client = socket.socket()
    client.settimeout(20)
    if buffer:
        client.setsockopt(socket.SOL_SOCKET, socket.SO_RCVBUF, buffer)
    client.connect(("127.0.0.1", PORT))
    client.setsockopt(socket.IPPROTO_TCP, socket.TCP_NODELAY, 1)
    return client


def receive(client, length):
    got = b""
    while len(got) < length:
        piece = client.recv(65536)
        if not piece:
            break
        got += piece
    return got


def echo(client, data):
    client.sendall(data)
    must(receive(client, len(data)) == data, "other bytes came back")


def is_served(client, seconds):
    client.settimeout(seconds)
    try:
        return client.recv(1) != b""
    except TimeoutError:
        return False
    finally:
        client.settimeout(20)


def seconds_until_end(client, each=None):
    """How long the connection lasts, where `each` is sent every 100 ms."""
    start = time.monotonic()
    try:
        while time.monotonic() - start < 4:
            if each:
                client.sendall(each)
            client.settimeout(0.1)
            try:
                if not client.recv(65536):
                    break
            except TimeoutError:
                continue
            if each:
                time.sleep(0.1)
    except ConnectionError:
        pass
    return time.monotonic() - start


def descriptors():
    return len(os.listdir(f"/proc/{PID}/fd"))


def come_to(count):
    """Whether the server comes to have so many descriptors in 10 seconds."""
    for _ in range(100):
        if descriptors() == count:
            return True
        time.sleep(0.1)
    return False


def processor_seconds():
    fields = open(f"/proc/{PID}/stat").read().rsplit(")", 1)[1].split()
    return (int(fields[11]) + int(fields[12])) / os.sysconf("SC_CLK_TCK")


def together():
    before = descriptors()
    clients = [connect() for _ in range(8)]
    for turn in range(3):
        for i, client in enumerate(clients):
            echo(client, b"%d of client %d" % (turn, i))
    must(descriptors() == before + 8, "8 connections have not 8 descriptors")
    ninth = connect()
    ninth.sendall(b"a")
    must(not is_served(ninth, 0.5), "a ninth client is served by 8 workers")
    clients[3].close()
    must(is_served(ninth, 10), "a ninth client waits though a worker is free")
    return "8 clients at once, each with a descriptor; a ninth once one ended"


def slow():
    ends_at = time.monotonic() + 3
    counts, worst, single = [0] * 7, [0.0] * 7, connect()

    def fast(place):
        client = connect()
        while time.monotonic() < ends_at:
            start = time.monotonic()
            echo(client, b"x" * 64)
            worst[place] = max(worst[place], time.monotonic() - start)
            counts[place] += 1

    threads = [threading.Thread(target=fast, args=(place,)) for place in range(7)]
    for thread in threads:
        thread.start()
    sent = 0
    while time.monotonic() < ends_at:
        echo(single, b"s")
        sent += 1
        time.sleep(0.2)
    for thread in threads:
        thread.join()
    must(min(counts) >= 100, f"a fast client had {min(counts)} round trips alone")
    must(max(worst) < 1, f"a fast client waited {max(worst):.1f} s")
    return f"{sent} single bytes, beside them {min(counts)} to {max(counts)} round trips a client, the longest {max(worst) * 1000:.0f} ms"


def idle():
    before = descriptors()
    client = connect()
    first = seconds_until_end(client)
    served = connect()
    echo(served, b"some bytes")
    second = seconds_until_end(served)
    must(0.4 < first < 3 and 0.4 < second < 3, f"cut after {first:.1f} s, and after a request {second:.1f} s")
    deaf = connect()
    deaf.settimeout(4)
    start = time.monotonic()
    try:
        while time.monotonic() - start < 8:
            deaf.send(b"x" * 65536)
        must(False, "a client that takes no reply is not cut")
    except TimeoutError:
        must(False, "a client that takes no reply waits longer than 4 s")
    except ConnectionError:
        third = time.monotonic() - start
    must(come_to(before), "a connection that was cut has a descriptor")
    return f"cut after {first:.1f} s, after a request {second:.1f} s, and without taking a reply {third:.1f} s"


def pace():
    lasts = [0.0, 0.0]

    def watch(place, each):
        lasts[place] = seconds_until_end(connect(), each)

    threads = [threading.Thread(target=watch, args=each) for each in [(0, b"x"), (1, b"x" * 200)]]
    for thread in threads:
        thread.start()
    for thread in threads:
        thread.join()
    must(0.9 < lasts[0] < 3.5, f"a byte now and then lasts {lasts[0]:.1f} s")
    must(lasts[1] >= 4, f"2,000 bytes a second last {lasts[1]:.1f} s alone")
    return f"a byte now and then is cut after {lasts[0]:.1f} s, 2,000 bytes a second are not cut in 4 s"


def many():
    before = descriptors()

    def come_and_go():
        for i in range(125):
            client = connect()
            echo(client, b"%d" % i)
            client.close()

    threads = [threading.Thread(target=come_and_go) for _ in range(8)]
    for thread in threads:
        thread.start()
    for thread in threads:
        thread.join()
    must(come_to(before), f"{before} descriptors became {descriptors()}")
    return f"1,000 connections, {before} descriptors before and after"


def few():
    # The limit is on their numbers.
    room = 8 - sum(int(number) < 8 for number in os.listdir(f"/proc/{PID}/fd"))
    must(2 <= room < 8, f"there is room for {room} connections")
    clients = [connect() for _ in range(room + 2)]
    for client in clients:
        client.sendall(b"a")
    for client in clients[:room]:
        must(is_served(client, 10), "a client is not served though a descriptor is free")
    before = processor_seconds()
    must(not is_served(clients[room], 1), "a client is served without a descriptor")
    spent = processor_seconds() - before
    must(spent <= 0.2, f"{spent} s of processor time in a second of rest")
    for client in clients[:2]:
        client.close()
    for client in clients[room:]:
        must(is_served(client, 10), "a client waits though a descriptor is free")
    return f"{room} clients with a descriptor, {spent:.2f} s of processor time in a second without, then 2 more"


def reply():
    client = connect(4096)
    client.sendall(b"q")
    time.sleep(0.1)
    client.sendall(b"x" * 32768)
    got, end = 0, "its end"
    try:
        while piece := client.recv(4096):
            got += len(piece)
            time.sleep(0.0002)
    except ConnectionError:
        end = "a reset"
    print(f"reply: {got} of {ANSWER} bytes, then {end}")
    sys.exit(0 if (got, end) == (ANSWER, "its end") else 1)


print(f"{CHECK}: " + {"together": together, "slow": slow, "idle": idle, "pace": pace, "many": many, "few": few, "reply": reply}[CHECK]())
END_OF_PROGRAM

# Looks at a server by one check: look CHECK DESCRIPTORS IDLE WRITE SLOW LINGER
look() {
    start_server "$server" "$2" 8 "${@:3}"
    local status=0
    python3 "$work/clients.py" "$1" "$port" "$pid" || status=$?
    kill -0 "$pid" || fail 1 "the server has ended"
    stop_server
    return "$status"
}

look together 1024 20000 20000 60000 500
look slow 1024 20000 20000 60000 500
look idle 1024 500 500 60000 500
look pace 1024 1000 1000 1000 500
look many 1024 20000 20000 60000 500
look few 8 20000 20000 60000 500
look reply 1024 20000 20000 60000 500
if look reply 1024 20000 20000 60000 0; then
    fail 1 "a last reply is not lost without a time for the end: the check shows nothing"
fi
echo "a door over TCP serves as it is to"

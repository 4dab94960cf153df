#!/usr/bin/env bash
# Times echo round trips through a door over TCP beside a small C server that makes the same calls of the system, on the
# loopback alone, in one run. Both have 8 workers, and the client is one C program: so many threads, each with a connection of
# its own, send 64 bytes and wait for them, again and again for half a second. The servers take turns, five rounds each; a
# line has the round trips a second of all clients together, the best of the rounds, and the first server as a part of the
# second. It makes a temporary repository with copies of the crates and of the server, proves that and builds it, which takes
# some minutes the first time. With a number: that many rounds.
set -euo pipefail

here="$(dirname "$(readlink -f "${BASH_SOURCE[0]}")")"
source "$here/common.sh"
source "$here/door_echo.sh"
rounds="${1:-5}"
[[ "$rounds" =~ ^[1-9][0-9]?$ ]] || fail 2 "the number of rounds is 1 to 99"

cat >"$work/door.c" <<'END_OF_PROGRAM'
// An echo server by 8 threads, and clients of one: door server, or door PORT CLIENTS MILLISECONDS
#define _GNU_SOURCE
#include <arpa/inet.h>
#include <netinet/in.h>
#include <netinet/tcp.h>
#include <pthread.h>
#include <stdio.h>
#include <stdlib.h>
#include <string.h>
#include <sys/socket.h>
#include <time.h>
#include <unistd.h>

enum { WORKERS = 8, MOST_CLIENTS = 64, SIZE = 64 };

static int listener, millis;
static struct sockaddr_in address = {.sin_family = AF_INET};

static void must(int done) {
    if (!done) { perror("door"); exit(1); }
}

static long now(void) {
    struct timespec time;
    clock_gettime(CLOCK_MONOTONIC, &time);
    return time.tv_sec * 1000000000L + time.tv_nsec;
}

static void set_up(int socket) {
    int one = 1;
    struct timeval limit = {.tv_sec = 20};
    must(setsockopt(socket, IPPROTO_TCP, TCP_NODELAY, &one, sizeof one) == 0);
    must(setsockopt(socket, SOL_SOCKET, SO_RCVTIMEO, &limit, sizeof limit) == 0);
    must(setsockopt(socket, SOL_SOCKET, SO_SNDTIMEO, &limit, sizeof limit) == 0);
}

static void *serve(void *unused) {
    static _Thread_local char bytes[65536];
    for (;;) {
        int client = accept4(listener, NULL, NULL, SOCK_CLOEXEC);
        must(client >= 0);
        set_up(client);
        for (ssize_t count; (count = recv(client, bytes, sizeof bytes, 0)) > 0;)
            if (send(client, bytes, count, MSG_NOSIGNAL) != count) break;
        close(client);
    }
    return unused;
}

static int serve_all(void) {
    socklen_t length = sizeof address;
    address.sin_addr.s_addr = htonl(INADDR_LOOPBACK);
    must((listener = socket(AF_INET, SOCK_STREAM | SOCK_CLOEXEC, 0)) >= 0);
    must(bind(listener, (struct sockaddr *)&address, sizeof address) == 0 && listen(listener, 128) == 0);
    must(getsockname(listener, (struct sockaddr *)&address, &length) == 0);
    printf("%d\n", ntohs(address.sin_port));
    fflush(stdout);
    pthread_t threads[WORKERS];
    for (int i = 0; i < WORKERS; i++) must(pthread_create(&threads[i], NULL, serve, NULL) == 0);
    for (int i = 0; i < WORKERS; i++) pthread_join(threads[i], NULL);
    return 0;
}

static void *ask(void *trips) {
    char bytes[SIZE], back[SIZE];
    int server = socket(AF_INET, SOCK_STREAM | SOCK_CLOEXEC, 0);
    must(server >= 0 && connect(server, (struct sockaddr *)&address, sizeof address) == 0);
    set_up(server);
    memset(bytes, 'x', SIZE);
    for (long end = now() + millis * 1000000L; now() < end; ++*(long *)trips) {
        must(send(server, bytes, SIZE, MSG_NOSIGNAL) == SIZE && recv(server, back, SIZE, MSG_WAITALL) == SIZE);
        must(memcmp(bytes, back, SIZE) == 0);
    }
    close(server);
    return NULL;
}

int main(int count, char **words) {
    if (count == 2) return serve_all();
    must(count == 4);
    int clients = atoi(words[2]);
    long trips[MOST_CLIENTS] = {0}, all = 0, from;
    pthread_t threads[MOST_CLIENTS];
    address.sin_addr.s_addr = htonl(INADDR_LOOPBACK);
    address.sin_port = htons(atoi(words[1]));
    millis = atoi(words[3]);
    must(clients >= 1 && clients <= MOST_CLIENTS);
    from = now();
    for (int i = 0; i < clients; i++) must(pthread_create(&threads[i], NULL, ask, &trips[i]) == 0);
    for (int i = 0; i < clients; i++) { pthread_join(threads[i], NULL); all += trips[i]; }
    printf("%ld\n", (long)(all * 1e9 / (now() - from)));
}
END_OF_PROGRAM
cc -O2 -pthread -o "$work/door" "$work/door.c"

make_echo_server
start_server "$work/door" 1024 server
c_pid="$pid" c_port="$port"
trap 'kill "$c_pid" ${pid:+"$pid"}; rm -rf "$work"' EXIT
start_server "$server" 1024 8 20000 20000 60000 500
for ((round = 0; round < rounds; round++)); do
    for clients in 1 8; do
        echo "$clients door $("$work/door" "$port" "$clients" 500)"
        echo "$clients C $("$work/door" "$c_port" "$clients" 500)"
    done
done >"$work/trips"
awk '
    { key = $1 " " $2; if ($3 > best[key]) best[key] = $3 }
    END {
        split("1 8", counts)
        for (k = 1; k <= 2; k++) {
            ours = best[counts[k] " door"]; theirs = best[counts[k] " C"]
            printf "clients %d: TcpDoor %d round trips a second, C %d, part %.2f\n", counts[k], ours, theirs, ours / theirs
        }
    }' "$work/trips"

# The program that tools/check_door.sh and bench/door.sh run: a server over TcpDoor that sends back what comes, by so many
# workers. Both source this file after common.sh.

# Proves and builds the server, as "$server", and runs it once without a worker.
make_echo_server() {
    server="$work/crates/door_echo/out/door_echo"
    new_program door_echo io_base
    write_echo_server >"$work/crates/door_echo/src/main.rt"
    run_program door_echo -- 0 1000 1000 1000 1000
}

pid=""
trap '[[ "$pid" == "" ]] || kill "$pid"; rm -rf "$work"' EXIT

# Starts a server in the background, as "$pid", listening at "$port", with so many descriptors at most; it prints its port. The
# words of "$server" are WORKERS IDLE WRITE SLOW LINGER, the times in milliseconds: start_server PROGRAM DESCRIPTORS WORD..
start_server() {
    : >"$work/port"
    (ulimit -n "$2" && exec "$1" "${@:3}") >"$work/port" &
    pid=$!
    for ((i = 0; i < 100; i++)); do
        port="$(<"$work/port")"
        [[ "$port" == "" ]] || return 0
        sleep 0.05
    done
    fail 1 "the server does not listen"
}

stop_server() {
    kill "$pid"
    wait "$pid" 2>/dev/null || true
    pid=""
}

write_echo_server() {
    cat <<'END_OF_PROGRAM'
//! Sends back what comes over TCP connections, by so many workers.
#![tactic(auto)]

ghost use Rattle.std.specs.Prelude.{◌≡◌, true};

use io_base::{Door, Sink, Source, Spawner, TcpDoor, TcpLimits, Work};
use std::alloc::{AllocError, Global};
use std::env;
use std::net::{Net, TcpListener, TcpStream};
use std::process::ExitCode;
use std::rt;
use std::thread::Threads;
use std::time::Duration;

/// A connection whose first byte is this one is answered at length and ended, whatever else comes.
const QUIT: u8 = b'q';

/// The pieces of 4 KiB of that answer.
const ANSWER_PIECES: u64 = 256;

fn main(rt: HostRuntime) -> ExitCode {
    let Some(words) = numbers(&rt) else {
        let _ = eprintln!(rt; "door_echo: WORKERS IDLE WRITE SLOW LINGER");
        return ExitCode::FAILURE;
    };
    let limits = TcpLimits {
        idle: Duration::from_millis(words[1]),
        write: Duration::from_millis(words[2]),
        slow: Duration::from_millis(words[3]),
        linger: Duration::from_millis(words[4]),
    };
    match serve(&rt, rt.alloc(), limits, words[0]) {
        Some(()) => ExitCode::SUCCESS,
        None => ExitCode::FAILURE,
    }
}

/// The numbers of the command line.
fn numbers(rt: &HostRuntime) -> Option<[u64; 5]> {
    let mut numbers = [0u64; 5];
    let mut count = 0;
    for word in env::args(rt).ok()?.skip(1) {
        *numbers.get_mut(count)? = word.as_str().parse().ok()?;
        count += 1;
    }
    if count == 5 { Some(numbers) } else { None }
}

/// Serves until the door has failed for each worker.
fn serve<R>(rt: &R, alloc: Global, limits: TcpLimits, workers: u64) -> Option<()>
where
    R: Threads + Sync + Net<Listener = TcpListener, Stream = TcpStream> + rt::Clock + Print + Copy + Send,
{
    let door = TcpDoor::open(*rt, alloc, "127.0.0.1:0", limits);
    let port = door.local_addr()?.port();
    let echoes = echoes_at(alloc, &door, workers).ok()?;
    println!(rt; "{port}").ok()?;
    let ended = Spawner::Threads.run_all(rt, alloc, echoes);
    drop(ended);
    Some(())
}

/// So many works, each at a door of its own.
fn echoes_at<R: rt::Clock + Copy + Send>(
    alloc: Global,
    door: &TcpDoor<R>,
    workers: u64,
) -> Result<Vec<Echo<R>>, AllocError> {
    let mut echoes = Vec::new(alloc);
    for _ in 0..workers {
        echoes.push(Echo {
            door: door.again(),
            is_over: false,
        })?;
    }
    Ok(echoes)
}

/// Serves the connections of one door, one after another.
#[derive(Drop)]
struct Echo<R> {
    door: TcpDoor<R>,
    is_over: bool,
}

impl<R: rt::Clock + Copy + Send> Work for Echo<R> {
    ghost use Rattle.std.specs.Prelude.{◌≡◌, ℕ, true};

    ghost Kept = { ℕ };

    ghost kept = { λ _. 0 };

    ghost over = { λ e. e.is_over ≡ true };

    fn work(&mut self) {
        for _ in 0..u64::MAX {
            let Ok(Some((mut source, mut sink))) = self.door.next() else {
                break;
            };
            send_back(&mut source, &mut sink);
            self.door.back(source, sink);
        }
        self.is_over = true;
    }
}

/// Sends back all that comes until one end is over or fails.
fn send_back<S: Source, K: Sink>(source: &mut S, sink: &mut K) {
    let mut bytes = [0u8; 4096];
    for _ in 0..u64::MAX {
        match source.take(&mut bytes) {
            Ok(0) | Err(_) => return,
            Ok(_) if bytes[0] == QUIT => {
                answer(sink);
                return;
            }
            Ok(count) => {
                if sink.give(&bytes[..count]).is_err() {
                    return;
                }
            }
        }
    }
}

fn answer<K: Sink>(sink: &mut K) {
    let piece = [b'r'; 4096];
    for _ in 0..ANSWER_PIECES {
        if sink.give(&piece).is_err() {
            return;
        }
    }
}
END_OF_PROGRAM
}

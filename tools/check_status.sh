#!/usr/bin/env bash
# Brings about each exit status of the program that a script can, over drives in memory and over folders, and compares the line that the command
# `status` gives of fresh drives, of a store that was written, and of one whose drives are damaged, gone or another set's. `status` has to leave the
# files of a store as they are. Its last line is 'N passed, M failed'; it ends with 1 where a case failed. No command ends with 7 yet.
set -uo pipefail

source "$(dirname "$(readlink -f "${BASH_SOURCE[0]}")")/lib/run_program.sh"

# The line of the command `status`: line_of FORMATS TERM [PARITY]
line_of() {
    printf '{"drives":4,"formats":[%s],"parity":%s,"set":"00000000-0000-0000-0000-000000000000","term":%s}\\n' "$1" "${3:-2}" "$2"
}

fresh='"absent","absent","absent","absent"'
good='"good","good","good","good"'
bucket='PUT /pic HTTP/1.1\r\nHost: x\r\nContent-Length: 0\r\n\r\n'
short='PUT /pic/a HTTP/1.1\r\nHost: x\r\nContent-Length: 5\r\n\r\nhel'
made='HTTP/1.1 200 OK\r\nDate: -\r\nContent-Length: 0\r\nLocation: /pic\r\n\r\n'
words='<Code>BadRequest</Code><Message>The request head is malformed.</Message><Resource></Resource>'
document="<?xml version=\"1.0\" encoding=\"UTF-8\"?><Error>$words</Error>"
closing="HTTP/1.1 400 Bad Request\r\nDate: -\r\nConnection: close\r\nContent-Length: ${#document}\r\nContent-Type: application/xml\r\n\r\n$document"
usage="$(sed -n '/^    usage: ostore/,/^      --workers/s/^ \{0,4\}//p' "$top/docs/OPERATING.md")"'\nostore: usage\n'
store="$work/store"
mkdir "$store"

# 0 and 2: the words
check 'no input' 0 '' '' pipe </dev/null
check 'fresh drives in memory' 0 "$(line_of "$fresh" 0)" '' status </dev/null
check 'another parity' 0 "$(line_of "$fresh" 0 1)" '' --parity=1 status </dev/null
check 'no words' 2 '' "$usage" </dev/null
check 'another command' 2 '' "$usage" heal </dev/null
check 'a word too many' 2 '' "$usage" pipe now </dev/null
check 'an option twice' 2 '' "$usage" --drives 4 --drives 4 status </dev/null
check 'too many parity drives' 2 '' "$usage" --drives 4 --parity 3 status </dev/null
check 'a word that is not UTF-8' 2 '' "$usage" $'pipe\xff' </dev/null
check 'a word behind serve' 2 '' "$usage" serve now </dev/null
check 'too many workers' 2 '' "$usage" --workers 65 serve </dev/null

# 4, 8 and 9: the source, and a refusal that closes
check 'an input that fails' 4 '' 'ostore: read fault\n' pipe <"$work"
check 'an input that is cut in a head' 8 '' 'ostore: input cut\n' pipe < <(printf 'GET /pic')
check 'an input that is cut in a body' 8 "$made" 'ostore: input cut\n' pipe < <(printf '%b' "$bucket$short")
check 'a head of no request' 9 "$closing" 'ostore: closed\n' pipe < <(printf 'no request\r\n\r\n')

# 5: the sink
for command in pipe status; do
    printf '%b' "$bucket" | "$program" "$command" >/dev/full 2>"$work/said"
    status=$?
    holds "$command into an output that is full: status $status" test "$status $(unopened "$work/said")" == '5 ostore: write fault'
done

# An output that takes so many bytes: at each reply, and in the midst of a body. What fits has been given, and nothing behind it: takes BYTES
takes() {
    (trap '' XFSZ && cd / && prlimit --fsize="$1" "$program" pipe <"$work/request" >"$work/replies") 2>&1 | cat >"$work/said"
    status="${PIPESTATUS[0]}"
    holds "an output that takes $1 bytes: status $status: $(cat "$work/said")" test "$status $(unopened "$work/said")" == '5 ostore: write fault'
    holds "an output that takes $1 bytes has others" cmp -s <(without_moments <"$work/replies") <(head -c "$1" "$work/whole" | without_moments)
}

head -c 2097152 /dev/urandom >"$work/body"
{
    printf '%bPUT /pic/a HTTP/1.1\r\nHost: x\r\nContent-Length: 2097152\r\nExpect: 100-continue\r\n\r\n' "$bucket"
    cat "$work/body"
    printf 'GET /pic/a HTTP/1.1\r\nHost: x\r\n\r\n'
} >"$work/request"
run pipe <"$work/request"
cp "$work/replies" "$work/whole"
holds 'a body comes back' cmp -s <(tail -c 2097152 "$work/whole") "$work/body"
replies="$(LC_ALL=C grep -abo 'HTTP/1\.1 [12]' "$work/whole" | cut -d: -f1)"
holds "four replies: $replies" test "$(wc -w <<<"$replies")" == 4
for place in $replies $(($(stat -c %s "$work/whole") - 2097152)) $(($(stat -c %s "$work/whole") - 1000000)); do
    takes "$place"
done

# A call whose body is awaited isn't served where that can't be said, and a call is where its reply can't be given
full="$work/full"
mkdir "$full"
small='PUT /pic/a HTTP/1.1\r\nHost: x\r\nContent-Length: 5\r\n'
run --root "$full" pipe < <(printf '%b' "$bucket")
for request in "${small}Expect: 100-continue\r\n\r\nhello" "$small\r\nhello"; do
    printf '%b' "$request" | "$program" --root "$full" pipe >/dev/full 2>"$work/said"
    status=$?
    holds "an output that is full: status $status" test "$status $(unopened "$work/said")" == '5 ostore: write fault'
    run --root "$full" pipe < <(printf 'HEAD /pic/a HTTP/1.1\r\nHost: x\r\n\r\n')
    head -c 12 "$work/replies" >>"$work/found"
    echo >>"$work/found"
done
holds "whether the calls were served: $(cat "$work/found")" cmp -s "$work/found" <(printf 'HTTP/1.1 404\nHTTP/1.1 200\n')

# 6: want of memory in the midst of a connection. The limit is what the process has when it has answered once
mkfifo "$work/requests"
mkdir "$work/little"
rm "$work/replies"
(cd / && exec "$program" --root "$work/little" pipe <"$work/requests" >"$work/replies" 2>"$work/said") &
process=$!
exec 8>"$work/requests"
printf '%b' "$bucket" >&8
for _ in {1..600}; do
    [[ ! -s "$work/replies" ]] || break
    sleep 0.1
done
prlimit --pid "$process" --as="$(($(awk '/^VmSize/ { print $2 }' "/proc/$process/status") * 1024))"
{ tail -c +$((1 + $(printf '%b' "$bucket" | wc -c))) "$work/request" >&8; } 2>/dev/null
exec 8>&-
wait "$process"
status=$?
holds "want of memory: status $status: $(cat "$work/said")" test "$status $(unopened "$work/said")" == '6 ostore: out of memory'
holds 'other replies before it' cmp -s <(without_moments <"$work/replies") <(printf '%b' "${made}HTTP/1.1 100 Continue\r\n\r\n")

# 3 and the survey, over folders
check 'a root that is not there' 3 '' 'ostore: opening refused\n' --root "$work/none" pipe </dev/null
check 'its survey' 0 "$(line_of '"failed","failed","failed","failed"' 0)" '' --root "$work/none" status </dev/null
check 'fresh folders' 0 "$(line_of "$fresh" 0)" '' --root "$store" status </dev/null
check 'a bucket is stored' 0 "$made" '' --root "$store" pipe < <(printf '%b' "$bucket")
sums_of "$store" >"$work/before"
check 'a store that was written' 0 "$(line_of "$good" 1)" '' --root "$store" status </dev/null
check 'the same again' 0 "$(line_of "$good" 1)" '' --root "$store" status </dev/null
holds 'a survey changed a file' cmp -s "$work/before" <(sums_of "$store")
check 'another set' 3 '' 'ostore: opening refused\n' --root "$store" --set 67e55044-10b1-426f-9247-bb680e5fe0c8 pipe </dev/null
holds 'a refused set changed a file' cmp -s "$work/before" <(sums_of "$store")
check 'opened again' 0 '' '' --root "$store" pipe </dev/null
check 'its term' 0 "$(line_of "$good" 2)" '' --root "$store" status </dev/null

# A root that another process has locked
flock "$store" "$program" --root "$store" pipe </dev/null >"$work/replies" 2>"$work/errors"
status=$?
holds "a root that is locked: status $status" test "$status $(cat "$work/errors")" == '3 ostore: opening refused'
holds 'a root that is locked: a reply' test ! -s "$work/replies"
check 'the same root behind it' 0 "$(line_of "$good" 2)" '' --root "$store" status </dev/null

# Drives that fail, are damaged, and another's
cp -a "$store" "$work/few"
for drive in 2 3; do rm -r "$work/few/$drive/data" && : >"$work/few/$drive/data"; done
check 'drives that fail' 0 "$(line_of '"good","good","failed","failed"' 2)" '' --root "$work/few" status </dev/null
check 'too few drives' 3 '' 'ostore: opening refused\n' --root "$work/few" pipe </dev/null
holds 'no format on drive 0' flip_kind "$store/0/data" OFMT
check 'a damaged format' 0 "$(line_of '"damaged","good","good","good"' 2)" '' --root "$store" status </dev/null
files_of "$store/1/data" OFMT | xargs -0 -I {} cp {} "$work/format"
files_of "$store/2/data" OFMT | xargs -0 -I {} cp "$work/format" {}
check "another drive's format" 0 "$(line_of '"damaged","good","other","good"' 2)" '' --root "$store" status </dev/null
check 'drives in another order' 3 '' 'ostore: opening refused\n' --root "$store" pipe </dev/null

# 10: a reply is cut where too few drives have its second stripe
cut="$work/cut"
mkdir "$cut"
head -c 2097152 /dev/urandom >"$work/body"
run --root "$cut" pipe < <(printf '%bPUT /pic/a HTTP/1.1\r\nHost: x\r\nContent-Length: 2097152\r\n\r\n' "$bucket" && cat "$work/body")
for drive in 0 1 2; do
    find "$cut/$drive/data" -type f -size +1M -print0 | while IFS= read -r -d '' shard; do flip "$shard" 1000000; done
done
run --root "$cut" pipe < <(printf 'GET /pic/a HTTP/1.1\r\nHost: x\r\n\r\n')
holds "a reply that is cut: status $status" test "$status $(cat "$work/errors")" == '10 ostore: reply cut'
holds 'its first stripe' cmp -s <(tail -c 1048576 "$work/replies") <(head -c 1048576 "$work/body")

finish

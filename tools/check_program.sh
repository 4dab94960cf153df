#!/usr/bin/env bash
# Runs the built program as a user does, and compares its replies, its exit status and what it says on standard error. Each refusal that a
# client can bring about is asked for once, and one of drives; the others of drives stand in tools/check_kill.py. With the word `slow` a key gets
# its 10,000 versions too, which takes minutes. Its last line is 'N passed, M failed'; it ends with 1 where a case failed.
set -uo pipefail

source "$(dirname "$(readlink -f "${BASH_SOURCE[0]}")")/lib/run_program.sh"
ostore="$program"

# timeless FILE: its bytes with each moment that a header tells left out
timeless() {
    LC_ALL=C sed -E 's/^(Date|Last-Modified): [^\r]*\r$/\1\r/' "$1"
}

# check NAME STATUS REPLIES ERRORS WORD..: standard input is the request. What `pipe` says of its opening is looked at by `says`
check() {
    local name="$1" wanted="$2" replies="$3" errors="$4"
    shift 4
    run "$@"
    [[ "$*" == *pipe ]] || cp "$work/said" "$work/errors"
    if [[ $status != "$wanted" ]]; then
        fails "$name: status $status, wanted $wanted"
    elif ! cmp -s <(timeless "$work/replies") <(printf '%b' "$replies"); then
        fails "$name: other replies: $(timeless "$work/replies" | head -c 600)"
    elif ! cmp -s "$work/errors" <(printf '%b' "$errors"); then
        fails "$name: other words on standard error: $(cat "$work/errors")"
    else
        passed=$((passed + 1))
    fi
}

# says NAME WORDS: the program of the last check said these words on standard error, those of its opening too
says() {
    if cmp -s "$work/said" <(printf '%b' "$2"); then
        passed=$((passed + 1))
    else
        fails "$1: it said: $(cat "$work/said")"
    fi
}

# refuses STATUS CODE MESSAGE: the last reply to standard input, in memory, is this refusal, and closes where it has to; it isn't said on standard error
refuses() {
    local status="$1" code="$2" message="$3" got wanted=0
    "$ostore" pipe >"$work/replies" 2>"$work/errors"
    got=$?
    case "$code" in BadRequest | RequestHeaderTooLong | MissingContentLength | EntityTooLarge) wanted=9 ;; esac
    [[ "$message" != 'Chunked bodies are not served.' ]] || wanted=9
    tac "$work/replies" | LC_ALL=C awk '{ print } /^HTTP\/1\.1 / { exit }' | tac >"$work/last"
    if [[ $got != "$wanted" ]]; then
        fails "$code: status $got, wanted $wanted"
    elif [[ "$(head -c 13 "$work/last")" != "HTTP/1.1 $status " ]]; then
        fails "$code: another status: $(head -1 "$work/last")"
    elif ! grep -aqF "<Code>$code</Code><Message>$message</Message>" "$work/last"; then
        fails "$code: another document: $(tail -1 "$work/last")"
    elif [[ $wanted == 9 ]] && ! grep -aq $'^Connection: close\r$' "$work/last"; then
        fails "$code: it doesn't say that it closes"
    elif grep -q "$code" "$work/errors"; then
        fails "$code: it is said on standard error: $(cat "$work/errors")"
    else
        passed=$((passed + 1))
    fi
}

ask() { printf '%b' "$*"; }

# refusal STATUS CODE MESSAGE RESOURCE HEADERS: the reply of a refusal
refusal() {
    local document="<?xml version=\"1.0\" encoding=\"UTF-8\"?><Error><Code>$2</Code><Message>$3</Message><Resource>$4</Resource></Error>"
    printf '%s' "HTTP/1.1 $1\\r\\nDate\\r\\nContent-Length: ${#document}\\r\\nContent-Type: application/xml\\r\\n$5\\r\\n$document"
}

tag='ETag: "5d41402abc4b2a76b9719d911017c592"\r\n'
kind='Content-Type: binary/octet-stream\r\n'
first='x-amz-version-id: 00000000-0001-801c-8000-000000000001\r\n'
marker_id='00000000-0001-801c-8000-000000000003'
marker="x-amz-delete-marker: true\r\nx-amz-version-id: $marker_id\r\n"
made='HTTP/1.1 200 OK\r\nDate\r\nContent-Length: 0\r\nLocation: /pic\r\n\r\n'
done='HTTP/1.1 200 OK\r\nDate\r\nContent-Length: 0\r\n\r\n'
stored="HTTP/1.1 200 OK\r\nDate\r\nContent-Length: 0\r\n$tag\r\n"
found="HTTP/1.1 200 OK\r\nDate\r\nContent-Length: 5\r\n${kind}Last-Modified\r\n${tag}Accept-Ranges: bytes\r\n\r\nhello"
part="HTTP/1.1 206 Partial Content\r\nDate\r\nContent-Length: 3\r\n${kind}Content-Range: bytes 1-3/5\r\nLast-Modified\r\n${tag}Accept-Ranges: bytes\r\n\r\nell"
headed="HTTP/1.1 200 OK\r\nDate\r\nContent-Length: 5\r\n${kind}Last-Modified\r\n${tag}Accept-Ranges: bytes\r\n\r\n"
named="HTTP/1.1 200 OK\r\nDate\r\nContent-Length: 0\r\n$tag$first\r\n"
gone='HTTP/1.1 204 No Content\r\nDate\r\n\r\n'
headless='HTTP/1.1 404 Not Found\r\nDate\r\n\r\n'
hidden="HTTP/1.1 204 No Content\r\nDate\r\n$marker\r\n"
make='PUT /pic HTTP/1.1\r\n\r\n'
document='<VersioningConfiguration><Status>Enabled</Status></VersioningConfiguration>'
enable="PUT /pic?versioning HTTP/1.1\r\nContent-Length: ${#document}\r\n\r\n$document"
put='PUT /pic/a HTTP/1.1\r\nContent-Length: 5\r\n\r\nhello'
get='GET /pic/a HTTP/1.1\r\n\r\n'
range='GET /pic/a HTTP/1.1\r\nRange: bytes=1-3\r\n\r\n'
head='HEAD /pic/a HTTP/1.1\r\n\r\n'
delete='DELETE /pic/a HTTP/1.1\r\n\r\n'
unknown="$(refusal '404 Not Found' NoSuchKey 'The specified key does not exist.' /pic/a '')"

# A version of a key, an empty body, and a body with its MD5 or another's.
version="${found/\\r\\n\\r\\nhello/\\r\\n$first\\r\\nhello}"
marked="$(refusal '404 Not Found' NoSuchKey 'The specified key does not exist.' /pic/a "$marker")"
is_marker="$(refusal '405 Method Not Allowed' MethodNotAllowed 'The specified version is a delete marker.' /pic/a \
    "Allow: DELETE\\r\\nLast-Modified\\r\\n$marker")"
at_marker="/pic/a?versionId=$marker_id HTTP/1.1\r\n\r\n"
no_bytes="${stored/5d41402abc4b2a76b9719d911017c592/d41d8cd98f00b204e9800998ecf8427e}"
empty="${found/Content-Length: 5/Content-Length: 0}"
empty="${empty/5d41402abc4b2a76b9719d911017c592/d41d8cd98f00b204e9800998ecf8427e}"
empty="${empty%hello}"
no_range="$(refusal '416 Range Not Satisfiable' InvalidRange 'The range is not satisfiable.' /pic/a 'Content-Range: bytes */0\r\n')"
of_hello='Content-MD5: XUFAKrxLKna5cZ2REBfFkg==\r\n'
differs="$(refusal '400 Bad Request' BadDigest 'The Content-MD5 differs from the body.' /pic/a '')"
opened() { echo "ostore: opened set 00000000-0000-0000-0000-000000000000, term $1, 4 drives, parity 2\n"; }
usage="$(sed -n '/^    usage: ostore/,/^      --workers/s/^ \{0,4\}//p' "$top/docs/OPERATING.md")"'\nostore: usage\n'
no_bucket="$(refusal '404 Not Found' NoSuchBucket 'The specified bucket does not exist.' /none/a '')"

"$ostore" pipe </dev/null 2>"$work/said" || {
    fails "the program does not run: $(cat "$work/said")"
    echo "$passed passed, $failed failed"
    exit 1
}

check 'a body is stored and found' 0 "$made$stored$found" '' pipe < <(ask "$make$put$get")
check 'a part of it, and its head' 0 "$made$stored$part$headed" '' pipe < <(ask "$make$put$range$head")
check 'it is deleted' 0 "$made$stored$gone" '' pipe < <(ask "$make$put$delete")
check 'a marker hides a version' 0 "$made$done$named$hidden" '' pipe < <(ask "$make$enable$put$delete")
check 'a version is stored and found' 0 "$made$done$named$version" '' pipe < <(ask "$make$enable$put$get")
check 'a marker is found, and removed' 0 "$made$done$named$hidden$marked$is_marker$hidden$version" '' \
    pipe < <(ask "$make$enable$put$delete${get}GET ${at_marker}DELETE $at_marker$get")
check 'an empty body' 0 "$made$no_bytes$empty$no_range" '' \
    pipe < <(ask "${make}PUT /pic/a HTTP/1.1\r\nContent-Length: 0\r\n\r\n${get}GET /pic/a HTTP/1.1\r\nRange: bytes=0-0\r\n\r\n")
check 'a body with its MD5, and one with another' 0 "$made$stored$differs$found" '' \
    pipe < <(ask "$make${put/Content/${of_hello}Content}PUT /pic/a HTTP/1.1\r\n${of_hello}Content-Length: 5\r\n\r\njello$get")
check 'a body without its bucket' 0 "$no_bucket$made" '' pipe < <(ask "PUT /none/a HTTP/1.1\r\nContent-Length: 5\r\n\r\nhello$make")
check 'a body that is cut without its bucket' 8 '' 'ostore: input cut\n' pipe < <(ask 'PUT /none/a HTTP/1.1\r\nContent-Length: 9\r\n\r\nhello')
check 'a body that is replaced' 0 "$made$stored$no_bytes$empty" '' pipe < <(ask "$make${put}PUT /pic/a HTTP/1.1\r\nContent-Length: 0\r\n\r\n$get")
check 'a body that was deleted' 0 "$made$stored$gone$unknown" '' pipe < <(ask "$make$put$delete$get")
check 'a head and a deletion of no key' 0 "$made$headless$gone" '' pipe < <(ask "$make$head$delete")
check 'a head and a deletion without a bucket' 0 "$headless$no_bucket" '' pipe < <(ask 'HEAD /none/a HTTP/1.1\r\n\r\nDELETE /none/a HTTP/1.1\r\n\r\n')
check 'six drives' 0 "$made$stored$found" '' --drives 6 --parity=2 pipe < <(ask "$make$put$get")
check 'no input' 0 '' '' pipe </dev/null
check 'the client closes' 0 "${made/Date/Date\\r\\nConnection: close}" '' pipe < <(ask 'PUT /pic HTTP/1.1\r\nConnection: close\r\n\r\n')
# Connections whose bytes come at once: with a body that is awaited, and what comes behind it; with one that ends early; with a token that closes, behind which
# nothing is served; and with a refused call whose body is passed over.
awaited='PUT /pic/a HTTP/1.1\r\nContent-Length: 5\r\nExpect: 100-Continue\r\n\r\n'
goes_on='HTTP/1.1 100 Continue\r\n\r\n'
closing='DELETE /pic/a HTTP/1.1\r\nConnection: keep-alive , Close\r\n\r\n'
unserved="$(refusal '501 Not Implemented' NotImplemented 'This call is not served.' /pic/a '')"
check 'two requests at once' 0 "$made$gone" '' pipe < <(ask "$make$delete")
check 'a body that is awaited' 0 "$made$goes_on$stored$found" '' pipe < <(ask "$make${awaited}hello$get")
check 'an awaited body that is cut' 8 "$made$goes_on" 'ostore: input cut\n' pipe < <(ask "$make${awaited}hel")
check 'a token that closes' 0 "$made${gone/Date/Date\\r\\nConnection: close}" '' pipe < <(ask "$make$closing$get")
check 'a refused call with a body' 0 "$made$unserved$gone" '' pipe < <(ask "${make}PUT /pic/a?acl HTTP/1.1\r\nContent-Length: 3\r\n\r\nabc$delete")

check 'no words' 2 '' "$usage" </dev/null
in_memory='ostore: no --root: the store is in memory, and ends with this process\n'
check 'an address that is none' 4 '' "${in_memory}ostore: can't listen on nowhere\nostore: read fault\n" --listen nowhere serve </dev/null
check 'a word too many' 2 '' "$usage" pipe pipe </dev/null
check 'an option twice' 2 '' "$usage" --drives 4 --drives 4 pipe </dev/null
check 'too many drives' 2 '' "$usage" --drives 17 pipe </dev/null
check 'too much parity' 2 '' "$usage" --drives 5 --parity 3 pipe </dev/null
check 'a bare dash' 2 '' "$usage" --root - pipe </dev/null
check 'a word that is not UTF-8' 2 '' "$usage" $'pipe\xff' </dev/null
check 'an input that fails' 4 '' 'ostore: read fault\n' pipe <"$work"
check 'an input that is cut' 8 '' 'ostore: input cut\n' pipe < <(ask 'GET /pic')
check 'a body that is cut' 8 "$made" 'ostore: input cut\n' pipe < <(ask "${make}PUT /pic/a HTTP/1.1\r\nContent-Length: 9\r\n\r\nhello")

(ask "$make" | "$ostore" pipe >/dev/full) 2>"$work/errors"
if [[ $? == 5 && "$(unopened "$work/errors")" == 'ostore: write fault' ]]; then
    passed=$((passed + 1))
else
    fails 'an output that is full'
fi

# Over folders what one process stored the next one finds, and status tells how often the set was opened.
mkdir "$work/store"
root=(--root "$work/store")
line() { printf '{"drives":4,"formats":[%s],"parity":2,"set":"00000000-0000-0000-0000-000000000000","term":%d}\n' "$1" "$2"; }
fresh='"absent","absent","absent","absent"'
good='"good","good","good","good"'
check 'fresh drives' 0 "$(line "$fresh" 0)\n" '' "${root[@]}" status </dev/null
check 'a body is stored on folders' 0 "$made$stored" '' "${root[@]}" pipe < <(ask "$make$put")
says 'an opening' "ostore: the drives were new, and are a new store now\n$(opened 1)"
check 'the next process finds it' 0 "$found" '' "${root[@]}" pipe < <(ask "$get")
check 'drives that were opened twice' 0 "$(line "$good" 2)\n" '' "${root[@]}" status </dev/null
mv "$work/store/1" "$work/away"
check 'it is found without a drive' 0 "$found" '' "${root[@]}" pipe < <(ask "$get")
says 'an opening without a drive' "$(opened 3)ostore: drive 1 is out\n"
check 'a drive that is away' 0 "$(line '"good","absent","good","good"' 3)\n" '' "${root[@]}" status </dev/null
rm -rf "$work/store/1"
mv "$work/away" "$work/store/1"
check 'it is back' 0 "$found$stored" '' "${root[@]}" pipe < <(ask "$get$put")

# A refusal for which the drives are the cause is one line on standard error, also where the key has a line break, and one of a call that isn't served is none.
cp -a "$work/store" "$work/hurt"
check 'a key with a line break' 0 "$stored" '' --root "$work/hurt" pipe < <(ask "${put/a HTTP/a%0Ab HTTP}")
rm -r "$work/hurt"/[012]/data/732f*
lost="$(refusal '503 Service Unavailable' SlowDown 'Shard quorum: lllg' /pic/a%0Ab '')"
check 'too few drives have it, and a call that is not served' 0 "$lost$unserved" 'ostore: 503 SlowDown for GetObject: Shard quorum: lllg\n' \
    --root "$work/hurt" pipe < <(ask "${get/a HTTP/a%0Ab HTTP}PUT /pic/a?acl HTTP/1.1\r\n\r\n")

# One byte of each of two shards is hurt, then one of a third. The same of the lanes of the key, of which two are enough to read it.
cp -a "$work/store" "$work/torn"
hurt() { printf '\377' | dd of="$1" bs=1 count=1 conv=notrunc status=none; }
for drive in 0 1; do hurt "$work/torn/$drive"/data/732f* && hurt "$work/torn/$drive"/28/*; done
check 'it is found though two shards and two lanes are hurt' 0 "$found" '' --root "$work/torn" pipe < <(ask "$get")
cp -a "$work/store" "$work/worse"
for drive in 0 1 2; do hurt "$work/worse/$drive"/data/732f*; done
check 'a third shard is hurt' 0 "$(refusal '503 Service Unavailable' SlowDown 'Shard quorum: dddg' /pic/a '')" \
    'ostore: 503 SlowDown for GetObject: Shard quorum: dddg\n' --root "$work/worse" pipe < <(ask "$get")
for drive in 0 1 2; do hurt "$work/worse/$drive"/28/*; done
check 'a third lane is hurt' 0 "$(refusal '503 Service Unavailable' SlowDown 'Read quorum: dddg' /pic/a '')" \
    'ostore: 503 SlowDown for GetObject: Read quorum: dddg\n' --root "$work/worse" pipe < <(ask "$get")
rm -r "$work/worse"/[012]
check 'three drives are away' 3 '' 'ostore: opening refused\n' --root "$work/worse" pipe </dev/null

# A body that replaces another one leaves its own files alone, a shard and a manifest on each drive. One that is deleted, given up or cut leaves none.
keeps() {
    local count
    count="$(find "$work/files" -path '*/data/*' -type f ! -name 666f726d6174 | wc -l)"
    if [[ $count == "$2" ]]; then passed=$((passed + 1)); else fails "$1: $count files of data are left"; fi
}
mkdir "$work/files"
files=(--root "$work/files")
check 'a body with another MD5 is given up' 0 "$made$differs" '' "${files[@]}" \
    pipe < <(ask "${make}PUT /pic/a HTTP/1.1\r\n${of_hello}Content-Length: 5\r\n\r\njello")
keeps 'a body that is given up' 0
check 'a body is cut on folders' 8 '' 'ostore: input cut\n' "${files[@]}" pipe < <(ask "${put%hello}hell")
keeps 'a body that is cut on folders' 0
check 'a body is replaced on folders' 0 "$stored$no_bytes" '' "${files[@]}" \
    pipe < <(ask "${put}PUT /pic/a HTTP/1.1\r\nContent-Length: 0\r\n\r\n")
keeps 'a body that is replaced on folders' 8
check 'a body is deleted on folders' 0 "$gone" '' "${files[@]}" pipe < <(ask "$delete")
keeps 'a body that is deleted on folders' 0

check 'another set' 3 '' 'ostore: opening refused\n' "${root[@]}" --set 00000000-0000-0000-0000-000000000001 pipe </dev/null
check 'other numbers' 3 '' 'ostore: opening refused\n' "${root[@]}" --parity 1 pipe </dev/null
check 'a root that is not there' 3 '' 'ostore: opening refused\n' --root "$work/none" pipe </dev/null
flock "$work/store" "$ostore" "${root[@]}" pipe </dev/null 2>"$work/errors"
if [[ $? == 3 && "$(cat "$work/errors")" == 'ostore: opening refused' ]]; then
    passed=$((passed + 1))
else
    fails 'a root that is locked'
fi

# The MD5 of `x`.
md5='Content-MD5: ndTkYSaMgDT1yFZOFVxnpg==\r\n'
long="$(printf '%1025s' '' | tr ' ' k)"
many="$(printf 'x: y\\r\\n%.0s' {1..65})"
other='00000000-0001-801c-8000-00000000000f'
refuses 400 BadRequest 'The request head is malformed.' < <(ask 'GET\r\n\r\n')
refuses 400 RequestHeaderTooLong 'The request head is too long.' < <(ask "GET / HTTP/1.1\r\n$many\r\n")
refuses 411 MissingContentLength 'The Content-Length header is missing.' < <(ask 'PUT /pic/a HTTP/1.1\r\n\r\n')
refuses 501 NotImplemented 'Chunked bodies are not served.' < <(ask 'PUT /pic/a HTTP/1.1\r\nTransfer-Encoding: chunked\r\n\r\n')
refuses 400 InvalidURI 'The target is not a path in UTF-8.' < <(ask 'GET /%ff HTTP/1.1\r\n\r\n')
refuses 501 NotImplemented 'This call is not served.' < <(ask 'GET /pic?acl HTTP/1.1\r\n\r\n')
refuses 501 NotImplemented 'This call is not served.' < <(ask "${make}GET /pic?prefix=a HTTP/1.1\r\n\r\n")
refuses 501 NotImplemented 'This call is not served.' < <(ask "${make}POST /pic/a?uploads HTTP/1.1\r\n\r\n")
refuses 400 InvalidBucketName 'The bucket name is not valid.' < <(ask 'PUT /Pic HTTP/1.1\r\n\r\n')
refuses 400 KeyTooLongError 'The key is longer than 1024 bytes.' < <(ask "GET /pic/$long HTTP/1.1\r\n\r\n")
refuses 400 InvalidArgument 'Invalid value of versionId.' < <(ask 'GET /pic/a?versionId=1 HTTP/1.1\r\n\r\n')
refuses 400 InvalidDigest 'The Content-MD5 is not valid.' < <(ask "${make}PUT /pic/a HTTP/1.1\r\nContent-MD5: x\r\nContent-Length: 5\r\n\r\nhello")
refuses 400 EntityTooLarge 'The body is longer than the limit.' < <(ask 'PUT /pic/a HTTP/1.1\r\nContent-Length: 5368709121\r\n\r\n')
refuses 400 EntityTooLarge 'The body is longer than the limit.' < <(ask 'PUT /pic?versioning HTTP/1.1\r\nContent-Length: 2097153\r\n\r\n')
refuses 400 MalformedXML 'The document is not well formed at byte 0.' < <(ask "${make}PUT /pic?versioning HTTP/1.1\r\nContent-Length: 1\r\n\r\nx")
refuses 404 NoSuchBucket 'The specified bucket does not exist.' < <(ask "$put")
refuses 409 BucketAlreadyOwnedByYou 'The bucket is there already.' < <(ask "$make$make")
refuses 400 BadDigest 'The Content-MD5 differs from the body.' < <(ask "${make}PUT /pic/a HTTP/1.1\r\n${md5}Content-Length: 5\r\n\r\nhello")
refuses 404 NoSuchKey 'The specified key does not exist.' < <(ask "$make$get")
refuses 404 NoSuchVersion 'The specified version does not exist.' < <(ask "$make${put}GET /pic/a?versionId=$other HTTP/1.1\r\n\r\n")
refuses 405 MethodNotAllowed 'The specified version is a delete marker.' \
    < <(ask "$make$enable$put${delete}GET /pic/a?versionId=$marker_id HTTP/1.1\r\n\r\n")
refuses 412 PreconditionFailed "The precondition doesn't hold." < <(ask "$make${put}GET /pic/a HTTP/1.1\r\nIf-Match: \"x\"\r\n\r\n")
refuses 416 InvalidRange 'The range is not satisfiable.' < <(ask "$make${put}GET /pic/a HTTP/1.1\r\nRange: bytes=5-\r\n\r\n")
if [[ "${1:-}" == slow ]]; then
    refuses 400 TooManyVersions 'The key has 10000 versions.' < <(ask "$make$enable"; for _ in {1..10001}; do ask "$delete"; done)
fi

# An upload as curl sends it, and a part of it.
python3 -c 'import sys; sys.stdout.buffer.write(bytes(i % 251 for i in range(1048577)))' >"$work/body"
{
    ask "${make}PUT /pic/big HTTP/1.1\r\nHost: localhost:9000\r\nUser-Agent: curl/7.88.1\r\nAccept: */*\r\nContent-Length: 1048577\r\n"
    ask 'Expect: 100-continue\r\n\r\n'
    cat "$work/body"
    ask 'GET /pic/big HTTP/1.1\r\nRange: bytes=1048575-1048576\r\n\r\n'
} >"$work/request"
sum="$(md5sum <"$work/body" | cut -d' ' -f1)"
big="${stored/5d41402abc4b2a76b9719d911017c592/$sum}"
slice="${part/Content-Length: 3/Content-Length: 2}"
slice="${slice/1-3\/5/1048575-1048576\/1048577}"
slice="${slice/5d41402abc4b2a76b9719d911017c592/$sum}"
check 'an upload as curl sends it' 0 "${made}HTTP/1.1 100 Continue\r\n\r\n$big${slice%ell}\x94\x95" '' pipe <"$work/request"

# A large body comes back byte for byte.
head -c 16777216 /dev/urandom >"$work/body"
{ ask "${make}PUT /pic/a HTTP/1.1\r\nContent-Length: 16777216\r\n\r\n"; cat "$work/body"; ask "$get"; } | "$ostore" pipe >"$work/replies"
status=$?
tail -c 16777216 "$work/replies" >"$work/back"
if [[ $status == 0 ]] && cmp -s "$work/body" "$work/back"; then
    passed=$((passed + 1))
else
    fails "a body of 16 MiB: status $status, or another body"
fi

# curl through the relay, where it is installed: a bucket, an upload, a part of it, a key that isn't there, and a deletion.
curled() {
    local at
    at="http://127.0.0.1:$(sed -n 's/^relay: //p' "$work/relay")"
    curl -sf -X PUT "$at/pic" && curl -sf -T "$work/body" "$at/pic/big" \
        && curl -sf "$at/pic/big" | cmp -s - "$work/body" \
        && curl -sf -r 5-1048580 "$at/pic/big" | cmp -s - <(tail -c +6 "$work/body" | head -c 1048576) \
        && [[ "$(curl -so /dev/null -w '%{http_code}' "$at/pic/none")" == 404 ]] \
        && curl -sf -X DELETE "$at/pic/big" && [[ "$(curl -sIo /dev/null -w '%{http_code}' "$at/pic/big")" == 404 ]]
}

if command -v curl >/dev/null; then
    mkdir "$work/curled"
    : >"$work/relay"
    OSTORE="$ostore" python3 "$top/tools/relay.py" 0 --root "$work/curled" >"$work/relay" &
    relay=$!
    until grep -q '^relay: ' "$work/relay" || ! kill -0 "$relay" 2>/dev/null; do sleep 0.1; done
    if curled; then passed=$((passed + 1)); else fails 'curl through the relay'; fi
    kill "$relay" 2>/dev/null
else
    echo 'check_program: curl is not installed, so the relay was left out'
fi

finish

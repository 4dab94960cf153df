#!/usr/bin/env bash
# Has common S3 clients work over a served folder: curl, and of the AWS CLI, boto3, rclone, s3cmd and s3fs those that are installed. What is left out is
# said on standard error; without curl it is all of them. Each client makes a bucket, sets versioning, puts, gets whole and by a range, heads and deletes a
# key, meets the delete marker and a range behind the end, gets the old version by its id, and puts and gets 100 MB, as far as its commands go. Those that
# list have a tree of small files put, listed, brought up to date, compared, got and removed, and those that get large files in parts do so under
# `If-Match`. The settings that a client needs while multipart uploads, chunked bodies and ListObjects version 1 aren't served stand beside its calls. AWS
# and PYTHON may name another `aws` and another `python3` that has boto3. With a number the large body has as many bytes: tools/check_clients.sh [BYTES]
# TMPDIR says on which disk the folders are. Without it they are in memory, where the system has a place for that, since a disk may take long for a large
# file. A call that takes longer than five minutes has failed.
# Its last line is 'N passed, M failed'; it ends with 1 where a case failed.
set -uo pipefail

if [[ -z "${TMPDIR:-}" && -d /dev/shm && -w /dev/shm ]]; then
    export TMPDIR=/dev/shm
fi
source "$(dirname "$(readlink -f "${BASH_SOURCE[0]}")")/lib/run_program.sh"

longest=300
aws="${AWS:-aws}"
python="${PYTHON:-python3}"
# The clients have the settings of this check alone.
unset "${!AWS_@}" "${!RCLONE_@}"
export no_proxy=127.0.0.1 NO_PROXY=127.0.0.1
export AWS_CONFIG_FILE="$work/aws" AWS_SHARED_CREDENTIALS_FILE="$work/none" AWS_EC2_METADATA_DISABLED=true AWS_PAGER=
export AWS_ACCESS_KEY_ID=any AWS_SECRET_ACCESS_KEY=any AWS_DEFAULT_REGION=us-east-1 AWS_REQUEST_CHECKSUM_CALCULATION=when_required
printf '[default]\ns3 =\n  addressing_style = path\n  multipart_threshold = 5GB\n' >"$AWS_CONFIG_FILE"
# Without the threshold files of 8 MiB and more are got in parts.
printf '[default]\ns3 =\n  addressing_style = path\n' >"$work/in_parts"
mkdir "$work/store"
"$program" --root "$work/store" --listen 127.0.0.1:0 serve 2>"$work/said" </dev/null &
server=$!
# Ends what s3fs mounted, if it did.
unmount() {
    ! mountpoint -q "$work/mounted" 2>/dev/null || fusermount -u "$work/mounted" 2>/dev/null || umount -l "$work/mounted"
}

trap 'unmount; kill "$server" 2>/dev/null; rm -rf "$work"' EXIT
until grep -q '^ostore: listening on ' "$work/said" || ! kill -0 "$server" 2>/dev/null; do sleep 0.1; done
host="$(sed -n 's/^ostore: listening on \([^, ]*\).*/\1/p' "$work/said")"
at="http://$host"
command -v curl >/dev/null || {
    echo 'check_clients: curl is not installed, and all clients were left out' >&2
    finish
}
if [[ -z "$host" ]] || ! curl -sf --max-time 60 "$at/" >"$work/buckets"; then
    fails "the server does not serve: $(cat "$work/said")"
    finish
fi

head -c 1000 /dev/urandom >"$work/first"
head -c 2000 /dev/urandom >"$work/second"
head -c "${1:-100000000}" /dev/urandom >"$work/big"
head -c 10000000 "$work/big" >"$work/middle"
head -c 67108864 "$work/big" >"$work/large"
tail -c +11 "$work/second" | head -c 90 >"$work/slice"
# A tree of small files, older than any upload of them, with names that need spelling.
mkdir -p "$work/tree/sub/deep" "$work/tree/other"
for name in one 'two words' sub/three 'sub/four+%2F&' sub/deep/fünf other/six; do
    head -c "$((RANDOM % 3000 + 1))" /dev/urandom >"$work/tree/$name"
done
for number in {01..20}; do echo "$number" >"$work/tree/sub/deep/$number"; done
find "$work/tree" -type f -exec touch -d '2 hours ago' {} +
enabled='<VersioningConfiguration><Status>Enabled</Status></VersioningConfiguration>'
sum() { md5sum <"$1" | cut -d' ' -f1; }

# Whether a client is installed; says on standard error where it isn't: has NAME COMMAND..
has() {
    local name="$1"
    shift
    timeout "$longest" "$@" >"$work/version" 2>&1 || {
        echo "check_clients: $name is not installed, and was left out" >&2
        return 1
    }
}

# curl, for so long at most
curl() {
    timeout "$longest" curl "$@"
}

# Runs a command that has to fail, and to say this: refuses WORDS COMMAND..
refuses() {
    local words="$1"
    shift
    ! "$@" >"$work/out" 2>&1 && grep -qE "$words" "$work/out"
}

# Runs a command, and says what it wrote where it fails: does COMMAND..
does() {
    "$@" >"$work/out" 2>&1 || { tail -3 "$work/out" >&2; return 1; }
}

# Runs a command that makes the file "$work/got", and compares it with another one: brings FILE COMMAND..
brings() {
    local wanted="$1"
    shift
    rm -f "$work/got"
    does "$@" && cmp "$work/got" "$wanted" >&2
}

# Runs a command, and compares what it prints with this: prints TEXT COMMAND..
prints() {
    local wanted="$1" got
    shift
    got="$("$@" 2>"$work/out")" || { tail -3 "$work/out" >&2; return 1; }
    [[ "$got" == "$wanted" ]] || { head -c 1000 <<<"$got" >&2; return 1; }
}

# The files of a folder, as keys below a front, in order of their bytes: keys_of FOLDER FRONT
keys_of() {
    (cd "$1" && find . -type f -printf '%P\n') | sed "s|^|$2|" | LC_ALL=C sort
}

# Whether two folders have the same files: alike FOLDER FOLDER
alike() {
    diff -r "$1" "$2" >&2
}

# The status of a reply to curl: status_of WORD..
status_of() {
    curl -s -o "$work/out" -w '%{http_code}' "$@"
}

# The header of a reply: header NAME WORD..
header() {
    local name="$1"
    shift
    curl -sf -o "$work/out" -D - "$@" | tr -d '\r' | sed -n "s/^$name: //Ip"
}

by_curl() {
    local old
    holds 'curl: a bucket' does curl -sf -X PUT "$at/by-curl"
    holds 'curl: the bucket again' test "$(status_of -X PUT "$at/by-curl")" = 409
    holds 'curl: its head' test "$(status_of -I "$at/by-curl")" = 200
    holds 'curl: versioning' does curl -sf -X PUT --data-binary "$enabled" "$at/by-curl?versioning"
    holds 'curl: it is set' grep -q '<Status>Enabled</Status>' <(curl -sf "$at/by-curl?versioning")
    old="$(header x-amz-version-id -T "$work/first" "$at/by-curl/a%20key")"
    holds 'curl: a version' test -n "$old"
    holds 'curl: the next version' test "$(header etag -T "$work/second" "$at/by-curl/a%20key")" = "\"$(sum "$work/second")\""
    holds 'curl: get' cmp "$work/second" <(curl -sf "$at/by-curl/a%20key")
    holds 'curl: a range' cmp "$work/slice" <(curl -sf -r 10-99 "$at/by-curl/a%20key")
    holds 'curl: a range behind the end' test "$(status_of -r 2000- "$at/by-curl/a%20key")" = 416
    holds 'curl: head' test "$(header content-length -I "$at/by-curl/a%20key")" = 2000
    holds 'curl: delete' test "$(header x-amz-delete-marker -X DELETE "$at/by-curl/a%20key")" = true
    holds 'curl: it is gone' test "$(status_of "$at/by-curl/a%20key")" = 404
    holds 'curl: the old version' cmp "$work/first" <(curl -sf "$at/by-curl/a%20key?versionId=$old")
    holds 'curl: a listing' test "$(curl -sf "$at/by-curl?list-type=2" | grep -o '<KeyCount>.*</KeyCount>')" = '<KeyCount>0</KeyCount>'
    holds 'curl: the versions' test "$(curl -sf "$at/by-curl?versions&prefix=a%20" | grep -o '<Version>\|<DeleteMarker>' | sort | uniq -c | xargs)" \
        = '1 <DeleteMarker> 2 <Version>'
    holds 'curl: a condition that holds' cmp "$work/first" <(curl -sf -H "If-Match: \"$(sum "$work/first")\"" "$at/by-curl/a%20key?versionId=$old")
    holds 'curl: one that does not' test "$(status_of -H 'If-Match: "x"' "$at/by-curl/a%20key?versionId=$old")" = 412
    holds 'curl: put 100 MB' does curl -sf -T "$work/big" "$at/by-curl/big"
    holds 'curl: get 100 MB' cmp "$work/big" <(curl -sf "$at/by-curl/big")
    holds 'curl: put 10 MB' does curl -sf -T "$work/middle" "$at/by-curl/middle"
    holds 'curl: eight at once' eight_by_curl
}

# Eight downloads at once.
eight_by_curl() {
    local number words=()
    for number in {1..8}; do words+=(-o "$work/part$number" "$at/by-curl/middle"); done
    curl --no-progress-meter -f --parallel --parallel-immediate "${words[@]}" || return 1
    for number in {1..8}; do cmp "$work/part$number" "$work/middle" || return 1; done
}

# The AWS CLI: one part for each file that is put, since multipart uploads aren't served, buckets in the path, and no checksums that a call doesn't need,
# since newer ones send these behind a body in chunks where TLS stands before the server.
by_aws() {
    local api=(timeout "$longest" "$aws" --endpoint-url "$at" s3api) s3=(timeout "$longest" "$aws" --endpoint-url "$at" s3) object=(--bucket by-aws --key 'a key') old
    holds 'aws: a bucket' does "${s3[@]}" mb s3://by-aws
    holds 'aws: versioning' does "${api[@]}" put-bucket-versioning --bucket by-aws --versioning-configuration Status=Enabled
    holds 'aws: it is set' test "$("${api[@]}" get-bucket-versioning --bucket by-aws --query Status --output text)" = Enabled
    holds 'aws: the buckets' grep -q by-aws <("${s3[@]}" ls)
    old="$("${api[@]}" put-object "${object[@]}" --body "$work/first" --query VersionId --output text)"
    holds 'aws: a version' test -n "$old"
    holds 'aws: the next version' does "${s3[@]}" cp "$work/second" 's3://by-aws/a key'
    holds 'aws: get' brings "$work/second" "${s3[@]}" cp "s3://by-aws/a key" "$work/got"
    holds 'aws: a range' brings "$work/slice" "${api[@]}" get-object "${object[@]}" --range bytes=10-99 "$work/got"
    holds 'aws: a range behind the end' refuses InvalidRange "${api[@]}" get-object "${object[@]}" --range bytes=2000- "$work/got"
    holds 'aws: a condition that holds' brings "$work/second" "${api[@]}" get-object "${object[@]}" --if-match "\"$(sum "$work/second")\"" "$work/got"
    holds 'aws: one that does not' refuses PreconditionFailed "${api[@]}" get-object "${object[@]}" --if-match '"x"' "$work/got"
    holds 'aws: head' test "$("${api[@]}" head-object "${object[@]}" --query ContentLength --output text)" = 2000
    holds 'aws: delete' test "$("${api[@]}" delete-object "${object[@]}" --query DeleteMarker --output text)" = True
    holds 'aws: it is gone' refuses NoSuchKey "${api[@]}" get-object "${object[@]}" "$work/got"
    holds 'aws: its head is gone' refuses 404 "${api[@]}" head-object "${object[@]}"
    holds 'aws: the old version' brings "$work/first" "${api[@]}" get-object "${object[@]}" --version-id "$old" "$work/got"
    holds 'aws: put 100 MB' does "${s3[@]}" cp "$work/big" s3://by-aws/big
    holds 'aws: get 100 MB' brings "$work/big" "${s3[@]}" cp s3://by-aws/big "$work/got"
    holds 'aws: put 64 MiB' does "${s3[@]}" cp "$work/large" s3://by-aws/large
    holds 'aws: get 64 MiB in parts' brings "$work/large" env AWS_CONFIG_FILE="$work/in_parts" "${s3[@]}" cp s3://by-aws/large "$work/got"
    tree_by_aws
}

# A tree of files by listings.
tree_by_aws() {
    local api=(timeout "$longest" "$aws" --endpoint-url "$at" s3api) s3=(timeout "$longest" "$aws" --endpoint-url "$at" s3 --only-show-errors) tree=s3://by-aws/tree
    local list=(timeout "$longest" "$aws" --endpoint-url "$at" s3 ls) all=(timeout "$longest" "$aws" --endpoint-url "$at" s3 sync --no-progress)
    cp -a "$work/tree" "$work/aws-tree"
    holds 'aws: a tree up' does "${s3[@]}" sync "$work/aws-tree" "$tree"
    holds 'aws: it is there already' prints '' "${all[@]}" "$work/aws-tree" "$tree"
    holds 'aws: its keys' cmp <(keys_of "$work/aws-tree" tree/) <("${list[@]}" --recursive --page-size 7 "$tree/" | cut -c32-)
    holds 'aws: its folders' cmp <(printf '%s/\n' other sub) <("${list[@]}" "$tree/" | sed -n 's/^ *PRE //p')
    holds 'aws: its folders page by page' cmp <(printf '%s/\n' other sub) <("${list[@]}" --page-size 1 "$tree/" | sed -n 's/^ *PRE //p')
    holds 'aws: what begins so' cmp <(keys_of "$work/aws-tree" tree/ | grep '^tree/sub/deep/1') <("${list[@]}" --recursive "$tree/sub/deep/1" | cut -c32-)
    holds 'aws: the tree down' does "${s3[@]}" sync "$tree" "$work/aws-tree-down"
    holds 'aws: it is the same' alike "$work/aws-tree" "$work/aws-tree-down"
    holds 'aws: nothing is new' prints '' "${all[@]}" "$tree" "$work/aws-tree-down"
    rm "$work/aws-tree/one" && printf 'another' >"$work/aws-tree/sub/three"
    holds 'aws: what changed up' does "${s3[@]}" sync --delete "$work/aws-tree" "$tree"
    holds 'aws: and down' does "${s3[@]}" sync --delete "$tree" "$work/aws-tree-down"
    holds 'aws: it is the same again' alike "$work/aws-tree" "$work/aws-tree-down"
    holds 'aws: the versions of a key' prints $'2\t0' "${api[@]}" list-object-versions --bucket by-aws --prefix tree/sub/three \
        --query '[length(Versions), length(DeleteMarkers || `[]`)]' --output text
    holds 'aws: those of one that is gone' prints $'1\t1' "${api[@]}" list-object-versions --bucket by-aws --prefix tree/one \
        --query '[length(Versions), length(DeleteMarkers || `[]`)]' --output text
    holds 'aws: the tree is removed' does "${s3[@]}" rm --recursive "$tree/"
    holds 'aws: no key is left of it' prints 0 "${api[@]}" list-objects-v2 --bucket by-aws --prefix tree/ --query 'length(Contents || `[]`)' --output text
    holds 'aws: version 1 is refused' refuses NotImplemented "${api[@]}" list-objects --bucket by-aws
}

# rclone: one part for each file, listings of version 2, no copies within the store, and files compared by their sums, since the times of files would be user
# metadata. The first calls need no listing. It has no command that sets versioning.
by_rclone() {
    local remote=":s3,provider=Other,endpoint='$at',access_key_id=any,secret_access_key=any:by-rclone"
    local any=(timeout "$longest" rclone --config /dev/null --retries 1 --low-level-retries 1 --s3-upload-cutoff 5G)
    local call=("${any[@]}" --s3-no-check-bucket --no-traverse) list=("${any[@]}" --s3-list-version 2 --disable=copy --checksum)
    holds 'rclone: a bucket' does "${any[@]}" mkdir "$remote"
    holds 'rclone: put' does "${call[@]}" copyto "$work/second" "$remote/a key"
    holds 'rclone: put from a pipe' does "${call[@]}" rcat "$remote/piped" <"$work/first"
    holds 'rclone: get' brings "$work/second" "${call[@]}" copyto "$remote/a key" "$work/got"
    holds 'rclone: a range' cmp "$work/slice" <("${call[@]}" cat --offset 10 --count 90 "$remote/a key")
    holds 'rclone: head' grep -q '^ *2000 ' <("${call[@]}" lsl "$remote/a key")
    holds 'rclone: delete' does "${call[@]}" deletefile "$remote/a key"
    holds 'rclone: it is gone' refuses "doesn't exist" "${call[@]}" deletefile "$remote/a key"
    holds 'rclone: put 100 MB' does "${call[@]}" copyto "$work/big" "$remote/big"
    holds 'rclone: get 100 MB' brings "$work/big" "${call[@]}" copyto "$remote/big" "$work/got"
    cp -a "$work/tree" "$work/rclone"
    holds 'rclone: a tree up' does "${list[@]}" copy "$work/rclone" "$remote/tree"
    holds 'rclone: its keys' cmp <(keys_of "$work/rclone" '') <("${list[@]}" lsf -R --files-only "$remote/tree" | LC_ALL=C sort)
    holds 'rclone: its folders' prints $'one\nother/\nsub/\ntwo words' "${list[@]}" lsf "$remote/tree"
    holds 'rclone: it is compared' does "${list[@]}" check "$work/rclone" "$remote/tree"
    rm "$work/rclone/one" && printf 'another' >"$work/rclone/sub/three"
    holds 'rclone: it differs' refuses '2 differences found' "${list[@]}" check "$work/rclone" "$remote/tree"
    holds 'rclone: what changed up' does "${list[@]}" sync "$work/rclone" "$remote/tree"
    holds 'rclone: the tree down' does "${list[@]}" sync "$remote/tree" "$work/rclone-down"
    holds 'rclone: it is the same' alike "$work/rclone" "$work/rclone-down"
    holds 'rclone: the tree is removed' does "${list[@]}" delete "$remote/tree"
    holds 'rclone: no key is left of it' prints '' "${list[@]}" lsf -R --files-only "$remote/tree"
}

# s3cmd: one part for each file. It sets no versioning, and asks for no range and no version.
by_s3cmd() {
    local call=(timeout "$longest" s3cmd --config "$work/s3cfg" --no-progress)
    printf '%s\n' '[default]' "host_base = $host" "host_bucket = $host" 'use_https = False' 'access_key = any' 'secret_key = any' \
        'enable_multipart = False' 'max_retries = 1' >"$work/s3cfg"
    holds 's3cmd: a bucket' does "${call[@]}" mb s3://by-s3cmd
    holds 's3cmd: the buckets' grep -q s3://by-s3cmd <("${call[@]}" ls)
    holds 's3cmd: put' does "${call[@]}" put "$work/second" 's3://by-s3cmd/a key'
    holds 's3cmd: get' brings "$work/second" "${call[@]}" get "s3://by-s3cmd/a key" "$work/got"
    holds 's3cmd: head' grep -q 'File size: *2000$' <("${call[@]}" info 's3://by-s3cmd/a key')
    holds 's3cmd: delete' does "${call[@]}" del 's3://by-s3cmd/a key'
    holds 's3cmd: it is gone' refuses 'does not exist' "${call[@]}" get 's3://by-s3cmd/a key' "$work/got"
    holds 's3cmd: put 100 MB' does "${call[@]}" put "$work/big" s3://by-s3cmd/big
    holds 's3cmd: get 100 MB' brings "$work/big" "${call[@]}" get s3://by-s3cmd/big "$work/got"
}

# s3fs: listings of version 2, no copies within the store, one part for each file. The modes and times of files would be user metadata, so they are lost.
by_s3fs() {
    local folder="$work/mounted" call=(timeout "$longest")
    mkdir "$folder"
    echo any:any >"$work/s3fs-keys" && chmod 600 "$work/s3fs-keys"
    curl -sf -X PUT "$at/by-s3fs" || return 1
    "${call[@]}" s3fs by-s3fs "$folder" -o "url=$at,use_path_request_style,listobjectsv2,nocopyapi,nomultipart,passwd_file=$work/s3fs-keys,umask=0022" \
        >"$work/out" 2>&1 && mountpoint -q "$folder" || {
        echo "check_clients: s3fs can't mount here, and was left out: $(tail -1 "$work/out")" >&2
        return
    }
    holds 's3fs: folders' does "${call[@]}" mkdir -p "$folder/sub/deep"
    holds 's3fs: write' does "${call[@]}" cp "$work/second" "$folder/sub/a file"
    holds 's3fs: write 10 MB' does "${call[@]}" cp "$work/middle" "$folder/middle"
    holds 's3fs: read' "${call[@]}" cmp "$work/second" "$folder/sub/a file"
    holds 's3fs: read 10 MB' "${call[@]}" cmp "$work/middle" "$folder/middle"
    holds 's3fs: names' prints $'middle\nsub' "${call[@]}" ls "$folder"
    holds 's3fs: remove' does "${call[@]}" rm "$folder/sub/a file"
    holds 's3fs: it is gone' prints deep "${call[@]}" ls "$folder/sub"
    unmount
}

by_curl
if has 'the AWS CLI' "$aws" --version; then by_aws; fi
if has boto3 "$python" -c 'import boto3'; then
    holds 'boto3' timeout "$longest" "$python" "$top/tools/check_boto3.py" "$at" "$work"
fi
if has rclone rclone version; then by_rclone; fi
if has s3cmd s3cmd --version; then by_s3cmd; fi
if has s3fs s3fs --version; then by_s3fs; fi
finish

"""The cases of tools/check_listings.py that are worked examples: of listings, and of reads under If-Match."""

from listings import NULL, Bucket, must, page_of, query_of
from pipe_client import Pipe
from program import program

PROGRAM = program()
# An id that no version has.
NO_ID = "00000000-0001-801c-8000-00000000000f"


def is_refusal(reply, status, code, message=None):
    """A reply is this refusal, and its document says so."""
    wanted = f"<Code>{code}</Code><Message>{'' if message is None else message + '</Message>'}".encode()
    must(reply.status == status and wanted in reply.body, f"{status} {code} {message or ''} is wanted: {reply}")


def refused(talk, target, status, code, message=None, headers=(), method="GET", body=None):
    """A request is refused so."""
    body = b"" if body is None and method in ("PUT", "POST") else body
    is_refusal(talk.ask(method, target, body, headers), status, code, message)


def ends_well(pipe):
    ended = pipe.close()
    must(ended == (0, ""), f"the program ended with {ended}")


def worked(case):
    """Worked examples of both listings, over `pipe` and drives in memory: each is a case of its own."""
    pipe = Pipe([], PROGRAM)
    pic, kept = Bucket(pipe, "pic"), Bucket(pipe, "kept")
    for key in ("a", "b/1", "b/2", "c d/e", "f\x01g"):
        pic.put(key)
    kept.set_mode("Enabled")
    ids = [kept.put("k", body) for body in (b"1", b"22")] + [kept.put("m/1", b"3")]
    kept.delete("gone")

    def rows(ask, wanted, bucket="pic", is_versions=False):
        page = page_of(pipe, bucket, ask, is_versions)
        got = [row[1] for row in page.rows]
        must(got == wanted, f"the rows are {got}, and {wanted} are due")
        return page

    def tells(ask, wanted, is_versions=False, bucket="pic"):
        told = pipe.ask("GET", f"/{bucket}?{query_of(ask, is_versions)}").body.decode()
        must(wanted in told, f"{wanted} isn't in {told}")

    def lacks(ask, unwanted, is_versions=False):
        told = pipe.ask("GET", f"/pic?{query_of(ask, is_versions)}").body.decode()
        must(unwanted not in told, f"{unwanted} is in {told}")

    url = {"encoding-type": "url"}
    groups = {"delimiter": "/", **url}
    for is_versions in (False, True):
        case("no rows are asked for", rows, {"max-keys": 0}, [], "pic", is_versions)
        case("no rows are asked for, of no bucket", refused, pipe, "/none?" + query_of({"max-keys": 0}, is_versions), 404, "NoSuchBucket")
        case("1,000 at most", tells, {"max-keys": 2147483647, **url}, "<MaxKeys>1000</MaxKeys>", is_versions)
        case("no bucket", refused, pipe, "/none?" + query_of({}, is_versions), 404, "NoSuchBucket", "The specified bucket does not exist.")
        case("no name of a bucket", refused, pipe, "/No?" + query_of({}, is_versions), 400, "InvalidBucketName")
        for name, value in (("max-keys", "x"), ("max-keys", "-1"), ("max-keys", "2147483648"), ("max-keys", ""), ("encoding-type", "utf8")):
            case(f"{name}={value}", refused, pipe, "/pic?" + query_of({name: value}, is_versions), 400, "InvalidArgument", f"Invalid value of {name}.")
        case("an empty delimiter is none", rows, {"delimiter": "", **url}, list(pic.keys), "pic", is_versions)
        case("it isn't told", lacks, {"delimiter": ""}, "<Delimiter>", is_versions)
        case("a byte below 32", tells, {"prefix": "f"}, "<Key>f&#x1;g</Key>", is_versions)
        case("a byte below 32 in url", tells, {"prefix": "f", **url}, "<Key>f%01g</Key>", is_versions)
        case("names in url", tells, {"prefix": "c ", **groups}, "<Prefix>c%20d/</Prefix>", is_versions)
        case("the prefix in url", tells, {"prefix": "c ", **url}, "<Prefix>c%20</Prefix>", is_versions)
        case("no owner", lacks, {"fetch-owner": "true"}, "<Owner>", is_versions)
        case("a prefix that is nowhere", rows, {"prefix": "zz"}, [], "pic", is_versions)
    token = "b/1".encode().hex()
    for bad in ("zz", "6", "ff", "zz" + token):
        target, why = "/pic?" + query_of({"continuation-token": bad}, False), "Invalid value of continuation-token."
        case(f"the token {bad}", refused, pipe, target, 400, "InvalidArgument", why)
    case("start-after within a group shows it", rows, {**groups, "start-after": "b/1"}, ["f\x01g", "b/", "c d/"])
    case("a token within a group doesn't", rows, {**groups, "continuation-token": token}, ["f\x01g", "c d/"])
    case("the token of a group", rows, {**groups, "continuation-token": b"b/".hex()}, ["f\x01g", "c d/"])
    case("start-after at a group's name shows it", rows, {**groups, "start-after": "b/"}, ["f\x01g", "b/", "c d/"])
    case("start-after beside a token is idle", rows, {"start-after": "z", "continuation-token": token, **url}, ["b/2", "c d/e", "f\x01g"])
    case("an empty token", rows, {"continuation-token": "", "start-after": "b/2", **url}, list(pic.keys))
    case("start-after is told", tells, {"start-after": "a b", **url}, "<StartAfter>a%20b</StartAfter>")
    case("an empty one too", tells, {"start-after": ""}, "<StartAfter></StartAfter>")
    case("a token is told", tells, {"continuation-token": token.upper()}, f"<ContinuationToken>{token}</ContinuationToken>")
    case("a token isn't in url", tells, {"max-keys": 1, **url}, "<NextContinuationToken>61</NextContinuationToken><KeyCount>1</KeyCount>")
    case("a cut at a group", tells, {"max-keys": 2, **groups}, f"<NextContinuationToken>{b'b/'.hex()}</NextContinuationToken><KeyCount>2</KeyCount>")
    case("a tag", tells, {"prefix": "a"}, "<ETag>&quot;9dd4e461268c8034f5c8564e155c67a6&quot;</ETag><Size>1</Size><StorageClass>STANDARD</StorageClass>")
    case("the id without versioning", tells, {"prefix": "a"}, f"<VersionId>{NULL}</VersionId><IsLatest>true</IsLatest>", True)
    versions = [("k", ids[1]), ("k", ids[0]), ("m/1", ids[2])]
    for id, wanted in ((ids[1], versions[1:]), (ids[0], versions[2:]), (NO_ID, versions), (NULL, versions), (None, versions[2:])):
        ask = {"key-marker": "k", **({"version-id-marker": id} if id else {})}
        case(f"behind {id}", rows, ask, [key for key, _ in wanted], "kept", True)
    why = "Invalid value of version-id-marker."
    case("an id alone", refused, pipe, "/kept?" + query_of({"version-id-marker": ids[0]}, True), 400, "InvalidArgument", why)
    case("no id", refused, pipe, "/kept?" + query_of({"key-marker": "k", "version-id-marker": "zz"}, True), 400, "InvalidArgument", why)
    case("a group's name as the marker", rows, {"delimiter": "/", "key-marker": "m/"}, [], "kept", True)
    case("a marker within a group", rows, {"delimiter": "/", "key-marker": "m/0"}, ["m/"], "kept", True)
    case("the last of a group", rows, {"delimiter": "/", "key-marker": "m/1"}, [], "kept", True)
    case("markers that aren't given", tells, {}, "<KeyMarker></KeyMarker><VersionIdMarker></VersionIdMarker>", True)
    case("a cut within a key", tells, {"max-keys": 2}, f"<NextKeyMarker>k</NextKeyMarker><NextVersionIdMarker>{ids[1]}</NextVersionIdMarker>", True, "kept")
    case("a delete marker", tells, {"prefix": "gone"}, "<DeleteMarker><Key>gone</Key>", True, "kept")
    case("a key behind a marker isn't listed", rows, {}, ["k", "m/1"], "kept")
    case("versions come before list-type", tells, {"list-type": 2}, "<ListVersionsResult ", True)
    for method, target in (
        ("GET", "/pic"), ("GET", "/pic?prefix=a&delimiter=/"), ("GET", "/pic?list-type=1"), ("GET", "/pic?location"), ("GET", "/pic?uploads"),
        ("GET", "/pic?list-type=2&acl"), ("POST", "/pic?delete"), ("POST", "/pic/a?uploads"), ("PUT", "/pic/a?uploadId=x&partNumber=1"),
        ("POST", f"/pic/a?uploadId={NO_ID}"), ("DELETE", f"/pic/a?uploadId={NO_ID}"), ("GET", f"/pic/a?uploadId={NO_ID}"),
    ):
        case(f"{method} of {target}", refused, pipe, target, 501, "NotImplemented", "This call is not served.", (), method)
    case("it ends", ends_well, pipe)


def matches(case):
    """GETs and HEADs of a key under conditions."""
    pipe = Pipe([], PROGRAM)
    pic = Bucket(pipe, "pic")
    pic.set_mode("Enabled")
    old, new = pic.put("a", b"hello"), pic.put("a", b"jello")
    pic.put("gone", b"hello")
    pic.delete("gone")
    marker = pic.keys["gone"][0].id
    one, other = pic.keys["a"][1].tag, pic.keys["a"][0].tag
    bare = other.strip('"')

    def answers(status, value, target="/pic/a", more=(), names=("If-Match",)):
        """A GET and a HEAD under a condition, and what the refusals say."""
        for method in ("GET", "HEAD"):
            reply = pipe.ask(method, target, None, [*(f"{name}: {value}" for name in names), *more])
            wanted = 200 if status == 206 and method == "HEAD" else status
            must(reply.status == wanted, f"{method} of {target} under {value!r}: {reply}, and {wanted} is wanted")
            if method == "GET" and status == 412:
                is_refusal(reply, 412, "PreconditionFailed", "The precondition doesn't hold.")
                must("etag" not in reply.headers and b"<Resource>/pic/a</Resource>" in reply.body, f"a 412 tells {reply}")
            if method == "HEAD" and status == 412:
                must("content-length" not in reply.headers, f"the 412 of a HEAD tells {reply}")

    for value in (other, bare, "*", f"{one}, {other}", f"{other},{one}", f'W/{one} ,\t{other}', f'"x,y", {bare}', f",, {other}", f"x, {bare} ,"):
        case(f"If-Match: {value}", answers, 200, value)
    for value in (
        one, one.strip('"'), f"W/{other}", f"w/{other}", other.upper(), f'"{bare}-1"', bare[:-1], f'"{bare}', f'"x,{bare},y"', "*, x", '"*"',
        f"{bare} {bare}", "",
    ):
        case(f"If-Match: {value}", answers, 412, value)
    at_old, at_marker = f"/pic/a?versionId={old}", f"/pic/gone?versionId={marker}"
    case("an old version", answers, 200, one, at_old)
    case("an old version under the new one's tag", answers, 412, other, at_old)
    case("a range", answers, 206, other, "/pic/a", ["Range: bytes=1-2"])
    case("a range behind the end", refused, pipe, "/pic/a", 416, "InvalidRange", None, [f"If-Match: {other}", "Range: bytes=5-"])
    case("412 comes before it", answers, 412, one, "/pic/a", ["Range: bytes=5-"])
    case("no key", answers, 404, one, "/pic/none")
    case("no key under any", answers, 404, "*", "/pic/none")
    case("a marker", answers, 404, "*", "/pic/gone")
    case("a marker by its id", answers, 405, "*", at_marker)
    case("no bucket", answers, 404, one, "/none/a")
    case("no version", answers, 404, other, f"/pic/a?versionId={NO_ID}")
    case("the first of two", answers, 412, one, "/pic/a", [f"If-Match: {other}"])
    for name in ("If-None-Match", "If-Modified-Since"):
        case(f"{name} is passed over", answers, 200, other if name == "If-None-Match" else "Thu, 31 Dec 2099 00:00:00 GMT", "/pic/a", (), (name,))
    case("both", answers, 412, one, "/pic/a", [f"If-None-Match: {other}"])
    case("If-Unmodified-Since", answers, 501, "Thu, 31 Dec 2099 00:00:00 GMT", "/pic/a", (), ("If-Unmodified-Since",))
    for method, target, names in (
        ("PUT", "/pic/a", ("If-Match", "If-None-Match", "If-Unmodified-Since")), ("DELETE", "/pic/a", ("If-Match", "x-amz-if-match-size")),
        ("GET", "/pic?list-type=2", ("If-Match",)), ("GET", "/pic?versions", ("If-Match",)), ("GET", "/", ("If-Match",)), ("PUT", "/other", ("If-Match",)),
        ("PUT", "/pic?versioning", ("If-Match",)), ("GET", "/pic?versioning", ("If-Match",)),
    ):
        for name in names:
            case(f"{method} of {target} under {name}", refused, pipe, target, 501, "NotImplemented", "This call is not served.", [f"{name}: *"], method)
    case("HEAD of a bucket", lambda: must(pipe.ask("HEAD", "/pic", None, ["If-Match: *"]).status == 501, "it is served"))
    case("nothing was changed", lambda: must(pipe.ask("GET", "/pic/a").body == b"jello" and pipe.ask("HEAD", "/pic/a").version == new, "another body"))
    case("it ends", ends_well, pipe)

"""What a client knows of a bucket that it filled, which rows the pages of a listing have by S3's API, and what a page told.

The rules are those of the API's reference on ListObjectsV2 and ListObjectVersions, over one list in memory: all keys in the order of
their UTF-8 bytes, all versions of a key from the newest on, filtered, grouped and cut. Where the reference leaves something open the
rule is marked with *.
"""

import hashlib
import urllib.parse
import xml.etree.ElementTree

MARKER = None
NULL = "null"
# The elements of the two documents, in their order.
SHAPES = {
    "ListBucketResult": [
        "Name", "Prefix", "Delimiter", "StartAfter", "ContinuationToken", "NextContinuationToken", "KeyCount", "MaxKeys", "EncodingType",
        "IsTruncated", "Contents", "CommonPrefixes",
    ],
    "ListVersionsResult": [
        "Name", "Prefix", "Delimiter", "KeyMarker", "VersionIdMarker", "NextKeyMarker", "NextVersionIdMarker", "MaxKeys", "EncodingType",
        "IsTruncated", "Version", "CommonPrefixes",
    ],
}
# Those that a document always has, and those that it may have more than once.
ALWAYS = {
    "ListBucketResult": {"Name", "Prefix", "KeyCount", "MaxKeys", "IsTruncated"},
    "ListVersionsResult": {"Name", "Prefix", "KeyMarker", "VersionIdMarker", "MaxKeys", "IsTruncated"},
}
ROWS = ("Contents", "Version", "DeleteMarker", "CommonPrefixes")
SPACE = "{http://s3.amazonaws.com/doc/2006-03-01/}"


class Wrong(Exception):
    """Something is not as it is to be."""


def must(holds, what):
    if not holds:
        raise Wrong(what)


class Version:
    """A version of a key: its id, and its body, which a delete marker hasn't."""

    def __init__(self, id, body):
        self.id, self.body = id, body

    @property
    def tag(self):
        return f'"{hashlib.md5(self.body).hexdigest()}"'


class Bucket:
    """A bucket that one client fills, and what it is to have: of each key its versions, the newest first."""

    def __init__(self, talk, name):
        self.talk, self.name, self.mode, self.keys = talk, name, "Never", {}
        reply = talk.ask("PUT", f"/{name}", b"")
        must(reply.status == 200, f"the bucket {name} is not made: {reply}")

    def at(self, key):
        return f"/{self.name}/" + urllib.parse.quote(key.encode(), safe="/")

    def set_mode(self, mode):
        document = f"<VersioningConfiguration><Status>{mode}</Status></VersioningConfiguration>".encode()
        must(self.talk.ask("PUT", f"/{self.name}?versioning", document).status == 200, f"the bucket {self.name} does not get {mode}")
        self.mode = mode

    def add(self, key, version):
        """A new version comes first. One that is called null takes the place of another one of that name."""
        older = self.keys.get(key, [])
        self.keys[key] = [version] + [it for it in older if it.id != NULL or version.id != NULL]

    def put(self, key, body=b"x"):
        reply = self.talk.ask("PUT", self.at(key), body)
        must(reply.status == 200, f"PUT of {key!r}: {reply}")
        self.add(key, Version(reply.version or NULL, body))
        return self.keys[key][0].id

    def delete(self, key):
        """A deletion without an id: without versioning the key is gone, and with it a delete marker comes first."""
        reply = self.talk.ask("DELETE", self.at(key))
        must(reply.status == 204, f"DELETE of {key!r}: {reply}")
        if self.mode == "Never":
            self.keys.pop(key, None)
        else:
            must(reply.is_marker and reply.version, f"DELETE of {key!r} makes no marker: {reply}")
            self.add(key, Version(reply.version, MARKER))

    def delete_version(self, key, id):
        reply = self.talk.ask("DELETE", f"{self.at(key)}?versionId={id}")
        must(reply.status == 204, f"DELETE of {id} of {key!r}: {reply}")
        self.keys[key] = [it for it in self.keys[key] if it.id != id]


def in_order(keys):
    return sorted(keys, key=str.encode)


def is_behind(text, other):
    return text.encode() > other.encode()


def group_of(ask, key):
    """The group of a key: as far as the delimiter's first place behind the prefix, if it has one."""
    prefix, delimiter = ask.get("prefix", ""), ask.get("delimiter", "")
    front, found, _ = key[len(prefix) :].partition(delimiter) if delimiter else (key, "", "")
    return prefix + front + found if found else None


def grouped(ask, rows):
    """The rows, with those of a group as one row in the place of its first."""
    seen = {}
    for row in rows:
        group = group_of(ask, row[1])
        seen.setdefault(row if group is None else ("group", group))
    return list(seen)


def rows_of_keys(bucket, ask):
    """All rows of a ListObjectsV2 from where it begins: the newest version of each key, unless that is a delete marker."""
    rows = []
    for key in in_order(bucket.keys):
        newest = next(iter(bucket.keys[key]), Version(NULL, MARKER))
        if newest.body is not MARKER and key.startswith(ask.get("prefix", "")):
            rows.append(("key", key, newest.tag, len(newest.body)))
    token = ask.get("continuation-token")
    if token is None:
        # * Keys that aren't behind start-after are left out before they are grouped, and rows that aren't behind a token afterwards.
        return grouped(ask, [row for row in rows if "start-after" not in ask or is_behind(row[1], ask["start-after"])])
    return [row for row in grouped(ask, rows) if is_behind(row[1], bytes.fromhex(token).decode())]


def rows_of_versions(bucket, ask):
    """All rows of a ListObjectVersions from where it begins."""
    rows = []
    for key in in_order(bucket.keys):
        for place, version in enumerate(bucket.keys[key]):
            what = ("marker",) if version.body is MARKER else ("version", version.tag, len(version.body))
            rows.append((what[0], key, version.id, place == 0, *what[1:]))
    rows = [row for row in rows if row[1].startswith(ask.get("prefix", ""))]
    marker, id = ask.get("key-marker"), ask.get("version-id-marker")
    if marker is not None:
        ids = [row[2] for row in rows if row[1] == marker]
        # * Of the marker's key those behind the named version go on, and all where it has no such version.
        left_out = set(ids if id is None else ids[: ids.index(id) + 1] if id in ids else ())
        rows = [row for row in rows if is_behind(row[1], marker) or row[1] == marker and row[2] not in left_out]
    # * A group of the marker's name was given before.
    return [row for row in grouped(ask, rows) if row[0] != "group" or row[1] != marker]


def cut(rows, most):
    """The rows page by page; without rows one empty page."""
    return [rows[at : at + most] for at in range(0, len(rows), most)] or [[]]


def query_of(ask, is_versions):
    """What stands behind the question mark."""
    words = ["versions"] if is_versions else ["list-type=2"]
    return "&".join([*words, *(f"{name}={urllib.parse.quote(str(value).encode(), safe='')}" for name, value in ask.items())])


class Page:
    """A page of a listing, as its document tells it."""

    def __init__(self, document):
        root = xml.etree.ElementTree.fromstring(document)
        self.kind = root.tag.removeprefix(SPACE)
        must(root.tag == SPACE + self.kind and self.kind in SHAPES, f"the document of a listing is {root.tag}")
        self.tags = [it.tag.removeprefix(SPACE) for it in root]
        self.told = {it.tag.removeprefix(SPACE): it.text or "" for it in root if len(it) == 0}
        self.is_encoded = self.told.get("EncodingType") == "url"
        self.rows, self.moments = [], {}
        for element in root:
            if element.tag.removeprefix(SPACE) in ROWS:
                self.rows.append(self.row_of(element.tag.removeprefix(SPACE), {it.tag.removeprefix(SPACE): it.text or "" for it in element}))
        self.look_at_shape()

    def text(self, text):
        """A name that is percent-encoded where the page says so."""
        return urllib.parse.unquote(text, errors="strict") if self.is_encoded else text

    def row_of(self, kind, its):
        if kind == "CommonPrefixes":
            must(set(its) == {"Prefix"}, f"a group has {its}")
            return ("group", self.text(its["Prefix"]))
        key, wanted = self.text(its["Key"]), {"Key", "LastModified"}
        if kind != "DeleteMarker":
            wanted |= {"ETag", "Size", "StorageClass"}
            must(its["StorageClass"] == "STANDARD", f"a row has {its}")
        if kind != "Contents":
            wanted |= {"VersionId", "IsLatest"}
            must(its["IsLatest"] in ("true", "false"), f"a row has {its}")
        must(set(its) == wanted, f"a {kind} has {sorted(its)}")
        self.moments[key, its.get("VersionId", NULL)] = its["LastModified"]
        if kind == "Contents":
            return ("key", key, its["ETag"], int(its["Size"]))
        named = (key, its["VersionId"], its["IsLatest"] == "true")
        return ("marker", *named) if kind == "DeleteMarker" else ("version", *named, its["ETag"], int(its["Size"]))

    def look_at_shape(self):
        """All keys before all groups, and the elements above them once each, in their order."""
        shape = SHAPES[self.kind]
        places = [shape.index("Version" if it == "DeleteMarker" else it) for it in self.tags]
        must(places == sorted(places), f"the elements stand in another order: {self.tags}")
        once = [it for it in self.tags if it not in ROWS]
        must(len(once) == len(set(once)) and ALWAYS[self.kind] <= set(once), f"an element is missing or stands twice: {once}")
        must(self.told["IsTruncated"] in ("true", "false"), f"IsTruncated is {self.told['IsTruncated']}")
        next_ones = [it for it in once if it.startswith("Next")]
        must(self.is_truncated == bool(next_ones), f"IsTruncated is {self.is_truncated}, and it has {next_ones}")
        must("KeyCount" not in self.told or self.told["KeyCount"] == str(len(self.rows)), f"KeyCount is {self.told.get('KeyCount')} of {len(self.rows)} rows")

    @property
    def is_truncated(self):
        return self.told["IsTruncated"] == "true"

    def begins_next(self):
        """Where the next page begins."""
        if self.kind == "ListBucketResult":
            return {"continuation-token": self.told["NextContinuationToken"]}
        next_one = {"key-marker": self.text(self.told["NextKeyMarker"])}
        if "NextVersionIdMarker" in self.told:
            next_one["version-id-marker"] = self.told["NextVersionIdMarker"]
        return next_one

    def has_rows(self, wanted):
        """The rows are these, in their order: those of keys and those of groups, which stand behind them."""
        for is_group in (False, True):
            got, due = ([row for row in rows if (row[0] == "group") == is_group] for rows in (self.rows, wanted))
            must(got == due, f"the rows are {got}, and {due} are due")

    def ends_at(self, last):
        """What the next page begins with is the last row."""
        if self.kind == "ListBucketResult":
            must(self.told["NextContinuationToken"] == last[1].encode().hex(), f"the token is {self.told['NextContinuationToken']}, and {last} is the last row")
            return
        wanted = (last[1], None if last[0] == "group" else last[2])
        got = (self.text(self.told["NextKeyMarker"]), self.told.get("NextVersionIdMarker"))
        must(got == wanted, f"the markers are {got}, and {wanted} are those of the last row")


def page_of(talk, bucket, ask, is_versions=False):
    """One page of a bucket of this name."""
    reply = talk.ask("GET", f"/{bucket}?{query_of(ask, is_versions)}")
    must(reply.status == 200, f"a listing by {ask} is refused: {reply}")
    must(reply.headers.get("content-type") == "application/xml", f"a listing is told as {reply.headers}")
    return Page(reply.body)


def pages_of(talk, bucket, ask, most, is_versions=False):
    """All pages of a listing, each begun where the one before ended."""
    begin = dict(ask)
    while True:
        page = page_of(talk, bucket, {**begin, "max-keys": most}, is_versions)
        yield page
        if not page.is_truncated:
            return
        must(page.rows, "a page without rows says that there are more")
        for name in ("continuation-token", "key-marker", "version-id-marker"):
            begin.pop(name, None)
        begin.update(page.begins_next())


def walk(talk, bucket, ask, most, is_versions=False):
    """The pages of a listing are those of the one list, cut so."""
    due = cut((rows_of_versions if is_versions else rows_of_keys)(bucket, ask), most)
    count = 0
    for place, page in enumerate(pages_of(talk, bucket.name, ask, most, is_versions)):
        must(place < len(due), f"there are more than {len(due)} pages")
        page.has_rows(due[place])
        must(page.is_truncated == (place + 1 < len(due)), f"page {place + 1} of {len(due)} says {page.is_truncated} of a further row")
        must(page.told["MaxKeys"] == str(most) and page.told["Name"] == bucket.name, f"the page tells {page.told}")
        if page.is_truncated:
            page.ends_at(due[place][-1])
        count = place + 1
    must(count == len(due), f"there are {count} pages, and {len(due)} are due")
    return count

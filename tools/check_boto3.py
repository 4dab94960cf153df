"""What `tools/check_clients.sh` has boto3 do over a server: check_boto3.py URL FOLDER, which has the files first, second, slice and big"""

import concurrent.futures
import hashlib
import pathlib
import sys

import boto3
from boto3.s3.transfer import TransferConfig
from botocore.config import Config
from botocore.exceptions import ClientError

BUCKET, KEY = "by-boto3", "a key"


def config():
    """The buckets in the path, and no checksum that the calls don't require, where this boto3 knows of one."""
    given = {"s3": {"addressing_style": "path"}, "retries": {"max_attempts": 1}}
    try:
        return Config(**given, request_checksum_calculation="when_required", response_checksum_validation="when_required")
    except TypeError:
        return Config(**given)


def refused(code, call, **words):
    """A call is refused with this code."""
    try:
        call(**words)
    except ClientError as why:
        told = why.response["Error"]["Code"]
        assert told == code, f"{told} is told, and {code} is wanted"
        return
    raise AssertionError(f"{call.__name__} is not refused")


def main():
    url, folder = sys.argv[1], pathlib.Path(sys.argv[2])
    first, second, part, big = [(folder / name).read_bytes() for name in ("first", "second", "slice", "big")]
    words = {"aws_access_key_id": "any", "aws_secret_access_key": "any", "region_name": "us-east-1"}
    s3 = boto3.client("s3", endpoint_url=url, config=config(), **words)
    at = {"Bucket": BUCKET, "Key": KEY}
    s3.create_bucket(Bucket=BUCKET)
    assert BUCKET in [bucket["Name"] for bucket in s3.list_buckets()["Buckets"]], "the bucket is not listed"
    s3.head_bucket(Bucket=BUCKET)
    s3.put_bucket_versioning(Bucket=BUCKET, VersioningConfiguration={"Status": "Enabled"})
    assert s3.get_bucket_versioning(Bucket=BUCKET)["Status"] == "Enabled", "versioning is not set"
    old = s3.put_object(Body=first, **at)["VersionId"]
    put = s3.put_object(Body=second, ContentType="text/plain", **at)
    assert put["ETag"] == f'"{hashlib.md5(second).hexdigest()}"', put
    got = s3.get_object(**at)
    assert got["Body"].read() == second and got["ContentType"] == "text/plain", got
    assert s3.get_object(Range="bytes=10-99", **at)["Body"].read() == part, "another range"
    refused("InvalidRange", s3.get_object, Range="bytes=2000-", **at)
    head = s3.head_object(**at)
    assert head["ContentLength"] == 2000 and head["VersionId"] == put["VersionId"], head
    marker = s3.delete_object(**at)
    assert marker["DeleteMarker"], marker
    refused("NoSuchKey", s3.get_object, **at)
    refused("404", s3.head_object, **at)
    assert s3.get_object(VersionId=old, **at)["Body"].read() == first, "another old version"
    refused("MethodNotAllowed", s3.get_object, VersionId=marker["VersionId"], **at)
    s3.delete_object(VersionId=marker["VersionId"], **at)
    assert s3.get_object(**at)["Body"].read() == second, "the marker is not removed"
    refused("BucketAlreadyOwnedByYou", s3.create_bucket, Bucket=BUCKET)
    refused("NoSuchBucket", s3.put_object, Bucket="by-nobody", Key=KEY, Body=first)
    # One part for each file.
    whole = TransferConfig(multipart_threshold=5 << 30)
    s3.upload_file(str(folder / "big"), BUCKET, "big", Config=whole)
    s3.download_file(BUCKET, "big", str(folder / "back"), Config=whole)
    assert (folder / "back").read_bytes() == big, "another body of 100 MB"
    # Without that setting it gets parts of large files at once: newer ones under If-Match.
    (folder / "back").unlink()
    s3.download_file(BUCKET, "big", str(folder / "back"))
    assert (folder / "back").read_bytes() == big, "another body of 100 MB in parts"
    (folder / "back").unlink()
    with concurrent.futures.ThreadPoolExecutor(10) as pool:
        list(pool.map(lambda number: s3.put_object(Bucket=BUCKET, Key=f"many/{number}", Body=b"%d" % number), range(50)))
        many = list(pool.map(lambda number: s3.get_object(Bucket=BUCKET, Key=f"many/{number}")["Body"].read(), range(50)))
    assert many == [b"%d" % number for number in range(50)], "another body of fifty"
    look_at_conditions(s3, first, second)
    look_at_pages(s3, boto3.resource("s3", endpoint_url=url, config=config(), **words))


def look_at_conditions(s3, first, second):
    """A part of a body that was replaced meanwhile isn't given."""
    at = {"Bucket": BUCKET, "Key": "replaced"}
    tag = s3.put_object(Body=first, **at)["ETag"]
    assert s3.get_object(IfMatch=tag, Range="bytes=0-9", **at)["Body"].read() == first[:10], "another first part"
    s3.put_object(Body=second, **at)
    refused("PreconditionFailed", s3.get_object, IfMatch=tag, Range="bytes=10-19", **at)
    refused("412", s3.head_object, IfMatch=tag, **at)


def look_at_pages(s3, resource):
    """All pages of both listings, by paginators."""
    wanted = sorted(f"many/{number}" for number in range(50))
    pages = list(s3.get_paginator("list_objects_v2").paginate(Bucket=BUCKET, Prefix="many/", PaginationConfig={"PageSize": 7}))
    assert [row["Key"] for page in pages for row in page["Contents"]] == wanted and len(pages) == 8, pages
    pages = list(s3.get_paginator("list_objects_v2").paginate(Bucket=BUCKET, Delimiter="/", PaginationConfig={"PageSize": 1}))
    groups = [row["Prefix"] for page in pages for row in page.get("CommonPrefixes", [])]
    keys = [row["Key"] for page in pages for row in page.get("Contents", [])]
    assert groups == ["many/"] and keys == [KEY, "big", "replaced"], (groups, keys)
    behind = [row["Key"] for row in s3.list_objects_v2(Bucket=BUCKET, StartAfter="many/48")["Contents"]]
    assert behind == [*wanted[wanted.index("many/49") :], "replaced"], behind
    paginator = s3.get_paginator("list_object_versions")
    pages = list(paginator.paginate(Bucket=BUCKET, PaginationConfig={"PageSize": 4}))
    versions = [(row["Key"], row["IsLatest"]) for page in pages for row in page.get("Versions", [])]
    assert versions == [(KEY, True), (KEY, False), ("big", True), *((key, True) for key in wanted), ("replaced", True), ("replaced", False)], versions
    assert len({row["VersionId"] for page in pages for row in page["Versions"]}) == len(versions), "an id comes twice"
    s3.delete_object(Bucket=BUCKET, Key="replaced")
    page = s3.list_object_versions(Bucket=BUCKET, Prefix="re", Delimiter="/")
    assert [row["IsLatest"] for row in page["DeleteMarkers"]] == [True] and len(page["Versions"]) == 2, page
    assert len(list(resource.Bucket(BUCKET).object_versions.all())) == len(versions) + 1, "another number of versions"
    refused("NoSuchBucket", s3.list_objects_v2, Bucket="by-nobody")
    refused("NotImplemented", s3.list_objects, Bucket=BUCKET)


main()

"""The few messages of the Remote Execution API that the scripts here need, as bytes (remote_execution.proto)."""

import hashlib


def varint(number):
    out = bytearray()
    while number > 127:
        out.append(number & 127 | 128)
        number >>= 7
    out.append(number)
    return bytes(out)


def field(number, value):
    """A field with bytes, a text or a number; nothing for a default."""
    if isinstance(value, str):
        value = value.encode()
    if isinstance(value, int):
        return varint(number << 3) + varint(value) if value else b""
    return varint(number << 3 | 2) + varint(len(value)) + value


def fields(message):
    """The fields of a message: pairs of a number and a number or bytes."""
    found, at = [], 0

    def number():
        nonlocal at
        value = shift = 0
        while True:
            byte = message[at]
            at += 1
            value |= (byte & 127) << shift
            shift += 7
            if byte < 128:
                return value

    while at < len(message):
        key = number()
        if key & 7 == 0:
            found.append((key >> 3, number()))
        elif key & 7 == 2:
            length = number()
            found.append((key >> 3, message[at : at + length]))
            at += length
        else:
            raise ValueError("a kind of field that these messages do not have")
    return found


def first(message, number, default=b""):
    return next((value for place, value in fields(message) if place == number), default)


def every(message, number):
    return [value for place, value in fields(message) if place == number]


def digest(blob, function=hashlib.sha256):
    return field(1, function(blob).hexdigest()) + field(2, len(blob))


def find_missing(instance, digests):
    return field(1, instance) + b"".join(field(2, each) if each else b"\x12\x00" for each in digests)


def batch_update(instance, blobs, function=hashlib.sha256):
    request = lambda blob: field(1, digest(blob, function)) + field(2, blob)
    return field(1, instance) + b"".join(field(2, request(blob)) for blob in blobs)


def batch_read(instance, digests):
    return field(1, instance) + b"".join(field(2, each) for each in digests)


def capabilities(instance):
    return field(1, instance)


def read_name(blob_hash, size, instance=""):
    return (instance + "/" if instance else "") + f"blobs/{blob_hash}/{size}"


def write_name(uuid, blob_hash, size, instance=""):
    return (instance + "/" if instance else "") + f"uploads/{uuid}/blobs/{blob_hash}/{size}"


def read(name, offset=0, limit=0):
    return field(1, name) + field(2, offset) + field(3, limit)


def write(name, offset, content, finish=False):
    return field(1, name) + field(2, offset) + field(3, finish and 1) + field(10, content)


def query_write_status(name):
    return field(1, name)


CAS = "/build.bazel.remote.execution.v2.ContentAddressableStorage/"
FIND_MISSING = CAS + "FindMissingBlobs"
BATCH_UPDATE = CAS + "BatchUpdateBlobs"
BATCH_READ = CAS + "BatchReadBlobs"
CAPABILITIES = "/build.bazel.remote.execution.v2.Capabilities/GetCapabilities"
STREAM = "/google.bytestream.ByteStream/"
READ = STREAM + "Read"
WRITE = STREAM + "Write"
QUERY = STREAM + "QueryWriteStatus"

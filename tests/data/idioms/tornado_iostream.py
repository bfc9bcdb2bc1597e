"""Tornado, streams: reading until a pattern matches."""
# pattern: b'\\r?\\n\\r?\\n'
from tornado.iostream import IOStream
async def head(stream: IOStream) -> bytes:
    return await stream.read_until_regex(rb"\r?\n\r?\n")

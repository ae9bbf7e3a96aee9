#!/usr/bin/env python3
"""Reads a key's values and writes one in their place: siblings.py ADDR BUCKET KEY [JOINER]

Without JOINER the values are printed, each behind its tag, and then the context. With it they are joined by it, in order, and
the result is put with the context that they came with, so that it takes the place of all of them. A delete among them is no value: it is
printed as one, and not joined.
"""
import email.parser
import email.policy
import http.client
import sys
import urllib.parse


def read(connection, path):
    """The siblings of a key as pairs of a tag and bytes, None for a delete, and their context, which a key that was never written has not."""
    connection.request("GET", path, headers={"Accept": "multipart/mixed"})
    answer = connection.getresponse()
    body = answer.read()
    context = answer.getheader("X-Riak-Vclock")
    if answer.status == 404:
        return [], context
    if answer.status == 200:
        return [("", body)], context
    if answer.status != 300:
        raise SystemExit(f"{answer.status} {body.decode()}")
    head = f"Content-Type: {answer.getheader('Content-Type')}\r\n\r\n".encode()
    parts = email.parser.BytesParser(policy=email.policy.HTTP).parsebytes(head + body)
    return [(part["X-Riak-Tag"], value_of(part)) for part in parts.iter_parts()], context


def value_of(part):
    """The bytes of a sibling, or None where it is a delete."""
    return None if part["X-Riak-Deleted"] else part.get_payload(decode=True)


def write(connection, path, value, context):
    """Puts a value in the place of all that the context counts, and gives the tag of the write."""
    headers = {"Content-Type": "text/plain"}
    if context:
        headers["X-Riak-Vclock"] = context
    connection.request("PUT", path, body=value, headers=headers)
    answer = connection.getresponse()
    told = answer.read()
    if answer.status != 204:
        raise SystemExit(f"{answer.status} {told.decode()}")
    return answer.getheader("X-Riak-Tag")


def main(address, bucket, key, *joiner):
    connection = http.client.HTTPConnection(address)
    path = "/buckets/{}/keys/{}".format(*(urllib.parse.quote(it, safe="") for it in (bucket, key)))
    values, context = read(connection, path)
    if joiner:
        joined = joiner[0].encode().join(value for _, value in values if value is not None)
        print(write(connection, path, joined, context))
        return
    for tag, value in values:
        print(tag or "-", "deleted" if value is None else value.decode())
    print(context or "-")


main(*sys.argv[1:])

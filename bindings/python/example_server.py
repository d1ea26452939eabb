"""A server of one document by asyncio, and two clients that write into it. Each message is a line of JSON.

usage: PYTHONPATH=bindings/python python3 bindings/python/example_server.py
"""

import asyncio
import json

from gezhufet import Authority

SCHEMA = {"nodes": [{"name": "doc", "content": "paragraph+"}, {"name": "paragraph", "content": "text*"}, {"name": "text"}]}


async def serve(authority: Authority, reader: asyncio.StreamReader, writer: asyncio.StreamWriter) -> None:
    """Hands each message of a client to the authority, and the answer back."""
    async for line in reader:
        writer.write(json.dumps(authority.tell(json.loads(line))).encode() + b"\n")
        await writer.drain()
    writer.close()


async def write(port: int, name: str, text: str) -> None:
    """A client that inserts letters at the front, and takes what others wrote in between."""
    reader, writer = await asyncio.open_connection("127.0.0.1", port)

    async def ask(message: dict) -> dict:
        writer.write(json.dumps(message).encode() + b"\n")
        return json.loads(await reader.readline())

    version = 0
    for letter in text:
        slice_ = {"content": [{"type": "text", "text": letter}]}
        step = {"stepType": "replace", "from": 1, "to": 1, "slice": slice_}
        while True:
            answer = await ask({"op": "submit", "version": version, "clientID": name, "steps": [step]})
            if "accepted" in answer:
                version += 1
                break
            # Others were first. A step at the front stays as it is, whatever they wrote.
            version = (await ask({"op": "since", "version": version}))["version"]
        await asyncio.sleep(0)
    writer.close()


async def main() -> None:
    with Authority(SCHEMA) as authority:
        server = await asyncio.start_server(lambda r, w: serve(authority, r, w), "127.0.0.1", 0)
        port = server.sockets[0].getsockname()[1]
        await asyncio.gather(write(port, "ann", "olleH"), write(port, "bob", "12345"))
        server.close()
        print(authority.version, "steps:", authority.doc["content"][0]["content"][0]["text"])


asyncio.run(main())

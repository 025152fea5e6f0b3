"""A stand-in for the tunnels of a member on a machine of its own: each byte is passed on late.

usage: tests/support/relay.py OWN MILLISECONDS PORT.. | tests/support/relay.py --at PORT TARGET MILLISECONDS

The member dials its peers on their PORTs of 127.0.0.1, as the file of ports says. There this relay listens in their
place, and passes each connection on to the peer's machine, where the peer's own relay hands it to the peer. With --at
it listens on one PORT alone, before TARGET on the same machine, until its standard input ends.
"""

import asyncio
import json
import os
import subprocess
import sys

ADDRESS = "10.99.0.{}"
TUNNEL = 20_999
PIECE = 65_536


def address(member):
    return ADDRESS.format(member + 1)


class Relayed:
    """A group of which each member dials the others by way of relays."""

    def start(self, own, ports="ports", options=()):
        dialed = [self.ports[it] if it == own else self.relays[it] for it in range(self.members)]
        with open(os.path.join(self.place.name, f"ports-{own}"), "w", encoding="ascii") as file:
            json.dump({"ports": dialed}, file)
        return super().start(own, f"ports-{own}", options)


async def pass_on(reader, writer, seconds):
    """Passes bytes on in their order, each so much later, and then the end."""
    loop, queue = asyncio.get_running_loop(), asyncio.Queue()

    async def write():
        try:
            while True:
                due, piece = await queue.get()
                await asyncio.sleep(max(0, due - loop.time()))
                if not piece:
                    break
                writer.write(piece)
                await writer.drain()
        except OSError:
            pass
        finally:
            writer.close()

    writing = asyncio.create_task(write())
    piece = b"?"
    while piece:
        try:
            piece = await reader.read(PIECE)
        except OSError:
            piece = b""
        queue.put_nowait((loop.time() + seconds, piece))
    await writing


def relay(host, port, seconds):
    """Answers a connection by one to there, and passes both ways on."""

    async def answer(reader, writer):
        try:
            there = await asyncio.open_connection(host, port)
        except OSError:
            writer.close()
            return
        await asyncio.gather(pass_on(reader, there[1], seconds), pass_on(there[0], writer, seconds))

    return answer


# Those that this process started, which end with it.
STARTED = []


def relays_at(ports, targets, seconds):
    """Relays at these ports of this machine, each before its target, in processes of their own: in one that polls nodes
    they would wait for it."""
    for port, target in zip(ports, targets):
        words = [sys.executable, "-B", __file__, "--at", f"{port}", f"{target}", f"{1000 * seconds}"]
        STARTED.append(subprocess.Popen(words, stdin=subprocess.PIPE, stdout=subprocess.PIPE))
        if not STARTED[-1].stdout.readline():
            sys.exit(f"relay: no one listens at port {port}")
    return ports


async def at(port, target, seconds):
    ended = asyncio.Event()
    asyncio.get_running_loop().add_reader(sys.stdin, ended.set)
    async with await asyncio.start_server(relay("127.0.0.1", target, seconds), "127.0.0.1", port):
        print("open", flush=True)
        await ended.wait()


async def main(own, seconds, ports):
    servers = [await asyncio.start_server(relay("127.0.0.1", ports[own], 0), address(own), TUNNEL)]
    for peer, port in enumerate(ports):
        if peer != own:
            servers.append(await asyncio.start_server(relay(address(peer), TUNNEL, seconds), "127.0.0.1", port))
    await asyncio.gather(*(server.serve_forever() for server in servers))


if __name__ == "__main__":
    if sys.argv[1:] == ["--help"]:
        sys.exit(print(__doc__.strip()))
    if sys.argv[1] == "--at":
        sys.exit(asyncio.run(at(int(sys.argv[2]), int(sys.argv[3]), float(sys.argv[4]) / 1000)))
    asyncio.run(main(int(sys.argv[1]), int(sys.argv[2]) / 1000, [int(word) for word in sys.argv[3:]]))

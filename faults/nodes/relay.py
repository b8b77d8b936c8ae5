"""A relay between a node's host and its NATS server, which stands for a bad network where nobody may make a real one:
it holds bytes back, stops for a while, and breaks connections, with all that is on its way in them."""
import asyncio
import threading

SIZE = 65536


class Relay:
    """Moves the bytes of each connection to `port` of the loopback address. Its own port is in `own_port`."""

    def __init__(self, port):
        self.port, self.own_port = port, None
        self.delay = 0.0    # seconds that each piece of bytes is held back
        self.open = asyncio.Event()
        self.writers = set()

    async def start(self):
        self.open.set()
        server = await asyncio.start_server(self.accept, "127.0.0.1", 0)
        self.own_port = server.sockets[0].getsockname()[1]

    async def accept(self, reader, writer):
        try:
            there, back = await asyncio.open_connection("127.0.0.1", self.port)
        except OSError:
            writer.close()
            return
        ends = {writer, back}
        self.writers |= ends
        await asyncio.wait([asyncio.create_task(self.move(reader, back)), asyncio.create_task(self.move(there, writer))],
                           return_when=asyncio.FIRST_COMPLETED)
        self.writers -= ends
        for end in ends:
            end.transport.abort()

    async def move(self, reader, writer):
        try:
            while data := await reader.read(SIZE):
                await self.open.wait()
                await asyncio.sleep(self.delay)
                writer.write(data)
                await writer.drain()
        except OSError:
            return

    def break_all(self):
        for writer in list(self.writers):
            writer.transport.abort()


class Relays:
    """A relay for each node, all in a thread of their own. The functions may be called from any thread."""

    def __init__(self, numbers, port):
        self.loop = asyncio.new_event_loop()
        self.thread = threading.Thread(target=self.loop.run_forever, daemon=True)
        self.thread.start()
        self.relays = {number: Relay(port) for number in numbers}
        for relay in self.relays.values():
            asyncio.run_coroutine_threadsafe(relay.start(), self.loop).result(10)

    def ports(self):
        return {number: relay.own_port for number, relay in self.relays.items()}

    def delay(self, number, seconds):
        self.relays[number].delay = seconds

    def hold(self, number):
        """Nothing passes any more; what comes waits."""
        self.loop.call_soon_threadsafe(self.relays[number].open.clear)

    def let_pass(self, number):
        self.loop.call_soon_threadsafe(self.relays[number].open.set)

    def break_all(self, number):
        self.loop.call_soon_threadsafe(self.relays[number].break_all)

    def stop(self):
        self.loop.call_soon_threadsafe(self.loop.stop)
        self.thread.join()

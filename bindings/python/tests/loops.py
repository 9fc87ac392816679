"""Runs coroutines in asyncio's debug mode: nothing may be left afterwards, and nothing may have been warned of."""
import asyncio
import contextlib
import gc
import logging
import os
import traceback

import pytest
from toys import configs

from yulimosar import memory, open_connection, start_server

LOOPS = ["asyncio", "uvloop"]
factories = [None]    # that of the loop of this test
_extract = traceback.StackSummary.extract


def _last_frame(frames, *, lookup_lines=True, limit=None, **words):
    """In debug mode the loops ask for ten frames of each call and task, without their lines. That took more than half
    of the time of the tests: they get the last one."""
    return _extract(frames, lookup_lines=lookup_lines, limit=limit if lookup_lines else 1, **words)


traceback.StackSummary.extract = _last_frame


@pytest.fixture(params=LOOPS)
def each_loop(request):
    """Runs a test with asyncio's loop, and with uvloop's."""
    if request.param == "uvloop":
        uvloop = pytest.importorskip("uvloop", reason="python3-uvloop isn't installed")
        factories.append(uvloop.new_event_loop)
        with asyncio.Runner(loop_factory=uvloop.new_event_loop) as first:    # which opens what all later ones share
            first.run(asyncio.sleep(0))
    yield request.param
    del factories[1:]


def descriptors():
    return set(os.listdir("/proc/self/fd"))


def open_keys():
    gc.collect()
    return sum(not struct.closed for struct in list(memory._all))


class Log(logging.Handler):
    """What asyncio and this package say."""

    def __init__(self):
        super().__init__()
        self.warned, self.lines = [], []

    def emit(self, record):
        if record.name == "yulimosar":
            self.lines.append(record.getMessage())
        elif record.levelno >= logging.WARNING:
            self.warned.append(record.getMessage())


async def until(condition):
    """Waits for something that has to happen."""
    async with asyncio.timeout(30):
        while not condition():
            await asyncio.sleep(0.005)


async def settle():
    """Lets the loop do what is left to do."""
    for _ in range(100):
        await asyncio.sleep(0.01 if _ == 50 else 0)


def run(main, *, faults=0, seconds=120, debug=True):
    """Runs `main(log)` and what it leaves; `faults` is how many errors the loop's exception handler is to get."""
    gc.collect()
    before, keys, log, caught = descriptors(), open_keys(), Log(), []
    loggers = [logging.getLogger("asyncio"), logging.getLogger("yulimosar")]
    for logger in loggers:
        logger.addHandler(log)
        logger.setLevel(logging.INFO if debug else logging.WARNING)
        logger.propagate = False    # pytest would keep the lines
    try:
        with asyncio.Runner(debug=debug, loop_factory=factories[-1]) as runner:
            loop = runner.get_loop()
            loop.slow_callback_duration = 60
            loop.set_exception_handler(lambda _loop, context: caught.append(context))
            result = runner.run(asyncio.wait_for(main(log), seconds))
            runner.run(settle())
            gc.collect()
            runner.run(settle())
    finally:
        for logger in loggers:
            logger.removeHandler(log)
            logger.propagate = True
    assert len(caught) == faults, caught
    assert not log.warned, log.warned
    assert not descriptors() - before and open_keys() <= keys
    return result


@contextlib.asynccontextmanager
async def server_of(handler, config, **words):
    """A server at a free port of 127.0.0.1; its address."""
    server = await start_server(handler, "127.0.0.1", 0, config, **words)
    try:
        yield server.sockets[0].getsockname()
    finally:
        server.close()
        await server.wait_closed()


async def echo(reader, writer):
    async with writer:
        while data := await reader.read(65536):
            writer.write(data)
            await writer.drain()


@contextlib.asynccontextmanager
async def connected(pattern="XX", handler=echo, limit=2 ** 16, **words):
    """A reader and a writer at a server with this handler."""
    client, server = configs(pattern, **words)
    async with server_of(handler, server) as address:
        reader, writer = await open_connection(*address, client, limit=limit)
        try:
            yield reader, writer
        finally:
            writer.abort()
            await settle()

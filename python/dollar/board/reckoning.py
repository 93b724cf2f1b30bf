"""Hints in a process of Python's own, so that the server goes on meanwhile and nobody else waits for them."""
from __future__ import annotations

import asyncio
import contextlib
import json
import os
import signal
import sys
from pathlib import Path
from typing import Any

from dollar.board.ways import hint
from dollar._program import PATIENCE

ROOT = Path(__file__).resolve().parents[2]
# The longest line of the process, and how long one may take.
MOST, LONGEST = 1 << 16, 2 * PATIENCE


class Reckoner:
    """Answers one question after another. Its process starts with the first of them, and ends when its input does, so also when the server
    is killed; a pool of the library would stay behind then."""

    def __init__(self) -> None:
        self.child: Any = None
        self.turn = asyncio.Lock()

    async def hint(self, text: str) -> dict[str, Any]:
        """A move that helps on a table. Raises ValueError where the process has ended."""
        async with self.turn:
            if self.child is None or self.child.returncode is not None:
                paths = os.pathsep.join(filter(None, [str(ROOT), os.environ.get("PYTHONPATH")]))
                self.child = await asyncio.create_subprocess_exec(
                    sys.executable, "-B", "-m", __name__, stdin=asyncio.subprocess.PIPE, stdout=asyncio.subprocess.PIPE, limit=MOST,
                    stderr=asyncio.subprocess.DEVNULL, start_new_session=True, env={**os.environ, "PYTHONPATH": paths})
            with contextlib.suppress(ConnectionError):
                self.child.stdin.write(json.dumps(text).encode() + b"\n")
                await self.child.stdin.drain()
            try:
                line = await asyncio.wait_for(self.child.stdout.readline(), LONGEST)
                said: dict[str, Any] = json.loads(line)
            except (asyncio.TimeoutError, ValueError):
                await self.end()
                raise ValueError("the hints have ended") from None
            if "fault" in said:
                raise ValueError(said["fault"])
            return said

    async def end(self) -> None:
        """Ends the process, and with it what it is asked now."""
        if self.child is not None and self.child.returncode is None:
            # Not by its own method, which would take its status before the loop does if it has ended already.
            with contextlib.suppress(ProcessLookupError):
                os.kill(self.child.pid, signal.SIGKILL)
            await self.child.wait()


def main() -> None:
    """Answers each line of the input, a table as a text of JSON, by a line."""
    for line in sys.stdin:
        try:
            said = hint(json.loads(line))
        except Exception as fault:
            said = {"fault": str(fault)}
        print(json.dumps(said), flush=True)


if __name__ == "__main__":
    main()

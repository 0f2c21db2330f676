"""Prints a page by aiohttp, with its time limit and its check of the status."""
import asyncio
import sys

import aiohttp


async def main() -> None:
    limit = aiohttp.ClientTimeout(total=1)
    async with aiohttp.ClientSession(timeout=limit, raise_for_status=True) as session, session.get(sys.argv[1]) as answer:
        sys.stdout.buffer.write(await answer.read())


asyncio.run(main())

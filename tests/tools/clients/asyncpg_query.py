"""A query by asyncpg, with its time limits, and a connection that is closed in any case."""
import asyncio
import sys

import asyncpg


async def main() -> None:
    host, port = sys.argv[1:]
    connection = await asyncpg.connect(host=host, port=int(port), user="postgres", timeout=1, command_timeout=1)
    try:
        print(await connection.fetchval("SELECT 7"))
    finally:
        await connection.close()


asyncio.run(main())

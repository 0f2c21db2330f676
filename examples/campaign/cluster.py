"""Searches by the workers of a Dask cluster. Usage: cluster.py SCHEDULER SHOP, both as host:port."""
import sys

from distributed import Client
from toxi import Search


def main(scheduler: str, shop: str) -> None:
    """Prints what was found, and how far the search came."""
    with Client(scheduler, timeout=60) as cluster:
        search = Search({"shop": shop}, "reads_page:reads_page", allowed="http", within=30.0, executor=cluster.get_executor())
        print(search.find(runs=20, faults=["closed"], stream="downstream"))


if __name__ == "__main__":
    main(*sys.argv[1:])

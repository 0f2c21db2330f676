"""CSV: rows and fields are counted, but the last field may be cut: an amount of 98431 becomes one of 984."""
import csv

from shared import Fault, Link, main

ROWS = [("id", "name", "amount")] + [(str(place), f"customer number {place}", str(place * 7919 % 100_000)) for place in range(1, 41)]
TEXT = "\r\n".join(",".join(row) for row in ROWS)
RIGHT = sum(int(row[2]) for row in ROWS[1:])


def serve(handler):
    if handler.rfile.readline() == b"export\n":
        handler.wfile.write(b"%d rows\n" % len(ROWS))
        for line in TEXT.encode().splitlines(keepends=True):
            handler.wfile.write(line)
        handler.wfile.write(b"\r\n")


def _total(addresses, is_whole):
    with Link(addresses["shop"], 0.5) as link:
        count = int(link.ask(b"export").split()[0])
        text = link.rest().decode()
    rows = [row for row in csv.reader(text.splitlines()) if row]
    if len(rows) != count or any(len(row) != 3 or not row[2] for row in rows) or not is_whole(text):
        raise ConnectionError("the export is cut")
    return sum(int(row[2]) for row in rows[1:])


def client(addresses):
    return _total(addresses, lambda text: True)


def fixed(addresses):
    return _total(addresses, lambda text: text.endswith("\r\n"))


ALLOWED = OSError
WITHIN = 3.0
SERVICES = {"shop": serve}
# Amid the last amount, of 5 digits.
FAULT = Fault("shop", "downstream", "limit_data", {"bytes": len(b"41 rows\n") + len(TEXT) - 3})
if __name__ == "__main__":
    main()

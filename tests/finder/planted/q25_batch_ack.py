"""Queue: messages are acknowledged by fives. After a cut inside a batch those that were handled come again, and count twice."""
from shared import Fault, Link, lines, main, reset

COUNT, BATCH = 20, 5
RIGHT = sum(range(1, COUNT + 1))


def serve(handler):
    for line in lines(handler):
        word, *rest = line.split()
        if word == b"ack":
            handler.state.put("acked", max(int(rest[0]), handler.state.get("acked", 0)))
        elif word == b"consume":
            for number in range(handler.state.get("acked", 0) + 1, COUNT + 1):
                handler.wfile.write(b"%d amount %d\n" % (number, number))


def _consume(addresses, skips_known):
    total, last, failed = 0, 0, None
    for _ in range(3):
        try:
            with Link(addresses["queue"], 0.4) as link:
                link.send(b"consume\n")
                while last < COUNT:
                    number, _, amount = link.line().split()
                    if skips_known and int(number) <= last:
                        continue
                    total, last = total + int(amount), int(number)
                    if last % BATCH == 0:
                        link.send(b"ack %d\n" % last)
            return total
        except OSError as error:
            failed = error
            last = last if skips_known else 0
    raise ConnectionError("three tries failed") from failed


def client(addresses):
    return _consume(addresses, skips_known=False)


def fixed(addresses):
    return _consume(addresses, skips_known=True)


before = reset
ALLOWED = OSError
WITHIN = 3.0
SERVICES = {"queue": serve}
# Behind the seventh message.
FAULT = Fault("queue", "downstream", "limit_data", {"bytes": 7 * len(b"1 amount 1\n")})
if __name__ == "__main__":
    main()

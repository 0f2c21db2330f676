"""The cases, in the order in which they are registered."""

# Of links: the steps, how many links they have, the toxic that meets these, and the listener's host and proxy's name.
CASES = []
# Of processes that serve no link.
STARTS = []


def case(links, toxic=None, stream="downstream", toxicity=1000, name="shop", host="127.0.0.1"):
    """Registers a case of so many links. A toxic with its attributes meets these links, and not the one after them."""
    told = {"type": toxic[0], "attributes": toxic[1], "stream": stream, "toxicity": toxicity} if toxic else None

    def register(steps):
        CASES.append((steps, links, told, name, host))
        return steps

    return register


def start(steps):
    """Registers a case that starts processes of its own, from a program and a folder."""
    STARTS.append(steps)
    return steps

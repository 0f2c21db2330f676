"""What a checker of types refuses. An `ignore` that isn't needed is an error of `mypy --strict`, so each of these lines is wrong."""
from toxi import Bandwidth, Latency, Slicer

Bandwidth()  # type: ignore[call-arg]
Slicer(delay=1)  # type: ignore[call-arg]
Bandwidth(rate=1, speed=2)  # type: ignore[call-arg]
Latency(latency=1, stream="down")  # type: ignore[arg-type]
Slicer(average_size=1, stream="up")  # type: ignore[arg-type]

"""`KeptConversation`: what the runs of a client without a fault showed, and its time limits, as a file that shards read."""
import hashlib
import json
from dataclasses import asdict, dataclass, field
from pathlib import Path
from typing import Any, Dict, Iterable, List, Mapping, Tuple

from .. import __version__
from ..conversations import StreamBytes
from ..errors import ToxiError
from ..fault_points import FaultPoint
from ..lines import Link
from .cases import Case
from .conversation import Conversation, TimeLimit
from .running import Called


@dataclass(frozen=True)
class KeptConversation:
    """The conversation of a client with upstreams of these names, and the connections that silence has called forth."""

    upstreams: Tuple[str, ...]
    conversation: Conversation
    called: Called = field(default_factory=dict)

    @property
    def text(self) -> str:
        """The text of its file. It has no address."""
        members = {
            "version": __version__,
            "upstreams": list(self.upstreams),
            "streams": [stream.members() for stream in self.conversation.streams],
            "limits": [asdict(limit) for limit in self.conversation.limits],
            "called": [{"point": str(case.point), "link": asdict(link)} for case, link in self.called.values()],
        }
        return json.dumps(members, indent=1) + "\n"

    @property
    def digest(self) -> str:
        """By which two files are told apart."""
        return hashlib.sha256(self.text.encode()).hexdigest()[:16]

    @property
    def summary(self) -> str:
        """How much it has, in words."""
        links = {stream.key[:2] for stream in self.conversation.streams}
        return f"connections: {len(links)}, bytes: {sum(stream.bytes for stream in self.conversation.streams)}, time limits: {len(self.conversation.limits)}"

    def require_upstreams(self, names: Iterable[str]) -> None:
        """Raises `ToxiError` for a client with upstreams of other names."""
        if set(names) != set(self.upstreams):
            raise ToxiError(f"the conversation is one with the upstreams {', '.join(self.upstreams)}, and the client has {', '.join(names)}")


def read_conversation(path: Path) -> KeptConversation:
    """The conversation of a file. Raises `ToxiError` where it has none, or was written by another version."""
    try:
        members: Dict[str, Any] = json.loads(path.read_text(encoding="utf-8"))
        version = members["version"]
        if version == __version__:
            return _read(members)
    except (OSError, ValueError, KeyError, TypeError, AttributeError) as error:
        raise ToxiError(f"{path} can't be read as a conversation: {type(error).__name__}: {error}") from None
    raise ToxiError(f"{path} was written by toxi {version}, and this is {__version__}")


def _read(members: Mapping[str, Any]) -> KeptConversation:
    streams: List[StreamBytes] = [StreamBytes.of_members(stream) for stream in members["streams"]]
    limits = tuple(TimeLimit(**limit) for limit in members["limits"])
    links = [(Case.of(FaultPoint.parsed(each["point"])), Link(**each["link"])) for each in members["called"]]
    return KeptConversation(tuple(members["upstreams"]), Conversation(streams, limits), {(link.proxy, link.number): (case, link) for case, link in links})

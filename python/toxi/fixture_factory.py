"""The factory of the fixtures where a suite remembers the faults that its searches find."""
from dataclasses import replace
from pathlib import Path
from typing import Any, Mapping, Union

from .factory import FixtureSearch, ToxiFactory
from .outcomes import Client


class RememberingFactory(ToxiFactory):
    """A `ToxiFactory` whose searches remember what they find in the folder `faults`, by the id of the test that runs, `test_id`."""

    faults: Path
    test_id: str

    def search(self, upstreams: Mapping[str, str], client: Union[Client, str], **options: Any) -> FixtureSearch:
        """As `ToxiFactory.search`, with a memory."""
        return replace(super().search(upstreams, client, **options), remember=self.faults, name=self.test_id)

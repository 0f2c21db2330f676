"""The old names of `KeptRun` and `KeptRuns`."""
from ._search.kept_runs import KeptRun as Trial
from ._search.kept_runs import KeptRuns as Trials

__all__ = ["Trial", "Trials"]

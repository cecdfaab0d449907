"""What the installed commands run: each tool as `maft-NAME`."""
from __future__ import annotations

from . import campaign as _campaign
from . import check as _check
from . import cluster as _cluster
from . import cluster_agent as _cluster_agent
from . import end
from . import explain as _explain
from . import log as _log
from . import promises as _promises
from . import scenario as _scenario
from . import summary as _summary


def campaign() -> None:
    """maft-campaign."""
    end("maft-campaign", _campaign.main)


def check() -> None:
    """maft-check."""
    end("maft-check", _check.main)


def cluster() -> None:
    """maft-cluster."""
    end("maft-cluster", _cluster.main)


def cluster_agent() -> None:
    """maft-cluster-agent."""
    end("maft-cluster-agent", _cluster_agent.main)


def explain() -> None:
    """maft-explain."""
    end("maft-explain", _explain.main)


def log() -> None:
    """maft-log."""
    end("maft-log", _log.main)


def promises() -> None:
    """maft-promises."""
    end("maft-promises", _promises.main)


def scenario() -> None:
    """maft-scenario."""
    end("maft-scenario", _scenario.main)


def summary() -> None:
    """maft-summary."""
    end("maft-summary", _summary.main)

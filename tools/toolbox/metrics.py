"""What a report tells in all, as metrics of Prometheus: its text exposition format (docs/JSON.md)."""
from __future__ import annotations

from dataclasses import dataclass
from typing import TYPE_CHECKING, Dict, Iterator, List, Mapping

from toolbox.commands import printable

if TYPE_CHECKING:
    from toolbox.reports import Totals

DROPPED = "drop "
THROUGH = ("passed", "local")


@dataclass(frozen=True)
class Sample:
    """A number, with the labels that tell it from others of its metric."""

    labels: Mapping[str, str]
    value: int


@dataclass(frozen=True)
class Metric:
    """A name, what it is, and its samples. All are gauges: the next run may be of another capture."""

    name: str
    text: str
    samples: List[Sample]

    def lines(self) -> Iterator[str]:
        yield f"# HELP {self.name} {self.text}"
        yield f"# TYPE {self.name} gauge"
        for sample in self.samples:
            labels = ",".join(f'{name}="{escaped(value)}"' for name, value in sample.labels.items())
            yield f"{self.name}{{{labels}}} {sample.value}" if labels else f"{self.name} {sample.value}"


def escaped(value: str) -> str:
    """The value of a label: what isn't printable stands in hexadecimal, as commands print it."""
    return printable(value).replace("\\", "\\\\").replace('"', '\\"')


def metrics_of(report: Totals) -> Iterator[Metric]:
    """The totals and counters of a report; those alone that it has."""
    totals = report.totals
    yield Metric("nftrun_complete", "Whether the run is whole and so is its capture.",
                 [Sample({}, int(totals.get("torn") == 0))])
    for name, total, text in (("nftrun_records", "records", "Records of the capture."),
                              ("nftrun_connections_begun", "begun", "Connections created."),
                              ("nftrun_connections_live", "live", "Connections that live at the end.")):
        if total in totals:
            yield Metric(name, text, [Sample({}, totals[total])])
    outcomes = [Sample({"outcome": name.replace(DROPPED, "", 1)}, number) for name, number in totals.items()
                if name in THROUGH or name.startswith(DROPPED)]
    packets, octets = list[Sample](), list[Sample]()
    for counter in report.counters:
        labels: Dict[str, str] = {"chain": counter.chain, "rule": str(counter.rule), "counter": str(counter.which)}
        packets.append(Sample(labels, counter.packets))
        octets.append(Sample(labels, counter.bytes))
    for metric in (Metric("nftrun_outcome_records", "Records by how they ended.", outcomes),
                   Metric("nftrun_rule_packets", "Packets of a rule's counter.", packets),
                   Metric("nftrun_rule_bytes", "Bytes of a rule's counter.", octets)):
        if metric.samples:
            yield metric

"""What is exported for Prometheus, and that the dashboard and the alerts name nothing else."""

import json
import re
import subprocess
from collections.abc import Iterator
from pathlib import Path
from typing import Any

import yaml  # type: ignore[import]
from prometheus_client.parser import text_string_to_metric_families

import needed

needed.library()

from hourstable import task as tasks  # noqa: E402
from hourstable.metrics import Metrics, Shown  # noqa: E402
from serving import running  # noqa: E402
from stores import opened  # noqa: E402
from test_page import begun  # noqa: E402

TOP = Path(__file__).resolve().parents[2]
ALERTS = TOP / "packaging/prometheus/alerts.yml"
DASHBOARD = TOP / "packaging/grafana/hourstable.json"
NAME = re.compile(r"\bhourstable_\w+")


def families_of(text: str) -> Iterator[Any]:
    return iter(text_string_to_metric_families(text))  # type: ignore[no-untyped-call]


def exported_by_a_task() -> str:
    metrics = tasks.Metrics("shop", 1)
    metrics.denied("ended")
    metrics.heard("guard")
    metrics.wrong_answer("401")
    metrics.internal_error("on_lose")
    return metrics.text().decode()


async def exported_by_a_plane(tmp_path: Path) -> str:
    """What a plane exports that has done calls of each sort."""
    async with (
        opened(f"sqlite:{tmp_path}/jobs") as store,
        running(store, tmp_path / "logs") as (plane, caller),
    ):
        await begun(caller)
        await caller.grant(1)
        await caller.post("take", {"assigner": 2})
        plane.metrics.limited.labels("grants").inc()
        plane.metrics.restored("shop")
        plane.metrics.replaced("shop")
        plane.metrics.stored("swap", 0.0, True)
        plane.metrics.reloads.labels("failed").inc()
        return (await caller.ask("GET", "/metrics")).body.decode()


async def names_and_labels(tmp_path: Path) -> dict[str, set[str]]:
    """Returns the names of all samples, and the labels that each has."""
    found: dict[str, set[str]] = {}
    for text in (exported_by_a_task(), await exported_by_a_plane(tmp_path)):
        for family in families_of(text):
            for sample in family.samples:
                found.setdefault(sample.name, set()).update(sample.labels)
    return found


async def test_names_units_and_texts(tmp_path: Path) -> None:
    for text in (exported_by_a_task(), await exported_by_a_plane(tmp_path)):
        for family in families_of(text):
            assert re.fullmatch("hourstable(_[a-z]+)+", family.name), family.name
            assert re.fullmatch(r"[A-Z0-9].*\.", family.documentation), family.name
            samples = {it.name for it in family.samples if not it.name.endswith("_created")}
            if family.type == "counter":
                assert samples <= {f"{family.name}_total"}
            elif family.type == "histogram":
                assert family.name.endswith("_seconds")
                ends = {f"{family.name}_{end}" for end in ("bucket", "count", "sum")}
                assert samples <= ends
            else:
                assert family.type == "gauge" and samples <= {family.name}
                assert not family.name.endswith(("_total", "_count", "_sum", "_bucket"))
            assert not re.search("_(ms|milliseconds|minutes|kb|percent)$", family.name)


def test_gauges_of_a_job_have_texts() -> None:
    text = Metrics().text([Shown("shop", {"rows": 1.0})]).decode()
    assert "# HELP hourstable_rows " in text


def expressions_of_the_dashboard() -> list[str]:
    board = json.loads(DASHBOARD.read_text(encoding="utf-8"))
    panels = [it for it in board["panels"] if it["type"] != "row"]
    assert len({it["id"] for it in board["panels"]}) == len(board["panels"])
    assert all(it["description"] and it["targets"] for it in panels)
    variables = [it["definition"] for it in board["templating"]["list"] if "definition" in it]
    return [target["expr"] for it in panels for target in it["targets"]] + variables


def rules() -> list[dict[str, Any]]:
    loaded = yaml.safe_load(ALERTS.read_text(encoding="utf-8"))
    found = [rule for group in loaded["groups"] for rule in group["rules"]]
    assert all({"alert", "expr", "labels", "annotations"} <= set(it) for it in found)
    return found


def unknown_in(expression: str, exported: dict[str, set[str]]) -> set[str]:
    """Returns the metrics and labels of an expression that are not exported."""
    text = re.sub(r'"[^"]*"', '""', expression)
    names = set(NAME.findall(text))
    unknown = names - set(exported)
    labels = {"le", "instance"}.union(*(exported[name] for name in names & set(exported)))
    for found in re.findall(r"\b(?:by|on) \(([^)]*)\)|\{([^}]*)\}", text):
        for part in filter(None, re.split(r"[,\s]+", " ".join(found))):
            label = re.split(r"[=!~]", part)[0]
            if names and label not in labels:
                unknown.add(label)
    return unknown


async def test_the_dashboard_names_what_is_exported(tmp_path: Path) -> None:
    exported = await names_and_labels(tmp_path)
    for expression in expressions_of_the_dashboard():
        assert NAME.search(expression), expression
        assert unknown_in(expression, exported) == set(), expression


async def test_the_alerts_name_what_is_exported(tmp_path: Path) -> None:
    exported = await names_and_labels(tmp_path)
    for rule in rules():
        assert NAME.search(rule["expr"]) or rule["expr"].startswith("up{"), rule
        assert unknown_in(rule["expr"], exported) == set(), rule
        for label in re.findall(r"\$labels\.(\w+)", rule["annotations"]["summary"]):
            assert label in rule["expr"] or label == "instance", rule


async def test_the_test_finds_unknown_names(tmp_path: Path) -> None:
    exported = await names_and_labels(tmp_path)
    assert unknown_in("rate(hourstable_calls[5m])", exported) == {"hourstable_calls"}
    assert unknown_in("sum by (tasks) (hourstable_rows)", exported) == {"tasks"}
    assert unknown_in('hourstable_rows{jobs="a"}', exported) == {"jobs"}


def test_each_alert_says_what_to_do() -> None:
    page = (TOP / "docs/OPERATIONS.md").read_text(encoding="utf-8")
    table = page[page.index("### When an alarm fires"):]
    for rule in rules():
        assert re.search(rf"^\|[^|]*`{rule['alert']}`", table, re.MULTILINE), rule["alert"]


RUNS = """
rule_files: [{alerts}]
evaluation_interval: 30s
tests:
  - interval: 30s
    input_series:
      - {{series: 'hourstable_job_failed{{job="shop", instance="plane-1:8070"}}', values: '0 1 1 1 1 0'}}
      - {{series: 'hourstable_job_failed{{job="shop", instance="plane-2:8070"}}', values: '0 0 0 0 0 0'}}
      - {{series: 'hourstable_job_failed{{job="cart", instance="plane-1:8070"}}', values: '0 1 0 1 0 1'}}
    alert_rule_test:
      - {{eval_time: 1m, alertname: HourstableJobFailed, exp_alerts: []}}
      - eval_time: 2m
        alertname: HourstableJobFailed
        exp_alerts:
          - exp_labels: {{severity: critical, job: shop, instance: "plane-1:8070"}}
            exp_annotations: {{summary: "Job shop does not work on the control plane plane-1:8070"}}
      - {{eval_time: 150s, alertname: HourstableJobFailed, exp_alerts: []}}
"""


def test_a_job_that_failed_for_a_minute_fires(tmp_path: Path) -> None:
    """On the plane where it does; one that fails for a moment at a time does not."""
    needed.command("promtool")
    runs = tmp_path / "runs.yml"
    runs.write_text(RUNS.format(alerts=ALERTS))
    ran = subprocess.run(["promtool", "test", "rules", runs], capture_output=True, text=True)
    assert ran.returncode == 0, ran.stdout + ran.stderr


def test_prometheus_reads_the_alerts() -> None:
    needed.command("promtool")
    ran = subprocess.run(["promtool", "check", "rules", ALERTS], capture_output=True, text=True)
    assert ran.returncode == 0, ran.stdout + ran.stderr

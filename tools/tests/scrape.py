#!/usr/bin/env python3
"""Has Prometheus scrape the metrics of a gateway, and compares what it stored with the gateway's status. Without
Prometheus it is not tried."""
import json
import os
import shutil
import subprocess
import sys
import urllib.parse
import urllib.request

from trying import expect_equal, try_cases

from gatewaying import free_port
from serving import LOOPBACK, PATIENCE, wait_for
from web import Web

PROMETHEUS = shutil.which(os.environ.get("PROMETHEUS", "prometheus"))

# Prometheus scrapes the gateway each second.
CONFIGURATION = """
global: {{ scrape_interval: 1s }}
scrape_configs:
- job_name: gateway
  static_configs: [ {{ targets: [ "{host}" ] }} ]
"""

# Each family that is compared, and its member of a tenant in the status.
FAMILIES = {"stridelink_tenant_sent_packets_total": "sent_packets", "stridelink_tenant_sent_bytes_total": "sent_bytes",
            "stridelink_tenant_taken_packets_total": "taken_packets", "stridelink_tenant_book_amount": "amount"}


def stored(port, family):
    """The last sample of a family by tenant, as Prometheus answers a query."""
    query = urllib.parse.urlencode({"query": family})
    try:
        with urllib.request.urlopen(f"http://{LOOPBACK}:{port}/api/v1/query?{query}", timeout=PATIENCE) as answer:
            results = json.load(answer)["data"]["result"]
    except OSError:
        return {}
    return {each["metric"]["tenant"]: int(float(each["value"][1])) for each in results}


def scraped(run):
    """The numbers that Prometheus has are those of the status."""
    web, port = Web(run, {"acme": 300, "bond": 100}), free_port()
    web.gateway.send("acme", range(30))
    web.gateway.send("bond", range(10))
    web.far.wait_for(40)
    folder = run.folder()
    path = os.path.join(folder, "prometheus.yml")
    with open(path, "w", encoding="utf-8") as file:
        file.write(CONFIGURATION.format(host=web.host))
    words = ["--config.file=" + path, "--storage.tsdb.path=" + os.path.join(folder, "data"),
             f"--web.listen-address={LOOPBACK}:{port}"]
    process = subprocess.Popen([PROMETHEUS, *words], stdout=subprocess.DEVNULL, stderr=subprocess.DEVNULL)
    run.stack.callback(process.wait)
    run.stack.callback(process.kill)
    wanted = {each["name"]: each for each in web.gateway.status()["tenants"]}
    for family, member in FAMILIES.items():
        numbers = {name: each[member] for name, each in wanted.items()}
        wait_for(lambda family=family, numbers=numbers: stored(port, family) == numbers, "a scrape of " + family)
        expect_equal(stored(port, family), numbers, family)
    web.gateway.end()


if PROMETHEUS:
    try_cases(scraped)
else:
    print("scrape.py: Prometheus is not there, and is not tried", file=sys.stderr)

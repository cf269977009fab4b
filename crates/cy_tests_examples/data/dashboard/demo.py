#!/usr/bin/env python3
"""Shows the live page: pumps of some stations, whose speeds and alarms change every second until Ctrl-C.

    python3 examples/dashboard/demo.py [PORT]

It starts clients/python/serve.py with nothing kept, and finds the program as that does.
"""
import random
import signal
import subprocess
import sys
import time
from contextlib import suppress
from pathlib import Path

CLIENTS = Path(__file__).resolve().parents[4] / "clients" / "python"
sys.path.insert(0, str(CLIENTS))

from cypher_live import Ended, Fault, Live, quote  # noqa: E402

# What serve.py answers once it ends: Ctrl-C reaches it too.
SERVICE_ENDED = 101
STATIONS = ["north", "south", "harbour"]
PUMPS = 9
VIEWS = {
    "parts": "MATCH (s:Station)-[r:HAS]->(p:Pump) RETURN s.name AS station, p.state AS state, p.name AS pump",
    "alarms": "MATCH (s:Station)-[:HAS]->(p:Pump)-[:RAISED]->(a:Alarm) RETURN s.name AS station, a.text AS alarm, p.name AS pump",
    "states": "MATCH (s:Station)-[:HAS]->(p:Pump) RETURN s.name AS station, p.state AS state",
    "fast": "MATCH (p:Pump) WHERE p.rpm > 1400 RETURN p.name AS pump, p.rpm AS rpm",
}


def build(live: Live) -> None:
    for name, query in VIEWS.items():
        live.view(name, query)
    for station in STATIONS:
        live.execute(f"CREATE (:Station {{name: {quote(station)}}})")
    for number in range(1, PUMPS + 1):
        station, name = quote(STATIONS[number % len(STATIONS)]), quote(f"p{number}")
        pump = f"(:Pump {{name: {name}, state: 'running', rpm: 1350}})"
        live.execute(f"MATCH (s:Station {{name: {station}}}) CREATE (s)-[:HAS]->{pump}")


def change(live: Live) -> None:
    """One thing that happens to one pump."""
    name, words = quote(f"p{random.randint(1, PUMPS)}"), quote(random.choice(["hot", "dry", "shakes"]))
    match = f"MATCH (p:Pump {{name: {name}}})"
    live.execute(
        random.choice([
            f"{match} SET p.rpm = {random.randint(1300, 1500)}, p.state = 'running'",
            f"{match} SET p.rpm = 0, p.state = 'stopped'",
            f"{match} CREATE (p)-[:RAISED]->(:Alarm {{text: {words}}})",
            f"{match}-[:RAISED]->(a:Alarm) DETACH DELETE a",
        ])
    )


def main() -> None:
    port = sys.argv[1] if len(sys.argv) > 1 else "8080"
    signal.signal(signal.SIGTERM, signal.default_int_handler)
    words = [sys.executable, str(CLIENTS / "serve.py"), "--tcp", "0", "--http", port]
    with subprocess.Popen(words, stdout=subprocess.PIPE, text=True) as server:
        assert server.stdout
        listening = [server.stdout.readline().split() for _ in range(2)]
        if not all(listening):
            sys.exit(server.wait())
        (_, host, lines), (_, _, page) = listening
        try:
            with Live.connect((host, int(lines))) as live:
                build(live)
                print(f"http://localhost:{page}/?view=alarms shows it; Ctrl-C ends it", flush=True)
                while True:
                    change(live)
                    time.sleep(1)
        except Fault as fault:
            if fault.code != SERVICE_ENDED:
                raise
        except Ended:
            pass
        finally:
            server.terminate()


if __name__ == "__main__":
    with suppress(KeyboardInterrupt):
        main()

"""Starts workers and gateways as processes of this host, and ends them."""
import json
import os
import signal
import subprocess
import sys
import time

from parts import HERE, build_of, fail

SECONDS_TO_END = 15


class Machines:
    """A context manager over a cluster's workers and gateways. Each ends with its standard input, and is killed with this process."""

    def __init__(self, cluster, programs, lease):
        self.cluster, self.programs, self.lease = cluster, programs, lease
        self.processes, self.gateways, self.outputs = {}, [], {}

    def _start(self, script, name, *words, **streams):
        surroundings = {**os.environ, "FLEET": self.cluster.target, "PYTHONDONTWRITEBYTECODE": "1"}
        process = subprocess.Popen(["setpriv", "--pdeathsig", "KILL", sys.executable, HERE / f"{script}.py", name, *words], env=surroundings,
                                   stdin=subprocess.PIPE, start_new_session=True, **streams)
        self.processes[name] = process
        return process

    def start_worker(self, name):
        self.outputs[name] = self.cluster.folder / f"{name}.out"
        words = [word for program in self.programs for word in ("--program", program)]
        with open(self.outputs[name], "wb") as output:
            return self._start("worker", name, *words, "--lease", str(self.lease), stdout=output, stderr=subprocess.STDOUT)

    def start_gateway(self, name, *words):
        gateway = self._start("gateway", name, *words, stdout=subprocess.PIPE, text=True, bufsize=1)
        self.gateways.append(gateway)
        return gateway

    def open_markets(self, log, files):
        """`files`: names and texts of market files. All stay with the first program."""
        build = build_of(self.programs[0])
        for name, text in files.items():
            log.open_market(name, text, build)

    def wait_until_up(self, count, seconds):
        """Until the workers have started so many markets."""
        until = time.monotonic() + seconds
        while sum(event["markets"] for event in self.events() if event["event"] == "took") < count:
            if time.monotonic() > until or all(process.poll() is not None for process in self.processes.values()):
                said = [line for lines in self.strays().values() for line in lines] + [event["why"] for event in self.events() if event["event"] == "not started"]
                fail(f"not all {count} markets are up after {seconds:g} seconds: {' / '.join(said[:3]) or 'the workers wrote nothing'}")
            time.sleep(0.1)

    def events(self):
        """What the workers wrote, in order of time."""
        found = []
        for path in self.outputs.values():
            found += [json.loads(line) for line in path.read_text(errors="replace").splitlines() if line.startswith("{") and line.endswith("}")]
        return sorted(found, key=lambda event: event["at"])

    def strays(self):
        """Lines of workers that are no events, such as the last words of one that failed."""
        return {name: [line for line in path.read_text(errors="replace").splitlines() if not line.startswith("{")] for name, path in self.outputs.items()}

    def __enter__(self):
        return self

    def __exit__(self, *_):
        for gateway in self.gateways:
            gateway.kill()  # what it holds stands in the log, and its users ask again
        for process in self.processes.values():
            if process.poll() is None:
                process.send_signal(signal.SIGCONT)
            try:
                process.stdin.close()
            except BrokenPipeError:
                pass  # it has ended with lines unread
        for process in self.processes.values():
            try:
                process.wait(SECONDS_TO_END)
            except subprocess.TimeoutExpired:
                process.kill()
                process.wait()

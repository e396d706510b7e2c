#!/usr/bin/env python3
"""Runs browser.html in Chromium and in Firefox, without a window, and opens a page of embed.py from a file: URL.

usage: js/check/browsers.py FOLDER

FOLDER has the package, with examples/, and check/ with rows.jsonl. It is served at 127.0.0.1. Prints the lines of each
browser, or that it isn't installed. The status is 1 if a line begins with FAILED. The browsers end with this program.
"""
import functools
import http.server
import os
import shutil
import signal
import subprocess
import sys
import tempfile
import threading

# Seconds within which a browser reports its result.
LIMIT = 400
BROWSERS = {"chromium": ("chromium", "chromium-browser", "google-chrome"), "firefox": ("firefox", "firefox-esr")}


class Handler(http.server.SimpleHTTPRequestHandler):
    """Serves the folder, and receives the result of a page."""

    def do_POST(self):
        self.server.result = self.rfile.read(int(self.headers["Content-Length"])).decode()
        self.send_response(204)
        self.end_headers()
        self.server.received.set()

    def log_message(self, *_):
        pass


def command_of(name, program, profile, url, words=()):
    if name == "firefox":
        return [program, "--headless", "--no-remote", "--profile", profile, url]
    # (its sandbox needs a user other than root)
    sandbox = ["--no-sandbox"] if os.getuid() == 0 else []
    fixed = ["--headless", "--disable-gpu", "--no-first-run", "--disable-background-networking", f"--user-data-dir={profile}"]
    return [program, *sandbox, *fixed, *words, url]


def run(name, program, server, url):
    """Returns the lines that the page reports."""
    server.received.clear()
    with tempfile.TemporaryDirectory(prefix="dnstext-browser-", ignore_cleanup_errors=True) as profile:
        how = {"stdin": subprocess.DEVNULL, "stdout": subprocess.DEVNULL, "stderr": subprocess.DEVNULL}
        process = subprocess.Popen(command_of(name, program, profile, url), start_new_session=True, env={**os.environ, "HOME": profile}, **how)
        try:
            is_received = server.received.wait(LIMIT)
        finally:
            for how in (signal.SIGTERM, signal.SIGKILL):
                try:
                    os.killpg(process.pid, how)
                    process.wait(5)
                except (ProcessLookupError, subprocess.TimeoutExpired):
                    pass
            process.wait()
    return server.result.split("\n") if is_received else [f"FAILED no result within {LIMIT} s"]


def open_file(program, page):
    """Returns a line about a page that embed.py wrote, which Chromium opens from a file: URL."""
    with tempfile.TemporaryDirectory(prefix="dnstext-browser-", ignore_cleanup_errors=True) as profile:
        words = ["--virtual-time-budget=20000", "--dump-dom"]
        command = command_of("chromium", program, profile, f"file://{page}", words)
        ran = subprocess.run(command, stdin=subprocess.DEVNULL, stdout=subprocess.PIPE, stderr=subprocess.DEVNULL,
                             timeout=LIMIT, text=True, check=False, env={**os.environ, "HOME": profile})
    return f"{'ok' if '9 records, 2 errors' in ran.stdout else 'FAILED'} a page as one file"


def main():
    folder = os.path.abspath(sys.argv[1])
    server = http.server.ThreadingHTTPServer(("127.0.0.1", 0), functools.partial(Handler, directory=folder))
    server.received, server.result = threading.Event(), ""
    threading.Thread(target=server.serve_forever, daemon=True).start()
    failed = False
    for name, programs in BROWSERS.items():
        program = next(filter(None, map(shutil.which, programs)), None)
        if program is None:
            print(f"js: no {name}, left out")
            continue
        lines = run(name, program, server, f"http://127.0.0.1:{server.server_port}/check/browser.html")
        if name == "chromium":
            lines.append(open_file(program, f"{folder}/page.html"))
        for line in lines:
            failed = failed or not line.startswith("ok ")
            print(f"js: {name}: {line}")
    server.shutdown()
    return 1 if failed else 0


if __name__ == "__main__":
    sys.exit(main())

#!/usr/bin/env python3
"""Compares the module in a browser, in a page and in a Worker, with the vectors and the native library's answers.

    test/browser.py chromium|firefox-esr WASM ANSWERS [times]

Serves the files, starts the browser without a window, and waits for what the page finds. Ends with 1 where an answer differs.
Standard library only; no driver of the browser is needed.
"""
import functools
import http.server
import json
import pathlib
import queue
import re
import subprocess
import sys
import tempfile
import threading

ROOT = pathlib.Path(__file__).resolve().parents[3]
PAGE = b"""<!doctype html><title>um-gsm</title><script type="module">
const inWorker = () => new Promise((resolve, reject) => {
  const worker = new Worker("/bindings/js/test/browser.mjs", { type: "module" });
  worker.onmessage = ({ data }) => resolve(data);
  worker.onerror = ({ message }) => reject(new Error(message));
});
let found;
try {
  const { run } = await import("/bindings/js/test/browser.mjs");
  found = { agent: navigator.userAgent, page: await run(location.search === "?times"), worker: await inWorker() };
} catch (error) {
  found = { error: String(error) };
}
await fetch("/found", { method: "POST", body: JSON.stringify(found) });
</script>"""
ARGUMENTS = {
    "chromium": ["--headless=new", "--no-sandbox", "--disable-gpu", "--no-first-run", "--user-data-dir={profile}"],
    "firefox-esr": ["--headless", "--no-remote", "--profile", "{profile}"],
}


class Files(http.server.SimpleHTTPRequestHandler):
    """Serves the repository's files, the page, the module and the answers; receives the page's results."""

    given = {}
    found = queue.Queue()

    def do_GET(self):
        path = self.path.split("?")[0]
        if path not in self.given:
            return super().do_GET()
        kind, body = self.given[path]
        self.send_response(200)
        self.send_header("Content-Type", kind)
        self.end_headers()
        self.wfile.write(body)

    def do_POST(self):
        self.found.put(json.loads(self.rfile.read(int(self.headers["Content-Length"]))))
        self.send_response(204)
        self.end_headers()

    def log_message(self, *_):
        pass


def found_by(name, url):
    """The page's results in this browser."""
    with tempfile.TemporaryDirectory(ignore_cleanup_errors=True) as profile:
        arguments = [argument.format(profile=profile) for argument in ARGUMENTS[name]]
        browser = subprocess.Popen([name, *arguments, url], stdout=subprocess.DEVNULL, stderr=subprocess.DEVNULL)
        try:
            return Files.found.get(timeout=300)
        except queue.Empty:
            sys.exit(f"js: {name}: the page found nothing in 300 seconds")
        finally:
            browser.terminate()
            browser.wait(20)


def main():
    name, wasm, answers, *timed = sys.argv[1:]
    Files.given = {
        "/": ("text/html", PAGE),
        "/um.wasm": ("application/wasm", pathlib.Path(wasm).read_bytes()),
        "/answers.txt": ("text/plain", pathlib.Path(answers).read_bytes()),
    }
    server = http.server.ThreadingHTTPServer(("127.0.0.1", 0), functools.partial(Files, directory=ROOT))
    threading.Thread(target=server.serve_forever, daemon=True).start()
    found = found_by(name, f"http://127.0.0.1:{server.server_port}/{'?times' if timed else ''}")
    server.shutdown()
    if "error" in found:
        sys.exit(f"js: {name}: {found['error']}")
    wrong = [part for where in ("page", "worker") for part in found[where]["parts"] if part["wrong"]]
    if wrong:
        sys.exit(f"js: {name}: {wrong}")
    version = re.findall(r"(?:Chrome|Firefox)/[\d.]+", found["agent"])[0]
    print(f"js: {version}, also in a Worker: {', '.join(part['name'] for part in found['page']['parts'])}")
    if timed:
        print(f"js: us per call in {version}: {found['page']['times']}")


if __name__ == "__main__":
    main()

#!/usr/bin/env python3
"""tests_page.py FOLDER: runs tests.html of a folder in headless Chromium, and writes what its tests tell. Ends with 0 where all hold."""
import functools
import http.server
import os
import queue
import subprocess
import sys
import tempfile
import threading

SECONDS = 1800                              # that the tests may take

told = queue.Queue()


class Handler(http.server.SimpleHTTPRequestHandler):
    """Hands out the folder, and takes what the page tells."""

    extensions_map = {'.js': 'text/javascript', '.wasm': 'application/wasm', '.html': 'text/html', '.json': 'application/json'}

    def do_POST(self):
        told.put(self.rfile.read(int(self.headers['Content-Length'])).decode())
        self.send_response(204)
        self.end_headers()

    def log_message(self, *_):
        """Writes no log."""


def open_page(address, profile):
    words = ['chromium', '--headless', '--disable-gpu', f'--user-data-dir={profile}', address]
    if os.getuid() == 0:
        words.insert(1, '--no-sandbox')     # it asks root for that
    return subprocess.Popen(words, stdout=subprocess.DEVNULL, stderr=subprocess.DEVNULL)


def main():
    server = http.server.ThreadingHTTPServer(('127.0.0.1', 0), functools.partial(Handler, directory=sys.argv[1]))
    threading.Thread(target=server.serve_forever, daemon=True).start()
    with tempfile.TemporaryDirectory(ignore_cleanup_errors=True) as profile:
        page = open_page(f'http://127.0.0.1:{server.server_port}/tests.html', profile)
        try:
            *lines, last = told.get(timeout=SECONDS).split('\n')
        except queue.Empty:
            *lines, last = ['no answer of the page']
        finally:
            page.terminate()
            page.wait()
    print(*(f'Chromium: {line}' for line in lines), sep='\n')
    if last != 'end':
        sys.exit(f'Chromium: {last}')


if __name__ == '__main__':
    main()

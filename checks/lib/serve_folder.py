"""serve_folder.py FOLDER PORT_FILE: serves a folder on 127.0.0.1 until its input ends.

Below /moved/ it redirects to the same path without that, below /round/ to itself, and below /broken/ it
announces more bytes than it sends. Anything else is python's own server of files.
"""
import http.server
import os
import sys
import threading


class Handler(http.server.SimpleHTTPRequestHandler):
    protocol_version = "HTTP/1.1"

    def log_message(self, *words):
        pass

    def do_GET(self):
        if self.path.startswith("/moved/"):
            self.redirect(self.path[len("/moved"):])
        elif self.path.startswith("/round/"):
            self.redirect(self.path)
        elif self.path.startswith("/broken/"):
            self.send_response(200)
            self.send_header("Content-Length", "100")
            self.end_headers()
            self.wfile.write(b"<project>")
            self.close_connection = True
        else:
            super().do_GET()

    def redirect(self, place):
        self.send_response(302)
        self.send_header("Location", place)
        self.send_header("Content-Length", "0")
        self.end_headers()


def main():
    folder, port_file = sys.argv[1:]
    os.chdir(folder)
    server = http.server.ThreadingHTTPServer(("127.0.0.1", 0), Handler)
    threading.Thread(target=server.serve_forever, daemon=True).start()
    with open(port_file + ".part", "w") as file:
        file.write(str(server.server_address[1]))
    os.rename(port_file + ".part", port_file)
    sys.stdin.read()
    server.shutdown()


main()

"""Requests of a check to a program that answers over HTTP on this machine."""
import http.client


def ask(port, method, path, body=None, **headers):
    """One request: the status and the bytes of its answer. A `_` in a header's name stands for a minus."""
    connection = http.client.HTTPConnection("127.0.0.1", port, timeout=60)
    try:
        connection.request(method, path, body, {name.replace("_", "-"): value for name, value in headers.items()})
        answer = connection.getresponse()
        return answer.status, answer.read()
    finally:
        connection.close()

"""Shows a program that runs in a terminal to viewers in browsers, as it runs.

    vt100-share -- htop

prints an address; who opens it sees the terminal. `python -m vt100_share` does the same. The HTTP
and WebSocket server needs the package `websockets`.

The modules of this package are those of the program; they are no interface for other programs.
"""

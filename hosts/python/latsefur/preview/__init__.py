"""A page in the browser on which one writes a message and sees the sign while one types.

    python -m latsefur.preview --sign signs/full-matrix.toml

It is served on the loopback interface alone. All that it shows comes from the library; the page itself knows nothing of MULTI.
"""

"""Which processes of this computer listen, serve a connection, or read a control line, as /proc of Linux shows it."""

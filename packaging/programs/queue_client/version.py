"""The version of the programs, which is that of the server beside which they are installed."""

VERSION = "0.18.0"

"""The parts of bqd-top that show a picture in place on a terminal."""

"""What this computer has: the toolchain, processors and memory."""
import os
import pathlib
import re
import subprocess

# The toolchain's folder: `rt doc` prints the path of its first page.
TOOLCHAIN = pathlib.Path(subprocess.run(["rt", "doc"], capture_output=True, text=True, check=True).stdout.strip()).parent

PROCESSORS = len(os.sched_getaffinity(0))


def free_memory():
    """Returns how much memory is available, in kB."""
    return int(re.search(r"^MemAvailable: *(\d+) kB$", pathlib.Path("/proc/meminfo").read_text(), re.M)[1])

"""A client of the work queue's protocol, shared by the programs for operators. It works with bqd and beanstalkd."""
from .faults import Fault, Refused, said
from .server import STATES, Job, Server

__all__ = ["Fault", "Job", "Refused", "STATES", "Server", "said"]

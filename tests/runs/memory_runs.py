"""Runs of bqd whose memory is watched."""
from held import Held
from programs import same
from queue_model.engines import of_loop
from servers import Server, awaits
from waiting_runs import ANSWER, ASK

# How many commands are sent before their answers are read.
AT_ONCE = 500

# How many tubes come and go, and how many bytes each may take after it has gone: its name alone has 200.
TUBES = 20000
OF_A_TUBE = 40


def in_turn(client, commands):
    """Sends commands, each a text with its answer, in batches."""
    for begun in range(0, len(commands), AT_ONCE):
        some = commands[begun : begun + AT_ONCE]
        client.sends(b"".join(text for text, _ in some))
        client.hears(b"".join(answer for _, answer in some))


def come_and_gone(name, first, count):
    """Returns the commands for this many tubes, one after another, each with a job that is put and deleted; `first` is
    the id of the first job."""
    commands = []
    for id in range(first, first + count):
        tube = (name % id).ljust(200, b"x")
        commands += [
            (b"use %s\r\n" % tube, b"USING %s\r\n" % tube),
            (b"put 0 0 60 1\r\na\r\n", b"INSERTED %d\r\n" % id),
            (b"delete %d\r\n" % id, b"DELETED\r\n"),
        ]
    return commands


def run_tubes_that_have_gone(bqd):
    """Tubes that have gone leave no memory allocated, although each had jobs."""
    with Server(bqd, "--seats", "1") as server:
        client = server.client()
        in_turn(client, come_and_gone(b"a%d-", 1, 500))
        before = server.memory()
        in_turn(client, come_and_gone(b"b%d-", 501, TUBES))
        same(server.memory() - before < TUBES * OF_A_TUBE, True)


# How many jobs there are at a peak, how many spare places the server may keep after it (docs/OPERATING.md), and how
# many bytes a place may take.
JOBS = 20000
SPARE = 1100
OF_A_PLACE = 512


def run_memory_behind_a_peak(bqd):
    """The memory of a peak of jobs is returned to the allocator, in small steps, once they are deleted."""
    held = Held()
    with Server(bqd, "--seats", "1", env=held.env) as server:
        client = server.client()
        client.asks(b"list-tube-used\r\n", b"USING default\r\n")
        before = held.now()
        ids = range(1, JOBS + 1)
        in_turn(client, [(b"put 0 0 60 1\r\na\r\n", b"INSERTED %d\r\n" % id) for id in ids])
        same(held.now() - before > JOBS * 200, True)
        in_turn(client, [(b"delete %d\r\n" % id, b"DELETED\r\n") for id in ids])
        same(held.now() - before < SPARE * OF_A_PLACE, True)


# How many bytes of memory a connection may leave behind after its end.
OF_A_CONNECTION = 2 << 10


@of_loop
def run_loop_behind_bytes_that_nobody_reads(bqd):
    """Connections that ended, one after another, with bytes that were not read leave no read buffer at their seats."""
    many = 200

    def end_all(server, more):
        clients = [server.client() for _ in range(many)]
        for client in clients:
            client.asks(ASK, ANSWER)
        for client in clients:
            client.sends_while_read(b"quit\r\n" + more)
            same(client.all_that_comes(), b"")
            client.close()
        server.clients.clear()

    with Server(bqd, "--seats", str(many)) as server:
        end_all(server, b"")
        before = server.memory()
        end_all(server, b"x" * 60000)
        same(server.memory() - before <= many * OF_A_CONNECTION, True)


def run_bodies_that_never_come_whole(bqd):
    """After a connection that ended within a body, the memory of that body is free again."""
    many, size = 50, 1 << 20
    held = Held()
    with Server(bqd, "--seats", str(many), "--max-job-size", str(size), env=held.env) as server:
        for client in [server.client() for _ in range(many)]:
            client.asks(ASK, ANSWER)
        before = held.now()
        for client in server.clients:
            client.sends(b"put 0 0 60 %d\r\n" % size + b"x" * (size - 1))
        awaits(lambda: held.now() - before > many * size // 2)
        for client in server.clients:
            client.close()
        awaits(lambda: held.now() - before < size)

"""Scripts in one process of the batch program, and which of them end otherwise than they have to."""
import resource
import subprocess
import tempfile

# What a process may take: seconds of processor time, bytes of address space.
SECONDS, ROOM = 60, 4 * 2**30
SHOWN = 120


def played(program, scripts):
    """What the program writes of scripts, and its status."""
    with tempfile.TemporaryFile() as source, tempfile.TemporaryFile() as sink:
        source.writelines(b"%d\n%b" % (len(script), script) for script in scripts)
        source.seek(0)
        with subprocess.Popen([program], stdin=source, stdout=sink, stderr=subprocess.DEVNULL) as running:
            resource.prlimit(running.pid, resource.RLIMIT_CPU, (SECONDS, SECONDS))
            resource.prlimit(running.pid, resource.RLIMIT_AS, (ROOM, ROOM))
            status = running.wait()
        sink.seek(0)
        return sink.read(), status


def pieces(wrote):
    """What was written of each script that was played to its end."""
    at = 0
    while at < len(wrote):
        end = wrote.find(b"\n", at)
        if end < 0:
            return
        until = end + 1 + int(wrote[at:end].split(b" ")[1])
        if until > len(wrote):
            return
        yield wrote[at:until]
        at = until


def how_it_ended(status):
    """How a process ended at a script that it didn't play to its end."""
    return f"no end within {SECONDS} s or status {status}: a signal, a want of memory, or an end without a report"


def shown(piece):
    line, _, report = piece.partition(b"\n")
    return f"{line[:SHOWN]!r} behind {len(report)} bytes"


def differences(program, executions):
    """The places of those that end otherwise, each with what is wrong."""
    first = 0
    while first < len(executions):
        listed = executions[first:]
        wrote, status = played(program, [each.script for each in listed])
        if status == 0 and wrote == b"".join(each.told() for each in listed):
            return
        count = 0
        for count, (each, piece) in enumerate(zip(listed, pieces(wrote)), 1):
            if piece != each.told():
                yield first + count - 1, f"{shown(piece)}; by the model {shown(each.told())}"
        first += count
        if first < len(executions):
            yield first, how_it_ended(status)
            first += 1


def difference(program, execution):
    """What is wrong with one of them, or none."""
    return next((wrong for _, wrong in differences(program, [execution])), None)

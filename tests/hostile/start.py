"""Starting a program on some bytes: some hundred thousand times in a run, so with no pipe and no thread, but with files in memory."""
import os
import random
import resource
import subprocess
import threading

SECONDS = 60  # of processor time, after which a run is stopped: it did not end by itself
_FILES = []


def outcome(program, data):
    """What a program does whose standard input is a file with these bytes: (exit status, standard output, standard error)."""
    if not _FILES:
        _FILES.extend(os.memfd_create(name) for name in ("input", "output", "error"))
    for file in _FILES:
        os.ftruncate(file, 0)
        os.lseek(file, 0, os.SEEK_SET)
    written = 0
    while written < len(data):
        written += os.pwrite(_FILES[0], data[written:], written)
    child = os.posix_spawn(program, [program], {}, file_actions=[(os.POSIX_SPAWN_DUP2, file, number) for number, file in enumerate(_FILES)])
    resource.prlimit(child, resource.RLIMIT_CPU, (SECONDS, SECONDS))
    status = os.waitstatus_to_exitcode(os.waitpid(child, 0)[1])
    return status, *(os.pread(file, os.fstat(file).st_size, 0) for file in _FILES[1:])


def outcome_in_pieces(program, data, seed):
    """The same, with the input written to a pipe in pieces."""
    rng = random.Random(seed)
    process = subprocess.Popen([program], stdin=subprocess.PIPE, stdout=subprocess.PIPE, stderr=subprocess.PIPE, env={})

    def feed():
        at = 0
        try:
            while at < len(data):
                step = rng.choice((1, 2, 3, 100, 4096, 70_000))
                os.write(process.stdin.fileno(), data[at:at + step])
                at += step
            process.stdin.close()
        except BrokenPipeError:  # it refused and stopped
            pass

    writer = threading.Thread(target=feed)
    writer.start()
    out, err = process.stdout.read(), process.stderr.read()
    writer.join()
    return process.wait(), out, err

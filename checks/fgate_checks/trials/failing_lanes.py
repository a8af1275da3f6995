"""An outside that fails where lanes are made: no permission, few descriptors, and
limits of files and of a file system.
"""

import array
import fcntl
import os
import resource
import shutil
import signal
import subprocess
import termios
import time
from collections.abc import Callable

from .failing_input import WRITE_FAULT
from .plain_model.traces import Answer
from .program_runner import input_of, Ended, read_file
from .runs import Calls, runs, whole_of


NOBODY = 65534
LIMITS = [0, 1, 188, 1316, 8192, 65536, 100_000]


def as_nobody(threads: int | None = None) -> Callable[[], None]:
    """What a child does before it is the program: becomes nobody, who may have so many
    threads.
    """

    def become() -> None:
        os.setgroups([])
        os.setgid(NOBODY)
        if threads is not None:
            resource.setrlimit(resource.RLIMIT_NPROC, (threads, threads))
        os.setuid(NOBODY)

    return become


def few_descriptors(count: int) -> Callable[[], None]:
    return lambda: resource.setrlimit(resource.RLIMIT_NOFILE, (count, count))


def late_trace(
    calls: Calls,
    words: list[str],
    data: bytes,
    change: Callable[[], object],
    first: int,
) -> Ended:
    """Runs the words on a pipe of this data, of which `first` bytes come before the
    change to the folder.
    """
    child = calls.start(words, stdin=subprocess.PIPE)
    pipe = input_of(child).fileno()
    left = array.array("i", [1])
    try:
        os.write(pipe, data[:first])
        ends = time.monotonic() + 5
        while left[0] and time.monotonic() < ends:
            fcntl.ioctl(pipe, termios.FIONREAD, left)
        time.sleep(0.05)
        change()
        for at in range(first, len(data), 60_000):
            os.write(pipe, data[at : at + 60_000])
    except BrokenPipeError:
        pass
    input_of(child).close()
    return calls.end(child)


def lanes(calls: Calls) -> None:
    made = {
        command: run
        for command, run in runs(large=True).items()
        if command in ("repair", "drill", "sample")
    }
    for command, (words, data) in made.items():
        whole = whole_of(words, data)
        for port in whole.lanes:
            path = os.path.join(calls.folder, f"{port}.ts")
            for name, target in [
                ("a folder", None),
                ("a link to a full device", "/dev/full"),
                ("a link to nowhere", "/nowhere/at/all"),
                ("a link to itself", path),
            ]:
                calls.begin()
                os.symlink(target, path) if target else os.mkdir(path)
                ended = calls.call(words, data)
                seen = {
                    lane: text for lane, text in ended.lanes.items() if lane != port
                }
                calls.judge(
                    f"{command} where {port}.ts is {name}",
                    ended._replace(lanes=seen),
                    whole,
                    [WRITE_FAULT],
                )
        if os.getuid() == 0:
            without_permission(calls, command, words, data, whole)
        calls.begin()
        gone = calls.call(words, data, preexec_fn=lambda: os.rmdir(calls.folder))
        calls.judge(f"{command} where the folder is gone", gone, whole, [WRITE_FAULT])
    words, data = made["repair"]
    whole = whole_of(words, data)
    taken_away(calls, words, data, whole)
    # The loader needs one beside the standard streams. All lanes do with that one, by
    # turns.
    for count in range(4, 8):
        calls.begin()
        ended = calls.call(words, data, preexec_fn=few_descriptors(count))
        calls.judge(
            f"repair with {count} descriptors",
            ended,
            whole,
            [None],
        )


def without_permission(
    calls: Calls, command: str, words: list[str], data: bytes, whole: Answer
) -> None:
    calls.begin()
    os.chmod(calls.folder, 0o555)
    calls.judge(
        f"{command} without permission",
        calls.call(words, data, preexec_fn=as_nobody()),
        whole,
        [WRITE_FAULT],
    )
    calls.begin()
    os.chmod(calls.folder, 0o777)
    for port in whole.lanes:
        path = os.path.join(calls.folder, f"{port}.ts")
        open(path, "wb").close()
        os.chmod(path, 0o444)
    ended = calls.call(words, data, preexec_fn=as_nobody())
    calls.judge(
        f"{command} over files that may only be read", ended, whole, [WRITE_FAULT]
    )
    for threads in (0, 1, 2, 3):
        calls.begin()
        os.chmod(calls.folder, 0o777)
        ended = calls.call([*words, "workers=16"], data, preexec_fn=as_nobody(threads))
        calls.judge(f"{command} with {threads} threads to be had", ended, whole, [None])


def taken_away(calls: Calls, words: list[str], data: bytes, whole: Answer) -> None:
    """Lanes that are open are written on where their names are gone, and the folder's
    going isn't seen.
    """
    for name, change in [
        ("the folder is", lambda: shutil.rmtree(calls.folder)),
        ("a lane is", lambda: os.remove(os.path.join(calls.folder, "5000.ts"))),
    ]:
        calls.begin()
        ended = late_trace(calls, words, data, change, 60_000)
        calls.judge(
            f"repair while {name} taken away",
            ended,
            whole,
            [None, WRITE_FAULT],
            lanes=False,
        )


def under_size(limit: int, ignored: bool) -> Callable[[], None]:
    def set_limit() -> None:
        signal.signal(signal.SIGXFSZ, signal.SIG_IGN if ignored else signal.SIG_DFL)
        resource.setrlimit(resource.RLIMIT_FSIZE, (limit, limit))

    return set_limit


def sizes(calls: Calls) -> None:
    """Lanes and a standard output that is a file may have so many bytes. Standard error
    is a pipe's.
    """
    for command, (words, data) in runs(large=True).items():
        whole = whole_of(words, data)
        out, *lengths = map(len, [whole.out or b"", *whole.lanes.values()])
        for limit in [*LIMITS, out - 1, out, *lengths, 10**7]:
            fits = max(out, *lengths, 0) <= limit
            for ignored in (True, False):
                calls.begin()
                receiver, line = os.pipe()
                ended = calls.call(
                    words, data, preexec_fn=under_size(limit, ignored), stderr=line
                )
                os.close(line)
                ended = ended._replace(err=os.read(receiver, 1000))
                os.close(receiver)
                fault = WRITE_FAULT if ignored else (-signal.SIGXFSZ, "")
                how = "ignored" if ignored else "as it is"
                name = f"{command} with files of {limit} bytes, SIGXFSZ {how}"
                calls.judge(name, ended, whole, [None if fits else fault])


def space(calls: Calls) -> None:
    for command, (words, data) in runs(large=True).items():
        whole = whole_of(words, data)
        for size in (4096, 65536, 262144, 2**23):
            calls.begin()
            if subprocess.run(
                ["mount", "-t", "tmpfs", "-o", f"size={size}", "tmpfs", calls.folder],
                check=False,
                stderr=subprocess.DEVNULL,
            ).returncode:
                print("space: left out, since no file system can be mounted")
                return
            try:
                path = os.path.join(calls.folder, "told")
                with calls.input_of(data) as source, open(path, "wb") as told:
                    child = calls.start(words, stdin=source, stdout=told)
                ended = calls.end(child)
                ended = ended._replace(out=read_file(path))
            finally:
                subprocess.run(["umount", calls.folder], check=True)
            # Each file takes whole pages.
            texts = [whole.out or b"", *whole.lanes.values()]
            pages = sum(-(-len(text) // 4096) for text in texts)
            calls.judge(
                f"{command} in {size} bytes",
                ended,
                whole,
                [None if pages * 4096 <= size else WRITE_FAULT],
            )

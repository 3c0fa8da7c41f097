"""The program that is tried: where it stands, how it is built, and one run of it."""

import os
import re
import resource
import shutil
import subprocess
import time

SPIN = "define void @spin() {\n  br label %loop\nloop:\n  br label %loop\n}\n"


class Ended(Exception):
    """Why nothing is tried, and the status."""

    def __init__(self, status, why):
        super().__init__(why)
        self.status = status


class Answer:
    """What a run came to; its status is none where it passed its time, and below 0 where a signal ended it."""

    def __init__(self, status, out, err, seconds):
        self.status, self.out, self.err, self.seconds = status, out, err, seconds

    def shown(self):
        """Returns the status and the first bytes of both streams."""
        status = "no end within its time" if self.status is None else f"signal {-self.status}" if self.status < 0 else f"status {self.status}"
        return f"{status}, output {self.out[:120]!r}, error output {self.err[:300]!r}"


class Program:
    def __init__(self, path):
        self.path = path

    def run(self, words, seconds=30, limits=(), **streams):
        """Runs the program on words for at most so long, under limits of the system, pairs of a resource and a number."""

        def limit():
            for which, most in limits:
                resource.setrlimit(which, (most, most))

        start = time.monotonic()
        streams = {"stdout": subprocess.PIPE, "stderr": subprocess.PIPE, **streams}
        with subprocess.Popen([self.path, *words], stdin=subprocess.DEVNULL, preexec_fn=limit if limits else None, **streams) as child:
            try:
                out, err = child.communicate(timeout=seconds)
                status = child.returncode
            except subprocess.TimeoutExpired:
                child.kill()
                out, err = child.communicate()
                status = None
        return Answer(status, out or b"", err or b"", time.monotonic() - start)


def try_by_kit(top, flags, words, room, started=None):
    """Runs rt try in the program's crate with its folders in a room, calls `started` again and again meanwhile, and returns its status and streams."""
    with open(f"{room}/try.out", "w+b") as out, open(f"{room}/try.err", "w+b") as err:
        try:
            child = subprocess.Popen(["rt", "try", "--steps", "1", *flags, "--", *words], cwd=f"{top}/crates/reopt", stdin=subprocess.DEVNULL,
                                     stdout=out, stderr=err, env={**os.environ, "TMPDIR": room})
        except OSError as error:
            raise Ended(5, f"the program can't be built: rt: {error}") from error
        try:
            while child.poll() is None:
                if started and started():
                    break
                time.sleep(0.2)
        finally:
            child.terminate()
            child.wait()
        out.seek(0)
        err.seek(0)
        return child.returncode, out.read(), err.read()


def swept(trial, flag, words, data):
    """Has rt try let each call of a kind fail in turn. Returns the lines of runs that mustn't be, and how far it went."""
    found, first, far = [], 1, "not tried for want of time"
    while trial.left() > 0:
        status, _, err = try_by_kit(trial.top, ["--seconds", "120", *data, flag, f"{first}.."], words, trial.room, lambda: trial.left() < 0)
        if b"this kit is older" in err:
            return found, "not in this kit"
        found += [it.decode(errors="replace") for it in err.splitlines() if status in (4, 5) and it.startswith(b"call=")]
        following = re.search(rb"\bnext=(\d+)", err)
        if not following or int(following[1]) <= first:
            return found, "each call" if status in (0, 4, 5) else "until the time was over" if trial.left() < 0 else f"rt try ended with {status}"
        first = int(following[1])
        far = f"up to call {first - 1}"
    return found, far


def unproved(top, room):
    """Has the kit build the program without proof, and keeps a copy from beside a run that doesn't end by itself."""
    for name, text in (("spin.ll", SPIN), ("spin.calls", "@spin() turns 4294967296\n")):
        with open(f"{room}/{name}", "w", encoding="utf-8") as file:
            file.write(text)
    kept = f"{room}/reopt"

    def started():
        for at, _, names in os.walk(room):
            # (it is whole when the run's own files stand beside it)
            if "program" in names and "spin.calls" in names and os.access(f"{at}/program", os.X_OK):
                time.sleep(1)
                shutil.copy(f"{at}/program", kept)
                return True
        return False

    data = [it for name in ("spin.ll", "spin.calls") for it in ("--data", f"{name}={room}/{name}")]
    _, _, err = try_by_kit(top, ["--seconds", "30", *data], ["eval", "spin.ll", "spin.calls"], room, started)
    if not os.path.exists(kept):
        raise Ended(5, f"the program can't be built: {err.decode(errors='replace')[-300:]}".replace("\n", " "))
    return kept


def built(top, room):
    """Returns the program that stands built, or builds it: as ./reopt does, or without proof where REOPT_UNPROVED is 1."""
    path = f"{top}/crates/reopt/out/reopt"
    if not os.access(path, os.X_OK):
        if os.environ.get("REOPT_UNPROVED") == "1":
            return Program(unproved(top, room))
        words = [f"{top}/reopt", "eval", f"{top}/examples/add.ll", f"{top}/examples/add.calls"]
        if subprocess.run(words, stdout=subprocess.DEVNULL, stdin=subprocess.DEVNULL).returncode:
            raise Ended(5, "the program can't be built")
    return Program(path)

"""Trials of state files under clocks that go back and ahead, and of what is tried again after a minute, by a library that is
preloaded (clock.c)."""

import os
import shutil
import subprocess
import time

from crashes import consents
from state_disks import LONG, SLICES, grows_to
from state_format import batches_of, without_mark
from state_trials import LIFE, bytes_of, gone

DAY = 86400


def clock(trials, seconds):
    """The surroundings of a program whose clock is so many seconds ahead of the machine's."""
    library = f"{trials.room}/clock.so"
    if not os.path.exists(library):
        source = os.path.join(os.path.dirname(os.path.realpath(__file__)), "clock.c")
        subprocess.run(["gcc", "-shared", "-fPIC", "-O", "-o", library, source], check=True)
    return dict(os.environ, LD_PRELOAD=library, AHEAD=str(seconds))


def tries_told_by_the_clock(trials):
    """What was told inactive since its time was over is inactive under every later clock."""
    path = trials.make(f"{trials.room}/clock")
    begun, client = trials.served("a new file", path)
    token = client.own_token()
    consents(client, "read")
    client.begin()
    if not client.is_active(token):
        trials.wrong("a clock", "a token is inactive at once")
    begun.end()
    marks = [it for it in batches_of(bytes_of(path)) if not without_mark(it)]
    if len(marks) != 1:
        trials.wrong("marks", f"{len(marks)} alone, though a change carries its own")

    begun, client = trials.served("a clock that is ahead", path, env=clock(trials, LIFE + 10))
    if client.is_active(token):
        trials.wrong("a clock that is ahead", "an expired token is active")
    begun.end()
    for ahead, what in [(0, "back"), (-5000, "far back"), (LIFE + 20, "ahead again")]:
        begun, client = trials.served(f"a clock set {what}", path, env=clock(trials, ahead))
        if client.is_active(token):
            trials.wrong(f"a clock set {what}", "a token is active again that was told inactive")
        begun.end()
    file = trials.listed("a file that is ahead", path)[-1]
    if not 0 < -file["age"] - LIFE < 100:
        trials.wrong("a file that is ahead", f"{file}")
    told = trials.served("a start behind its state", path)[0].end()
    if told.count("\n") != 1 or "ahead" not in told:
        trials.wrong("a start behind its state", f"{told!r}")


def tries_far_ahead(trials):
    """A clock that is more than a year ahead of the state is refused, unless it is accepted, and nothing is written."""
    path = trials.make(f"{trials.room}/far")
    begun, client = trials.served("a new file", path)
    client.own_token()
    begun.end()
    kept = bytes_of(path)
    trials.path_refused("a clock 400 days ahead", path, "ClockAhead", env=clock(trials, 400 * DAY))
    if bytes_of(path) != kept or os.path.exists(f"{path}.next"):
        trials.wrong("a clock 400 days ahead", "refused, and the file was written")
    for ahead, options in [(360 * DAY, []), (800 * DAY, ["--accept-clock"]), (810 * DAY, [])]:
        begun, client = trials.served(f"a clock {ahead // DAY} days ahead", path, *options, env=clock(trials, ahead))
        client.own_token()
        begun.end()
    trials.served("a new file, far ahead", trials.make(f"{trials.room}/farther"), env=clock(trials, 400 * DAY))[0].end()


def tries_a_jump(trials):
    """A clock that jumps ahead by more than a year while a server runs ends it, by name, and nothing of that moment is kept."""
    path, ahead = trials.make(f"{trials.room}/jump"), f"{trials.room}/ahead"
    for seconds, ends in [(360 * DAY, False), (800 * DAY, True), (-500 * DAY, False)]:
        begun, client = trials.served("a clock that will jump", path, env=clock(trials, ahead))
        token = client.own_token()
        kept = bytes_of(path)
        with open(ahead, "w") as to:
            to.write(str(seconds))
        if not ends:
            client.own_token()
            begun.end()
            continue
        status, told = gone(begun, client)
        if status != 2 or not told.startswith("oauthd: stopped: ClockAhead 38"):
            trials.wrong("a clock that jumped", f"status {status}, {told!r}")
        if bytes_of(path) != kept:
            trials.wrong("a clock that jumped", "something was kept")
        trials.path_refused("a start behind the jump", path, "ClockAhead", env=clock(trials, ahead))
        with open(ahead, "w") as to:
            to.write(str(360 * DAY))
        begun, client = trials.served("a clock that was set", path, env=clock(trials, ahead))
        if not client.is_active(token):
            trials.wrong("a clock that was set", "a token is gone")
        begun.end()


def tries_moved_before_it_is_shortened(trials):
    """No shorter file takes the place of one that was moved: where one was refused, and a minute later the file is away, the server
    ends by that name. Until then its clock goes back, so that no moment is to be kept."""
    path, ahead, steady = trials.make(f"{trials.room}/long"), f"{trials.room}/behind", f"{trials.room}/steady"
    begun, client = trials.served("a file that grows", path, env=dict(clock(trials, ahead), STEADY=steady))
    token = client.own_token()
    os.mkdir(f"{path}.next")
    grows_to(client, path, (1 << 20) + 1)
    with open(ahead, "w") as to:
        to.write("-100")
    client.is_active(token)
    time.sleep(SLICES)
    os.rmdir(f"{path}.next")
    kept = bytes_of(path)
    os.rename(path, f"{path}.away")
    with open(steady, "w") as to:
        to.write("70")
    status, told = gone(begun, client, lambda it: it.is_active(token))
    if (status, told) != (2, f"{LONG}\noauthd: stopped: State: Displaced\n"):
        trials.wrong("a moved file that is long", f"status {status}, {told!r}")
    if os.path.lexists(path) or bytes_of(f"{path}.away") != kept:
        trials.wrong("a moved file that is long", f"it was written to: {sorted(os.listdir(trials.room))}")


def all_trials():
    if not shutil.which("gcc"):
        print("clocks were not tried: there is no gcc")
        return []
    return [tries_told_by_the_clock, tries_far_ahead, tries_a_jump, tries_moved_before_it_is_shortened]

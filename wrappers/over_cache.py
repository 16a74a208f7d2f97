"""Answers requests of vunit_run from a folder that many share, and starts the command behind it where the folder has no answer.

usage: COMMAND [WORD ..] <REQUEST               where COMMAND is a link to over_cache
       over_cache COMMAND [WORD ..] <REQUEST
       over_cache --stats | --verify | --trim | --explain LIBRARY PATH | --build

OVER_CACHE names the folder; without it, the command alone is run. With OVER_CACHE_READ_ONLY=1 nothing is written there. An answer rests on the
request's bytes, the words, and what `COMMAND --cache-key WORDS` prints (cache_key.py), with OVER_CACHE_KEY behind it; a command
that has no key is cached only where OVER_CACHE_KEY is set. Whatever is wrong with the folder, the command is started.

It ends with the command's code, or by the signal that ended the command. It ends with 128 and the number of a signal that ended
the program, a closed standard output counting as SIGPIPE; and with 75 without an answer.
"""

# Why it is so:
# Whole requests are compared, and hashes only find them. Trust in a long hash took half of a hit over 8 MB.
# A process of its own asks whether a folder answers, which costs 0.6 ms. With a thread the program could not end.
# On request the hit of a compile exists in C too (over_cache_hit.c), which hands unusual cases over to Python. Python alone
# takes 16 ms, where a quarter of ghdl_analyse's 38 was wanted.

import _signal as signal
import sys

import quick_os as os
from cache_command import NO_ANSWER, NoAnswer, Stopped, become, found, read_request, run_command, take_signals, write_all
from cache_folder import CacheFolder, Refused
from cache_key import key_of
from cache_request import BENCH, Malformed, Outline, with_length
from cache_state import LocalState, say

PROGRAM = b"over_cache"
# These start the command elsewhere, and can't speak for it.
GO_BETWEENS = {PROGRAM, b"over_engine"}
OUTPUT_MOST = 262_144


class NotCached(Exception):
    """Why a request isn't looked up; None has no message."""


class Asked:
    """What an answer rests on: the request, and `text`, which has all else."""

    def __init__(self, state, name, words, data, key_stands=False):
        try:
            outline = Outline(data)
        except Malformed:
            raise NotCached(None) from None
        self.run = None
        if outline.kind == BENCH:
            from cache_runs import CachedRun, NotDeclared

            try:
                self.run = CachedRun(outline, words)
            except (NotDeclared, OSError):
                raise NotCached(None) from None
        self.outline, self.name, self.words, self.state = outline, name, words, state
        self.key = self.key_now(key_stands)
        own = os.environb.get(b"OVER_CACHE_KEY", b"")
        if not self.key.text and not own:
            raise NotCached(b"%s gives no --cache-key, so it isn't cached: set OVER_CACHE_KEY to its version" % name)
        self.text = b"".join(map(with_length, (name, self.key.text, own, *words)))
        self.found = outline.digest_with(self.text)

    def key_now(self, stands=False):
        command = found(self.name, GO_BETWEENS)
        if not command:
            raise NotCached(b"there is no command %s here to give a --cache-key" % self.name)
        return key_of(self.state, command, self.words, stands)

    def stands(self):
        """Whether everything that was looked at is unchanged."""
        return self.key.stands() and (self.run is None or self.run.stands())


class Cache:
    """The folder for one start: None where it is away or refused."""

    def __init__(self, state, path):
        self.folder, self.state = None, state
        path = os.path.abspath(path.rstrip(b"/") or b"/")
        # (over_cache_hit has found no entry there, by a key that stood)
        self.was_looked = os.environb.pop(b"OVER_CACHE_LOOKED", None) == path
        os.unsetenv(b"OVER_CACHE_LOOKED")
        self.is_written = os.environb.get(b"OVER_CACHE_READ_ONLY") != b"1"
        try:
            if self.was_looked or state.answers(path):
                self.folder = CacheFolder(path, self.is_written)
        except Refused as refused:
            state.say_once(b"it isn't used: %s" % refused.args[0])
        except OSError as fault:
            state.say_once(b"%s isn't used: %s" % (path, os.strerror(fault.errno or 0).encode()))

    def find(self, asked):
        """The values of an answer, or None."""
        if self.was_looked:
            return None
        try:
            entry = self.folder.find(asked.text, asked.outline, asked.found)
            return entry and entry.answer
        except Exception:
            # (whatever an entry has made of it, the command is started)
            return None

    def keep(self, asked, answer):
        """Keeps an answer; gives the one that counts."""
        if not self.is_written or not asked.stands():
            return answer
        try:
            kept = self.folder.keep(asked.text, asked.outline, asked.found, answer).answer
            self.folder.trim_by_chance()
            return kept
        except Exception as fault:
            why = getattr(fault, "strerror", None) or str(fault) or type(fault).__name__
            self.state.say_once(b"%s takes nothing more: %s" % (self.folder.path, why.encode()))
            return answer


def take_answer(asked, answer):
    """Code, output and standard error of an answer; the files of a run go to its folder before."""
    output, error, *files = answer
    if asked.run:
        asked.run.restore(files)
    return 0, output, error


def answer_of(name, words, command):
    """Code, output and standard error; None for a standard error that was put."""
    data = read_request()
    state = LocalState()
    cache = Cache(state, os.environb[b"OVER_CACHE"])
    asked = None
    if cache.folder:
        try:
            asked = Asked(state, name, words, data, cache.was_looked)
        except NotCached as why:
            if why.args[0]:
                state.say_once(why.args[0])
        except OSError as fault:
            state.say_once(b"nothing is looked up: %s" % (fault.strerror or str(fault)).encode())
    if asked and (answer := cache.find(asked)):
        try:
            return take_answer(asked, answer)
        except Exception:
            # (the folder of the run takes nothing: the command says so)
            pass
    code, output, error = run_command(command, [name, *words], data)
    if asked and code == 0 and error is not None and len(output) <= OUTPUT_MOST:
        files = asked.run.files() if asked.run else []
        if files is not None:
            kept = cache.keep(asked, [output, error, *files])
            if not asked.run:
                output = kept[0]
    return code, output, None


def end_as(code):
    """Ends the program as the command has ended."""
    if code < 0:
        signal.signal(-code, signal.SIG_DFL) if -code not in (signal.SIGKILL, signal.SIGSTOP) else None
        os.kill(os.getpid(), -code)
    os._exit(code if code >= 0 else 128 - code)


def start(words):
    name, *words = words
    # (on the other side of an engine, whose links there are no commands: the cache was asked on this one)
    is_inside = b"OVER_ENGINE_INSIDE" in os.environb
    command = found(name, GO_BETWEENS if is_inside else {PROGRAM})
    if not command:
        raise NoAnswer(f"there is no command {os.fsdecode(name)} behind this one in PATH")
    if is_inside or not os.environb.get(b"OVER_CACHE") or words[:1] == [b"--cache-key"]:
        become(command, [name, *words])
    take_signals()
    code, output, error = answer_of(name, words, command)
    if error:
        write_all(2, error)
    write_all(1, output)
    return code


def drain():
    """Reads the rest of the input: the runner writes everything before it reads."""
    try:
        while os.read(0, 65_536):
            pass
    except OSError:
        pass


def main():
    words = [os.fsencode(word) for word in sys.argv[1:]]
    words = words[1:] if words[0] == PROGRAM else words
    code = NO_ANSWER
    try:
        if not words or words[0].startswith(b"--"):
            from cache_tools import run_tool

            code = run_tool(words)
        else:
            code = start(words)
    except Stopped as stopped:
        code = 128 + stopped.number
    except BrokenPipeError:
        code = 128 + signal.SIGPIPE
    except SystemExit as ended:
        # (a wrapper that ran within this process)
        code = ended.code
    except Exception as fault:
        say(b"no answer: %s" % (getattr(fault, "strerror", None) or str(fault) or type(fault).__name__).encode())
        drain()
    finally:
        end_as(code)

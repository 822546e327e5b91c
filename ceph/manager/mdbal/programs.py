"""The proved programs: mdbal_ceph plans and checks, mdbal_drive says which pin is set when."""
import json
import os
import subprocess
from typing import Any, Callable, Dict, Iterator, List, NamedTuple, Tuple

from .cluster import Cluster
from .hands import NoAnswer
from .texts import Trouble, escaped, id_of, unescaped

# The path is no option: who may set options of the manager must not choose what it runs.
FOLDERS = [os.path.dirname(os.path.abspath(__file__)), '/usr/bin']
DONE, NOTHING, NOT_HELD = 0, 3, 4  # statuses of mdbal_ceph


class Plan(NamedTuple):
    id: str
    text: str              # for mdbal_drive
    is_proposed: bool
    told: Dict[str, Any]   # the JSON of mdbal_ceph
    report: str
    hour: bytes            # the record of its heat

    def why_not(self) -> str:
        """Why nothing is proposed: the last line of the report."""
        return self.report.rstrip().rpartition('\n')[2]

    def gain(self) -> float:
        """Percent by which the hottest rank gets cooler, in the worst of the hours that were seen."""
        alone = {key: max(it[key] for it in self.told['ranks']) for key in ('now', 'planned')}
        hours = [it for it in self.told.get('hours', []) if it['seen']] or [dict(alone, bound=self.told['bound'])]
        now, planned = (max(it[key] / it['bound'] for it in hours) for key in ('now', 'planned'))
        return float(100 * (now - planned) / now)


def program(name: str) -> str:
    for folder in FOLDERS:
        path = os.path.join(folder, name)
        if os.access(path, os.X_OK):
            return path
    raise Trouble('no program {} in {}'.format(name, ' or '.join(FOLDERS)))


def run(words: List[str], limit: float, good: Tuple[int, ...]) -> Tuple[int, bytes]:
    """The status of mdbal_ceph, which has to be a good one, and what it prints."""
    try:
        done = subprocess.run([program('mdbal_ceph')] + words, stdin=subprocess.DEVNULL, stdout=subprocess.PIPE,
                              stderr=subprocess.PIPE, timeout=limit, env={'LC_ALL': 'C'}, cwd='/', check=False)
    except subprocess.TimeoutExpired:
        raise Trouble('mdbal_ceph ran longer than {:.0f} seconds'.format(limit))
    except OSError as error:
        raise Trouble('mdbal_ceph: {}'.format(error))
    if done.returncode not in good:
        lines = done.stderr.decode('latin-1').strip().split('\n')
        raise Trouble('mdbal_ceph ended with status {}: {}'.format(done.returncode, lines[-1]))
    return done.returncode, done.stdout


def paths_of(folder: str, own: str, limit: float) -> List[bytes]:
    """The directories that the dumps or the list name, and all above them; the root is empty."""
    named = run([folder, '--own', own, '--paths0'], limit, (DONE,))[1]
    return [path[1:].rstrip(b'/') for path in named.split(b'\0') if path]


def plan(past: List[str], folder: str, own: str, options: List[str], limit: float) -> Plan:
    """A plan by the heat of a folder and of earlier hours."""
    words = past + [folder, '--own', own] + options
    pins, hour = os.path.join(folder, 'pins'), os.path.join(folder, 'hour')
    status, text = run(words + ['--pins', pins, '--record', hour, '--json'], limit, (DONE, NOTHING))
    report = run(words, limit, (status,))[1].decode('latin-1')
    with open(pins + '.plan', encoding='ascii') as it:
        plan_text = it.read()
    with open(hour, 'rb') as record:
        return Plan(id_of(plan_text), plan_text, status == DONE, json.loads(text.decode('utf-8')), report, record.read())


def hour(folder: str, limit: float) -> bytes:
    """The record of the heat of a folder, which needs no listing."""
    name = os.path.join(folder, 'hour')
    run([folder, '--record', name], limit, (DONE, NOTHING))
    with open(name, 'rb') as record:
        return record.read()


def check(folder: str, own: str, limit: float) -> Tuple[bool, List[str]]:
    """Whether all pins of the list hold; the lines that say so."""
    status, text = run([folder, '--check', own], limit, (DONE, NOT_HELD))
    return status == DONE, text.decode('latin-1').strip().split('\n')


class Stop(Trouble):
    """The work stops here. Of a run of mdbal_drive the input ends, and the text that was stored last says what may be set."""


class Host:
    """What mdbal_drive asks, answered by a cluster (docs/DRIVER.md). It decides nothing.

    rest(seconds) waits, and raises Stop where the run has to stop. store(text) keeps a text durably, or raises a Trouble.
    note(line) is told what became of a change.
    """

    def __init__(self, cluster: Cluster, rest: Callable[[float], None], store: Callable[[str], None], note: Callable[[str], None]) -> None:
        self.cluster, self.rest, self.store, self.note = cluster, rest, store, note

    def safe_answer(self, line: str, rest: Iterator[str]) -> str:
        try:
            return self.answer(line, rest)
        except Stop:
            raise
        except NoAnswer as trouble:
            self.note('no-answer {}'.format(trouble))
            return 'no-answer'
        except Trouble as trouble:
            self.note('refused {}'.format(trouble))
            return 'refused'
        except Exception as error:  # whatever it is, nothing is known of what was asked
            self.cluster.mgr.log.exception(line)
            self.note('no-answer {}'.format(error))
            return 'no-answer'

    def answer(self, line: str, rest: Iterator[str]) -> str:
        word, _, more = line.partition(' ')
        self.rest(float(more) if word == 'wait' else 0)
        if word == 'wait':
            return 'waited'
        if not self.cluster.mgr.have_mon_connection():
            return 'no-answer'
        if word == 'cluster':
            return ' '.join(['cluster', self.cluster.word()] + [escaped(it.encode()) for it in sorted(self.cluster.warnings())])
        if word == 'store':
            lines = []  # type: List[str]
            for one in rest:
                if one == '.\n':
                    self.store(''.join(lines))
                    return 'stored'
                lines.append(one)
        if word == 'get':
            return self.cluster.get(unescaped(more))
        if word == 'set':
            pin, _, path = more.partition(' ')
            return self.cluster.set(unescaped(path), int(pin))
        if word == 'roots':
            return 'in-place' if self.cluster.are_in_place() else 'moving'
        return 'refused'  # a question of a newer driver


def drive(what: str, text: str, options: List[str], host: Host) -> str:
    """Runs mdbal_drive set or restore over the text of a plan: how it ended, `done` or `stopped WHY`."""
    try:
        made = subprocess.Popen([program('mdbal_drive'), what] + options, stdin=subprocess.PIPE, stdout=subprocess.PIPE,
                                stderr=subprocess.PIPE, universal_newlines=True, encoding='ascii', env={'LC_ALL': 'C'}, cwd='/')
    except OSError as error:
        raise Trouble('mdbal_drive: {}'.format(error))
    assert made.stdin and made.stdout and made.stderr
    try:
        made.stdin.write(text + '.\n')
        made.stdin.flush()
        for line in made.stdout:
            word, _, more = line.rstrip('\n').partition(' ')
            if word == 'end':
                return more
            if word == 'note':
                host.note(more)
                continue
            made.stdin.write(host.safe_answer(line.rstrip('\n'), made.stdout) + '\n')
            made.stdin.flush()
        raise ended(made)
    except BrokenPipeError:
        raise ended(made)
    finally:
        end(made)


def ended(made: Any) -> Trouble:
    """Why mdbal_drive ended by itself."""
    return Trouble('mdbal_drive: {}'.format(made.stderr.read().strip() or 'ended by itself'))


def end(made: Any) -> None:
    """Ends mdbal_drive: without an input it stops by itself."""
    for stream in (made.stdin, made.stdout, made.stderr):
        try:
            stream.close()
        except OSError:
            pass
    try:
        made.wait(10)
    except subprocess.TimeoutExpired:
        made.kill()
        made.wait()

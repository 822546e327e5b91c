"""The jobs on a file system: plan, apply, rollback, check, and rounds. All of them run in the thread of the module."""
import os
import shutil
import tempfile
import time
from typing import Any, Callable, Dict, List, Type

from . import programs
from .cluster import Cluster
from .collect import Collector, write
from .gain import SURE, after, percent
from .hours import Hours
from .once import Trial, why_not
from .programs import Host, Stop
from .record import Planned, Record
from .rounds import may_act
from .state import SLOW, TURNED_OFF, State
from .texts import Refused, Trouble, id_of, listed, own_pins, pins_list, read_plan, unescaped

PAUSE = 5  # seconds from one check to the next, until the pins hold
UNKNOWN = 'not checked: '  # before the reason why it is not known whether pins hold
REST = 10  # seconds in which a pin that was just set may be read as its old value
COOL = 30  # seconds until the module's own reads of directories are no heat any more: Ceph's counters have a half-life of 5 s


class Work:
    """One job on a file system. mgr is the module."""

    def __init__(self, mgr: Any, record: Record, cluster: Cluster) -> None:
        self.mgr, self.record, self.cluster = mgr, record, cluster
        self.limit = mgr.number('program_limit')
        self.recorded = time.monotonic()  # when the heat was recorded last

    def rest(self, seconds: float) -> None:
        """Waits. Raises Stop where the manager shuts down, or `off` was asked for."""
        while True:
            part = min(seconds, 1)
            if self.mgr.sleep(part):
                raise Stop('the manager stops')
            if self.record.is_to_stop:
                raise Stop(TURNED_OFF)
            seconds -= part
            if seconds <= 0:
                return

    def rest_of_run(self, seconds: float) -> None:
        """Waits for what moves. A run may take longer than a round, and the heat is recorded meanwhile, too."""
        if seconds and time.monotonic() >= self.recorded + self.mgr.number('interval'):
            self.record_hour()
        self.rest(seconds)

    def say(self, doing: str) -> None:
        self.mgr.say(self.record.name, doing)

    # Plan and check

    def read_heat(self, collector: Collector) -> None:
        collector.dumps(*(self.mgr.number(it) for it in ('samples', 'pause', 'most_directories')))

    def record_of_heat(self, say: Callable[[str], None]) -> bytes:
        """Reads the heat, without that of what the module read itself, and records it for later plans."""
        folder = ''
        try:
            self.rest(COOL)
            folder = tempfile.mkdtemp(prefix=self.mgr.room())
            collector = Collector(self.cluster, folder, self.rest, say)
            self.read_heat(collector)
            collector.end()
            record = programs.hour(folder, self.limit)
            Hours(self.mgr, self.record.number).keep(record, int(time.time()))
            return record
        finally:
            self.recorded = time.monotonic()
            shutil.rmtree(folder, ignore_errors=True)

    def record_hour(self) -> None:
        """Records the heat while a run waits. What goes wrong with that stops no run, but a rank that does not answer."""
        try:
            self.record_of_heat(lambda doing: None)
        except Stop:
            raise
        except (Trouble, OSError, ValueError, KeyError) as why:
            self.mgr.log.info('%s: the heat is not recorded: %s', self.record.name, why)

    def own(self) -> Dict[bytes, int]:
        """The pins that are there by this program."""
        text = self.record.text
        if text.begun > text.certain:
            self.cluster.hands.call(lambda lib: lib.sync_fs())
            self.rest(REST)
        return own_pins(self.record.state.text, self.cluster.pin_of)

    def options(self, folder: str) -> List[str]:
        """The options of mdbal_ceph."""
        words = []  # type: List[str]
        for name in ('least_gain', 'keep', 'most_pins', 'least_heat', 'most_inodes'):
            value = self.mgr.number(name)
            if value or name in ('least_gain', 'keep'):
                words += ['--' + name.replace('_', '-'), str(value)]
        mask = str(self.mgr.get_module_option('mask') or '')
        leave = str(self.mgr.get_module_option('leave') or '').split()
        if mask:
            words.append('--mask=' + mask)
        if leave:
            write(folder, 'leave', b''.join(listed(unescaped(it)) + b'\n' for it in leave))
            words += ['--leave', os.path.join(folder, 'leave')]
        return words

    def plan(self) -> str:
        folder = tempfile.mkdtemp(prefix=self.mgr.room())
        try:
            own, list_of_own = self.own(), os.path.join(folder, 'own')
            write(folder, 'own', pins_list(own))
            collector = Collector(self.cluster, folder, self.rest, self.say)
            self.read_heat(collector)
            paths = programs.paths_of(folder, list_of_own, self.limit)
            entries = collector.listing(paths)
            collector.end()
            self.judge(folder, own, entries)
            self.say('planning')
            hours = Hours(self.mgr, self.record.number)
            count = self.mgr.number('hours')
            past = hours.write(folder, [listed(it) for it in paths]) if count > 1 else []
            words = ['--hours', str(count), '--made', str(self.mgr.number('made'))] + self.options(folder)
            plan = programs.plan(past, folder, list_of_own, words, self.limit)
            hours.keep(plan.hour, int(time.time()))
            self.recorded = time.monotonic()
        finally:
            shutil.rmtree(folder, ignore_errors=True)
        self.record.take_plan(Planned(plan, time.time(), self.cluster.word(), collector.rules))
        if not plan.is_proposed:
            return plan.why_not()
        return 'plan {}: {} pins to change'.format(plan.id, len(plan.told['changes']))

    def judge(self, folder: str, own: Dict[bytes, int], entries: Dict[bytes, int]) -> None:
        """Whether the pins hold, by the program. A directory that is empty moves with its first entry, and does not count."""
        ranks = self.cluster.ranks()
        if not own:
            self.record.held, self.record.not_held = '', []
            return
        counted = {path: rank for path, rank in own.items() if entries.get(path, 0) and rank in ranks}
        write(folder, 'counted', pins_list(counted))
        hold, lines = programs.check(folder, os.path.join(folder, 'counted'), self.limit)
        empty = sum(1 for path in own if entries.get(path) == 0)
        self.record.held = lines[-1] + (', {} directories are empty'.format(empty) if empty else '')
        self.record.not_held = [] if hold else lines[:-1]

    def check(self) -> str:
        folder = tempfile.mkdtemp(prefix=self.mgr.room())
        try:
            own = self.own()
            collector = Collector(self.cluster, folder, self.rest, self.say)
            collector.dumps(0, self.mgr.number('pause'), 0)
            entries = collector.listing(list(own))
            collector.end()
            self.judge(folder, own, entries)
        finally:
            shutil.rmtree(folder, ignore_errors=True)
        return self.record.held or 'no pin is set'

    # Pins

    def look_at_balancer(self) -> None:
        self.record.is_balancer_on = self.cluster.is_balancer_on()

    def refuse(self) -> None:
        """Raises Refused where no pin may be set now."""
        why = self.cluster.why_not()
        if not why:
            self.look_at_balancer()
            why = 'the balancer of Ceph is on' if self.record.is_balancer_on else ''
        if why:
            raise Refused(why)

    def apply(self, plan_id: str) -> str:
        """Sets the pins of the last plan, or goes on with the one that was not ended."""
        state = self.record.state
        if state.text and state.ended != 'done' and id_of(state.text) == plan_id and not self.is_last(plan_id):
            text = state.text
        else:
            text = self.fresh(plan_id)
        self.refuse()
        return self.drive('set', text)

    def is_last(self, plan_id: str) -> bool:
        return self.record.planned is not None and self.record.planned.plan.id == plan_id

    def fresh(self, plan_id: str) -> str:
        """The text of the last plan, which may be carried out."""
        planned = self.record.planned
        if planned is None or planned.plan.id != plan_id:
            raise Refused('{} is not the last plan'.format(plan_id))
        if time.time() - planned.time > self.mgr.number('plan_age'):
            raise Refused('the plan {} is too old: plan again'.format(plan_id))
        if self.cluster.word() != planned.word:
            raise Refused('the ranks changed since the plan {}: plan again'.format(plan_id))
        return planned.plan.text

    def once(self, plan_id: str) -> str:
        """Moves the directories of the last plan, and sets no pin."""
        text = read_plan(self.fresh(plan_id))
        why = why_not(text)
        if why:
            raise Refused(why)
        self.refuse()
        trial = Trial(self.cluster, self.rest, self.say)
        return 'once {}: {}'.format(plan_id, trial.run(text.changes, *(self.mgr.number(it) for it in ('poll', 'wait'))))

    def rollback(self) -> str:
        if not self.record.text.begun:
            raise Refused('nothing is set that could be restored')
        why = self.cluster.why_not()
        if why:
            raise Refused(why)
        return self.drive('restore', self.record.state.text)

    def drive(self, what: str, text: str) -> str:
        record, plan_id = self.record, id_of(text)
        options = []  # type: List[str]
        for name, word in (('batch', '--batch-inodes'), ('poll', '--poll'), ('wait', '--longest-wait')):
            options += [word, str(self.mgr.number(name))]
        run = Run(self, what, text.count('\nchange '))
        kind = Trouble  # type: Type[Trouble]
        try:
            ended = programs.drive(what, text, options, Host(self.cluster, self.rest_of_run, run.store, run.note))
        except Trouble as trouble:
            if self.mgr.is_ending.is_set():
                raise  # another manager finds that it did not end
            ended, kind = 'stopped {}'.format(trouble), Stop if isinstance(trouble, Stop) else Trouble
        finally:
            self.mgr.progress(record.name, None)
        if not run.is_stored:
            raise kind('{} {}: {}, and no pin was changed'.format(what, plan_id, ended + run.why))
        run.end(ended)
        if ended != 'done':
            raise kind('{} {}: {}'.format(what, plan_id, record.stopped + run.why))
        return '{} {}: {} of {} changes; {}'.format(what, plan_id, run.changed, run.of, self.wait_until_held())

    def wait_until_held(self) -> str:
        """Under load a rank takes up to a minute until it makes a pinned directory a root, which the driver's looks do not see."""
        left = self.mgr.number('wait')
        try:
            while True:
                begun = time.monotonic()
                held = self.check_again()
                if left <= 0 or not held.startswith(UNKNOWN) and not self.record.not_held:
                    return held
                self.say('waits: {}'.format(held))
                self.rest_of_run(PAUSE)
                left -= max(PAUSE, time.monotonic() - begun)  # a look takes seconds, too
        except Trouble as trouble:
            self.record.held = UNKNOWN + str(trouble)
            return self.record.held

    def check_again(self) -> str:
        """What a check says, or why nobody can say: subtrees move while they are read."""
        try:
            return self.check()
        except Refused as why:
            self.record.held = UNKNOWN + str(why)
            return self.record.held

    def round(self) -> str:
        self.refuse()
        said = self.plan()
        planned = self.record.planned
        assert planned
        if self.is_moving():
            return 'no pin is changed while directories of the last run move: {}'.format(self.record.held)
        if not planned.plan.is_proposed:
            return said
        if not may_act(self.mgr, time.localtime(time.time())):
            return said + ', which no round does at this time'
        if planned.plan.gain() < SURE:
            gained = self.gain_again(planned)
            if gained < self.mgr.number('least_gain'):
                return 'plan {} gains {:.1f} % in the heat that was read after it, and is left'.format(planned.plan.id, max(gained, 0))
        return self.apply(planned.plan.id)

    def gain_again(self, planned: Planned) -> float:
        """Percent that a plan gains in the heat of now. Chance makes a rank hotter in a few samples, and hardly the same one twice."""
        record, changes = self.record_of_heat(self.say), read_plan(planned.plan.text).changes
        return percent(record, self.cluster.subtree_ranks(), after(planned.rules, changes))

    def is_moving(self) -> bool:
        """Whether pins of the last run may still come to hold. A plan takes a directory to be where it lies, so it could take
        back what is under way. After twice the time that a batch may take, what does not hold is planned for as it lies."""
        state, longest = self.record.state, 2 * self.mgr.number('wait')
        return bool(self.record.not_held) and state.ended in ('done', SLOW) and time.time() < state.time + longest


class Run:
    """What is kept and told of a run of mdbal_drive."""

    def __init__(self, work: Work, what: str, of: int) -> None:
        self.work, self.what, self.of = work, what, of
        self.is_stored = False
        self.changed = 0
        self.why = ''
        work.record.settled = 0

    def keep(self, text: str, ended: str) -> None:
        record, state = self.work.record, State()
        state.on, state.text, state.what, state.ended, state.time = record.state.on, text, self.what, ended, int(time.time())
        self.work.mgr.store.save(record.number, state)
        record.take(state, is_running=not ended)

    def store(self, text: str) -> None:
        self.keep(text, '')
        self.is_stored = True
        self.work.record.planned = None  # it was made for other pins

    def end(self, ended: str) -> None:
        record = self.work.record
        try:
            self.keep(record.state.text, ended)
        except Trouble as trouble:
            record.stopped = '{}, and that is not stored: {}; {}'.format(ended, trouble, record.how_to_go_on())
            raise

    def note(self, line: str) -> None:
        """What became of a change, or why the cluster gave no answer."""
        word, _, more = line.partition(' ')
        self.work.mgr.log.info('%s: %s', self.work.record.name, line)
        if word in ('set', 'gone', 'left'):
            self.changed += word == 'set'
            self.work.record.settled += 1
            self.work.say('{}: {} of {} changes'.format(self.what, self.work.record.settled, self.of))
            self.work.mgr.progress(self.work.record.name, min(self.work.record.settled / max(self.of, 1), 1.0))
        else:
            self.why = ' ({})'.format(more)

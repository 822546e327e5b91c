"""ceph fs mdbal: balances the subtrees of CephFS file systems over their ranks by export pins.

The proved programs decide: mdbal_ceph which pins, and mdbal_drive which of them is set when. This module reads what they
need, does what they ask, and tells people of it. All that takes time is a job of the thread of serve(), as the commands of
a module wait for each other: so status always answers.
"""
import errno
import glob
import json
import os
import queue
import shutil
import tempfile
import threading
import time
from typing import Any, Dict, List, NamedTuple, Optional, Tuple

from mgr_module import CommandResult, MgrModule, Option
from mgr_util import CephfsClient

from . import programs, telling
from .cli import Registry, command
from .cluster import Cluster, file_systems
from .endpoint import Endpoint
from .hands import Hands, NoAnswer
from .jobs import Work
from .record import Record
from .rounds import served
from .state import Store
from .texts import Refused, Trouble, id_of

Answer = Tuple[int, str, str]
FIRST_ROUND = 60  # seconds after the manager began, when it knows the cluster


class Job(NamedTuple):
    what: str
    fs: str
    id: str = ''


class Module(MgrModule):
    CLICommand = Registry
    NOTIFY_TYPES: List[Any] = []
    MODULE_OPTIONS = [
        Option('interval', type='secs', default=300, min=30, runtime=True, desc='seconds from a round to the next, of file systems that are on'),
        Option('uneven', type='uint', default=150, runtime=True,
               desc='a round comes at once where the hottest rank is at so many percent of the mean for half a minute, in requests; 0: never'),
        Option('begin_time', type='str', default='0000', runtime=True, desc='rounds set pins from this local time of the day on, as 2200'),
        Option('end_time', type='str', default='2400', runtime=True, desc='rounds set no pins from this local time of the day on'),
        Option('begin_weekday', type='uint', default=0, max=7, runtime=True, desc='rounds set pins from this day of the week on; 0 and 7: Sunday'),
        Option('end_weekday', type='uint', default=7, max=7, runtime=True, desc='rounds set no pins from this day of the week on'),
        Option('samples', type='uint', default=6, min=1, max=60, runtime=True, desc='samples of the heat for a plan'),
        Option('pause', type='secs', default=3, runtime=True, desc='seconds between two samples'),
        Option('hours', type='uint', default=24, min=1, max=32, runtime=True,
               desc='plan for so many hours: now, and the most different of those that are recorded; 1: for now alone'),
        Option('made', type='uint', default=12, max=31, runtime=True,
               desc='plan for so many made hours, too, in each of which half of the load is on the directories below one; 0: for none'),
        Option('least_gain', type='uint', default=5, max=100, runtime=True,
               desc='propose nothing if the hottest rank gets cooler by fewer percent'),
        Option('least_heat', type='uint', default=0, runtime=True,
               desc='propose nothing if the hottest rank has less heat; 0: 4 for each rank that may have a part'),
        Option('keep', type='uint', default=5, runtime=True, desc='percent by which a plan may be hotter than the coolest, to move less'),
        Option('most_pins', type='uint', default=1000, min=1, max=65535, runtime=True, desc='the most pins that a plan may leave'),
        Option('most_inodes', type='uint', default=0, runtime=True, desc='the most inodes that a plan may move; 0: no limit'),
        Option('leave', type='str', default='', runtime=True,
               desc='directories that never move, separated by blanks; a blank in a name is \\040'),
        Option('mask', type='str', default='', runtime=True, desc='ranks that may have a part, as 0x3; empty: the mask of the file system'),
        Option('batch', type='uint', default=100000, min=1, runtime=True, desc='wait after pins on directories with so many inodes'),
        Option('poll', type='secs', default=5, min=1, runtime=True, desc='seconds between two looks while a batch moves'),
        Option('wait', type='secs', default=600, min=1, runtime=True, desc='seconds that a batch may take'),
        Option('plan_age', type='secs', default=900, min=1, runtime=True, desc='seconds after which a plan is not applied any more'),
        Option('program_limit', type='secs', default=300, min=1, runtime=True, desc='seconds that mdbal_ceph may run'),
        Option('call_limit', type='secs', default=60, min=1, runtime=True, desc='seconds within which a rank has to answer'),
        Option('most_directories', type='uint', default=200000, runtime=True,
               desc='ask no rank for its heat that caches more directories: it answers nobody else for 47 us each'),
        Option('warn_percent', type='uint', default=0, runtime=True,
               desc='warn where the hottest rank was so many percent above what a plan could give at three plans in a row; 0: never'),
        Option('metrics_port', type='uint', default=0, max=65535, runtime=True, desc='port of the metrics for Prometheus; 0: none'),
    ]

    def __init__(self, *args: Any, **kwargs: Any) -> None:
        super().__init__(*args, **kwargs)
        self.is_ending = threading.Event()
        self.jobs = queue.Queue()  # type: queue.Queue[Job]
        self.store = Store(self, self.is_kept)
        self.records = {}  # type: Dict[str, Record]
        self.refused = {}  # type: Dict[str, str]
        self.clients = {}  # type: Dict[str, Any]
        self.doing = 'starts'
        self.endpoint = Endpoint(self.metrics_text)

    @staticmethod
    def can_run() -> Tuple[bool, str]:
        try:
            programs.program('mdbal_ceph')
            programs.program('mdbal_drive')
        except Trouble as trouble:
            return False, str(trouble)
        return True, ''

    # Commands. None of them waits for anything.

    @command('fs mdbal status', perm='r')
    def status(self, fs: Optional[str] = None, format: Optional[str] = None) -> Answer:
        """Show how far file systems are from balanced, and what mdbal does"""
        told = {}  # type: Dict[str, Any]
        for name in sorted(file_systems(self)):
            if fs in (None, name):
                record = self.records.get(name)
                told[name] = telling.status(record) if record else {'refused': self.refused.get(name, 'not read yet')}
        if fs is not None and not told:
            return -errno.ENOENT, '', 'there is no file system {}'.format(fs)
        if format and format.startswith('json'):
            return 0, json.dumps({'doing': self.doing, 'waiting': self.jobs.qsize(), 'file_systems': told}), ''
        lines = ['mdbal {}'.format(self.doing or 'does nothing now') + (', {} more to do'.format(self.jobs.qsize()) if self.jobs.qsize() else '')]
        for name in told:
            lines += telling.plain(name, told[name])
        return 0, '\n'.join(lines), ''

    @command('fs mdbal plan', perm='rw')  # it keeps the ranks busy
    def plan(self, fs: str) -> Answer:
        """Read the heat of a file system and make a plan, which changes nothing"""
        return self.ask(Job('plan', fs))

    @command('fs mdbal show', perm='r')
    def show(self, fs: str, format: Optional[str] = None) -> Answer:
        """Show the last plan of a file system"""
        record = self.records.get(fs)
        planned = record.planned if record else None
        if planned is None:
            return -errno.ENOENT, '', 'there is no plan of {}: ceph fs mdbal plan {}'.format(fs, fs)
        if format and format.startswith('json'):
            return 0, json.dumps(dict(planned.plan.told, id=planned.plan.id)), ''
        return 0, telling.show(planned), ''

    @command('fs mdbal apply', perm='rw')
    def apply(self, fs: str, id: str, once: bool = False) -> Answer:
        """Set the pins of the plan with this id, or go on with it where it was stopped; --once: move its directories without pins"""
        record = self.records.get(fs)
        planned = record.planned if record else None
        if record and not (planned and planned.plan.id == id or record.state.text and id_of(record.state.text) == id):
            return -errno.ENOENT, '', '{} is not the last plan of {}'.format(id, fs)
        if planned and planned.plan.id == id and not planned.plan.is_proposed:
            return -errno.EINVAL, '', '{} changes no pin'.format(id)
        return self.ask(Job('once' if once else 'apply', fs, id))

    @command('fs mdbal rollback', perm='rw')
    def rollback(self, fs: str) -> Answer:
        """Restore the pins of before the last apply"""
        return self.ask(Job('rollback', fs))

    @command('fs mdbal check', perm='rw')
    def check(self, fs: str) -> Answer:
        """Compare the pins of mdbal with where the directories are"""
        return self.ask(Job('check', fs))

    @command('fs mdbal on', perm='rw')
    def on(self, fs: str) -> Answer:
        """Balance a file system by itself, a round each mgr/mdbal/interval seconds"""
        return self.ask(Job('on', fs))

    @command('fs mdbal off', perm='rw')
    def off(self, fs: str) -> Answer:
        """Leave a file system alone; a run stops after the pin under way. Pins stay"""
        record = self.records.get(fs)
        if record:
            record.is_to_stop = True
        return self.ask(Job('off', fs))

    @command('fs mdbal metrics', perm='r')
    def metrics(self) -> Answer:
        """The last plans and rounds, in the text format of Prometheus"""
        return 0, self.metrics_text(), ''

    def metrics_text(self) -> str:
        return telling.metrics([it for _, it in sorted(self.records.items())])

    def ask(self, job: Job) -> Answer:
        if job.fs not in file_systems(self):
            return -errno.ENOENT, '', 'there is no file system {}'.format(job.fs)
        if job.fs not in self.records:
            return -errno.EAGAIN, '', self.refused.get(job.fs, 'mdbal starts: try again')
        self.jobs.put(job)
        return 0, 'begun: ceph fs mdbal status {}'.format(job.fs), ''

    # For jobs

    def number(self, name: str) -> int:
        """The value of an option that is a number."""
        value = self.get_module_option(name)
        assert value is not None, name
        return int(value)

    def sleep(self, seconds: float) -> bool:
        """Waits; whether the manager ends this module."""
        return self.is_ending.wait(seconds)

    def room(self) -> str:
        """What the names of the folders of this manager's jobs begin with."""
        return 'mdbal-{}-{}-'.format(self.get('mon_map')['fsid'], self.get_mgr_id())

    def clear(self) -> None:
        """Removes what jobs left behind whose manager was killed."""
        for folder in glob.glob(glob.escape(os.path.join(tempfile.gettempdir(), self.room())) + '*'):
            shutil.rmtree(folder, ignore_errors=True)

    def say(self, fs: str, doing: str) -> None:
        self.doing = '{}: {}'.format(fs, doing)

    def is_kept(self, key: str, value: str) -> bool:
        """Whether the monitors have this value: the manager's own store says so even where they refused it."""
        result = CommandResult('')
        self.send_command(result, 'mon', '', json.dumps({'prefix': 'config-key get', 'key': 'mgr/mdbal/' + key}), '')
        if not result.ev.wait(self.number('call_limit')):
            raise NoAnswer('the monitors do not answer')
        return bool(result.r == 0 and result.outb == value)

    def progress(self, fs: str, done: Optional[float]) -> None:
        name = 'mdbal-{}'.format(fs)
        try:
            if done is None:
                self.remote('progress', 'complete', name)
            else:
                self.remote('progress', 'update', name, 'mdbal: pins of {}'.format(fs), done, ['mdbal', fs], True)
        except Exception as error:  # that module may be off
            self.log.debug('progress: %s', error)

    # The thread

    def serve(self) -> None:
        self.log.info('mdbal starts')
        self.clear()
        while not self.is_ending.is_set():
            try:
                self.meet()
                self.look()
                self.endpoint.use(self.number('metrics_port'))
            except Exception:  # whatever it is, the thread goes on
                self.log.exception('mdbal')
            try:
                job = self.jobs.get(timeout=1)
            except queue.Empty:
                continue
            record = self.records.get(job.fs)
            if record is not None:
                self.do(job, record)
                self.doing = ''
                self.tell_health()

    def shutdown(self) -> None:
        self.is_ending.set()
        self.endpoint.use(0)
        super().shutdown()

    def meet(self) -> None:
        """Reads the state of file systems that are new, and forgets those that are gone."""
        found = file_systems(self)
        for name, record in list(self.records.items()):
            if name not in found or found[name]['id'] != record.number:
                del self.records[name]
        for name, it in found.items():
            if name not in self.records:
                try:
                    self.records[name] = Record(name, it['id'], self.store.load(it['id']))
                    self.records[name].watch.next = time.monotonic() + FIRST_ROUND
                    self.refused.pop(name, None)
                    self.tell_health()
                except Trouble as trouble:
                    self.refused[name] = str(trouble)
        if self.doing == 'starts':
            self.doing = ''

    def look(self) -> None:
        """Looks at the file systems that are on, and asks for the rounds that are due."""
        now = time.monotonic()
        for name, record in self.records.items():
            if not record.state.on:
                continue
            if record.watch.is_look_due(now):
                mds_map = file_systems(self)[name]['mdsmap']
                record.watch.look(served(self, mds_map), now, self.number('uneven') / 100)
            if record.watch.is_round_due(now):
                record.watch.next, record.watch.uneven = now + self.number('interval'), 0
                self.jobs.put(Job('round', name))

    def do(self, job: Job, record: Record) -> None:
        self.say(job.fs, job.what)
        if job.what in ('on', 'off'):
            record.is_to_stop = False
        try:
            said = self.done(job, record)
            record.say('{}: {}'.format(job.what, said), True)
            if job.what in ('apply', 'rollback', 'round'):
                record.stopped = ''
        except Exception as error:  # whatever it is, the thread goes on
            record.say('{}: {}'.format(job.what, error), False)
            if not isinstance(error, Trouble):
                self.log.exception(job.what)
            if record.state.what and not record.state.ended and not record.stopped:
                record.take(record.state)  # whatever ended the run, it is not done
            if job.what == 'round' and not isinstance(error, (Refused, programs.Stop)):
                record.stopped = str(error)  # nobody reads the answer
        if job.what == 'round':
            self.after_round(record)
        self.log.info('%s: %s', job.fs, record.said)

    def after_round(self, record: Record) -> None:
        has_set = record.is_well and not record.planned
        record.rounds, record.round_time = record.rounds + 1, int(time.time())
        record.round_status = (0 if has_set else 3) if record.is_well else 4 if record.state.ended not in ('', 'done') else 1
        record.watch.after_round(time.monotonic(), self.number('interval'), has_set)

    def done(self, job: Job, record: Record) -> str:
        """Does a job, and says what it came to."""
        if job.what == 'off':
            self.turn(record, False)
            return 'the pins stay'
        if job.what == 'on':
            self.turn(record, True)
            record.watch.next = time.monotonic()  # the first round comes at once
            return 'a round each {} s'.format(self.number('interval'))
        if job.what == 'round' and not record.state.on:
            return 'it was turned off'
        client = self.clients.setdefault(job.fs, None) or CephfsClient(self)
        self.clients[job.fs] = client
        hands = Hands(client, job.fs, self.number('call_limit'))
        try:
            work = Work(self, record, Cluster(self, job.fs, hands))
            if job.id:
                return {'apply': work.apply, 'once': work.once}[job.what](job.id)
            return {'plan': work.plan, 'check': work.check, 'rollback': work.rollback, 'round': work.round}[job.what]()
        finally:
            hands.close()
            if hands.is_left:
                del self.clients[job.fs]  # the next job mounts anew

    def turn(self, record: Record, on: bool) -> None:
        before, record.state.on = record.state.on, on
        try:
            self.store.save(record.number, record.state)
        except Trouble:
            record.state.on = before
            raise

    def tell_health(self) -> None:
        self.set_health_checks(telling.health(list(self.records.values()), self.number('warn_percent')))

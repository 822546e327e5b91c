"""What the module knows of a file system while it runs."""
import time
from typing import Dict, List, NamedTuple, Optional

from .programs import Plan
from .rounds import Watch
from .state import TURNED_OFF, State
from .texts import PlanText, id_of, read_plan


UNEVEN_PLANS = 3  # plans in a row that find a file system uneven, for a warning


class Planned(NamedTuple):
    """The last plan, which is kept in memory only."""
    plan: Plan
    time: float  # in seconds since 1970
    word: str    # the ranks of then
    rules: Dict[bytes, int]  # what decides where directories are, before its changes


class Record:
    def __init__(self, name: str, number: int, state: State) -> None:
        self.name, self.number = name, number
        self.planned = None  # type: Optional[Planned]
        self.said = ''       # what the last job came to
        self.time = 0        # when that was
        self.is_well = True  # whether it did what it was to do
        self.held = ''       # what the last check said
        self.not_held = []   # type: List[str]
        self.is_balancer_on = False
        self.is_to_stop = False  # `off` was asked for while pins are set
        self.settled = 0     # changes of the run that goes on
        self.rounds = 0      # since the manager started
        self.round_status = 0  # as ceph/balance has it: 0 done, 3 nothing proposed, 1 failed, 4 stopped after some pins
        self.round_time = 0  # when the last one ended
        self.watch = Watch()
        self.stopped = ''    # why pins are set half way, or why rounds do not go on
        self.above = []      # type: List[float]  # percent by which the hottest rank was above the bound at the last plans
        self.take(state)

    def take(self, state: State, is_running: bool = False) -> None:
        """Takes over what is kept now. A run that is neither running nor ended was one of a manager that stopped."""
        self.state = state
        self.text = read_plan(state.text)  # type: PlanText
        self.stopped = ''
        if state.what and not state.ended and not is_running:
            self.stopped = 'the manager stopped while pins were {}; {}'.format(
                'set' if state.what == 'set' else 'restored', self.how_to_go_on())
        elif state.ended not in ('', 'done'):
            self.stopped = '{}; {}'.format(state.ended, self.how_to_go_on())

    def take_plan(self, planned: Planned) -> None:
        told = planned.plan.told
        hottest = max((it['now'] for it in told['ranks']), default=0)
        above = 0.0 if told['idle'] else 100 * (hottest / told['bound'] - 1)
        self.planned, self.above = planned, (self.above + [above])[-UNEVEN_PLANS:]

    def how_to_go_on(self) -> str:
        return 'up to {} of {} pins are set: `ceph fs mdbal apply {} {}` goes on, `rollback` restores'.format(
            self.text.begun, len(self.text.changes), self.name, id_of(self.state.text))

    def trouble(self) -> str:
        """Why it stopped, for a warning: nothing where `off` ended the last run."""
        return '' if self.stopped.startswith('stopped ' + TURNED_OFF) else self.stopped

    def say(self, said: str, is_well: bool) -> None:
        self.said, self.is_well, self.time = said, is_well, int(time.time())

"""What people and monitoring read: status, the plan, metrics, health."""
import time
from typing import Any, Dict, List

from .record import UNEVEN_PLANS, Planned, Record
from .texts import NO_PIN, escaped, id_of, read_plan

MOST_LINES = 10  # of the detail of a health warning


def ratios(planned: Planned) -> Dict[str, Any]:
    """What a plan comes to. An idle file system, as one without load is, has no ratios."""
    told = planned.plan.told
    heats = [it['now'] for it in told['ranks']]
    mean = sum(heats) / max(len(heats), 1)
    found = {'id': planned.plan.id, 'age_seconds': int(time.time() - planned.time), 'proposed': planned.plan.is_proposed,
             'idle': told['idle'], 'pins_to_change': len(told['changes']), 'inodes_moved': told['inodes_moved']}  # type: Dict[str, Any]
    if not told['idle']:
        found['greatest_to_mean'] = round(max(heats) / mean, 3)
        found['planned_to_mean'] = round(max(it['planned'] for it in told['ranks']) / mean, 3)
        found['bound_to_mean'] = round(told['bound'] / mean, 3)
    return found


def status(record: Record) -> Dict[str, Any]:
    state, text = record.state, record.text
    found = {'on': state.on, 'last': record.said, 'last_seconds_ago': int(time.time() - record.time) if record.time else None,
             'stopped': record.stopped, 'held': record.held}  # type: Dict[str, Any]
    if state.what:
        found['set'] = {'id': id_of(state.text), 'what': state.what, 'ended': state.ended or 'not ended', 'changes': len(text.changes),
                        'begun': text.begun, 'certain': text.certain, 'settled_now': record.settled}
    if record.planned:
        found['plan'] = ratios(record.planned)
    if state.on:
        found['next_round_seconds'] = max(0, int(record.watch.next - time.monotonic()))
        found['requests_to_mean'] = record.watch.to_mean
    return found


def plan_line(plan: Dict[str, Any]) -> str:
    if plan['idle']:
        return 'idle: too little load to plan for'
    found = 'the hottest rank is at {:.2f} of the mean'.format(plan['greatest_to_mean'])
    least = ', and no plan gets below {:.2f}'.format(plan['bound_to_mean'])
    if not plan['proposed']:
        return '{}{}; nothing is proposed'.format(found, least)
    return '{}; {} pins give {:.2f}{} (plan {}, {} s old)'.format(
        found, plan['pins_to_change'], plan['planned_to_mean'], least, plan['id'], plan['age_seconds'])


def plain(name: str, told: Dict[str, Any]) -> List[str]:
    """The lines of a file system's status."""
    if 'refused' in told:
        return ['{}: {}'.format(name, told['refused'])]
    if told['on']:
        seen = told['requests_to_mean']
        lines = ['{}: on, next round in {} s{}'.format(name, told['next_round_seconds'],
                                                        '' if seen is None else ', requests at {:.2f} of the mean'.format(seen))]
    else:
        lines = ['{}: off'.format(name)]
    if 'plan' in told:
        lines.append('  plan: ' + plan_line(told['plan']))
    if 'set' in told:
        it = told['set']
        lines.append('  {}: {}, {}, {} of {} changes may be set'.format(it['what'], it['id'], it['ended'], it['begun'], it['changes']))
    if told['held']:
        lines.append('  held: ' + told['held'])
    if told['stopped']:
        lines.append('  stopped: ' + told['stopped'])
    if told['last']:
        lines.append('  last: {} ({} s ago)'.format(told['last'], told['last_seconds_ago']))
    return lines


def show(planned: Planned) -> str:
    """The report, and the changes as they would be made."""
    def pin(rank: int) -> str:
        return '-' if rank == NO_PIN else str(rank)
    lines = ['{:>5} {:>5}  {}'.format(pin(it.after), pin(it.before), escaped(it.path)) for it in read_plan(planned.plan.text).changes]
    head = 'plan {}, {} seconds old\n\n{}\n'.format(planned.plan.id, int(time.time() - planned.time), planned.plan.report)
    return head + '\n'.join(['  pin   was  directory'] + lines if planned.plan.is_proposed else ['no pin changes'])


def health(records: List[Record], most_above: int) -> Dict[str, Any]:
    """The health checks of all file systems. most_above is the percent above the bound from which on there is a warning; 0: none."""
    found = {}  # type: Dict[str, Any]

    def warn(code: str, summary: str, detail: List[str]) -> None:
        if detail:
            shown = detail[:MOST_LINES] + (['and {} more'.format(len(detail) - MOST_LINES)] if len(detail) > MOST_LINES else [])
            found[code] = {'severity': 'warning', 'count': len(detail), 'summary': summary, 'detail': shown}

    warn('MDBAL_STOPPED', 'mdbal stopped before it was done',
         ['file system {}: {}'.format(it.name, it.trouble()) for it in records if it.trouble()])
    warn('MDBAL_NOT_HELD', 'directories are not at the rank of their pin',
         ['file system {}: {}'.format(it.name, line) for it in records for line in it.not_held])
    warn('MDBAL_BALANCER_ON', 'mdbal is on, and so is the balancer of Ceph',
         ['file system {}: turn the balancer of Ceph off'.format(it.name) for it in records if it.state.on and it.is_balancer_on])
    warn('MDBAL_UNEVEN', 'the hottest rank is far above what a plan could give',
         ['file system {}: {:.0f} % above the bound at the last {} plans'.format(it.name, min(it.above), UNEVEN_PLANS)
          for it in records if most_above and len(it.above) == UNEVEN_PLANS and min(it.above) > most_above])
    return found


HELP = (('greatest_to_mean', 'Greatest heat of a rank to the mean, when the last plan was made; left out where the file system is idle.'),
        ('planned_to_mean', 'The same as planned.'),
        ('bound_to_mean', 'What no plan can go below, to the mean.'),
        ('pins_changed', 'Changes of pins in the last plan.'),
        ('inodes_moved', 'Inodes that the last plan moves.'),
        ('heat', 'Heat of a rank, when the last plan was made and as planned.'),
        ('round_number', 'Number of the last round since the manager started.'),
        ('round_status', 'How it ended: 0 done, 3 nothing proposed, 1 failed, 4 stopped.'),
        ('round_time_seconds', 'When it ended, in seconds since 1970.'),
        ('plan_taken', 'Whether its plan was carried out, 1 or 0.'),
        ('on', 'Whether the file system is balanced by itself, 1 or 0.'),
        ('stopped', 'Whether there is a reason why mdbal stopped, 1 or 0.'),
        ('not_held', 'Directories that are not at the rank of their pin.'))


def metrics(records: List[Record]) -> str:
    """In the text format of Prometheus, by the names that ceph/rounds has, so that one dashboard serves for both."""
    rows = {name: [] for name, _ in HELP}  # type: Dict[str, List[str]]
    for record in records:
        label = 'fs="{}"'.format(record.name)

        def row(name: str, value: Any, more: str = '', label: str = label) -> None:
            if value is not None:
                rows[name].append('mdbal_{}{{{}{}}} {}'.format(name, label, more, value))

        row('on', int(record.state.on))
        row('stopped', int(bool(record.trouble())))
        row('not_held', len(record.not_held))
        if record.round_time:
            row('round_number', record.rounds)
            row('round_status', record.round_status)
            row('round_time_seconds', record.round_time)
            row('plan_taken', int(record.round_status == 0))
        if record.planned:
            plan = ratios(record.planned)
            for name in ('greatest_to_mean', 'planned_to_mean', 'bound_to_mean', 'inodes_moved'):
                row(name, plan.get(name))
            row('pins_changed', plan['pins_to_change'])
            for it in record.planned.plan.told['ranks']:
                for when, key in (('found', 'now'), ('planned', 'planned')):
                    row('heat', it[key] / 1000, ',rank="{}",when="{}"'.format(it['rank'], when))
    return ''.join('# HELP mdbal_{0} {1}\n# TYPE mdbal_{0} gauge\n{2}\n'.format(name, text, '\n'.join(rows[name]))
                   for name, text in HELP if rows[name])

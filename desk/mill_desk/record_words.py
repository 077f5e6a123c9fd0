"""The records of a log in words: why each path is closed, or why it isn't."""

from collections import Counter
from dataclasses import dataclass

from mill_desk.answer import Record, RecordKind
from mill_desk.log_tree import MOST_OPEN, Fault, LiveGroup, LogTree, Path, Room
from mill_desk.numbers import plural, show


@dataclass(frozen=True)
class Words:
    """A record in words: a label for its box, and why it closes its path."""

    label: str
    text: str


def path_text(path: Path) -> str:
    """A path for people."""
    return ' '.join(map(str, path)) or '(empty)'


def words_of(tree: LogTree, path: Path) -> Words:
    """The words of a path that has a record, or is to have one."""
    fault = tree.fault_of(path)
    if fault is Fault.MISSING:
        return Words('missing', 'Missing: this case of a split has no record.')
    record = tree.records[path]
    if fault is Fault.STRAY:
        return Words('stray', 'Stray: this path is no case of a split one, so its record closes '
                     'nothing.')
    made = _WORDS[record.kind](tree, record)
    if fault is Fault.UNSOUND:
        return Words('unsound', f'{made.text} So this record is unsound.')
    return made


def split_words(tree: LogTree, record: Record) -> Words:
    """Which groups the next order may go on, and why not on the others."""
    ranking, path = tree.ranking, record.path
    if len(path) == len(ranking.orders):
        return Words('split', 'Split: but every order has its slab already.')
    order = ranking.orders[len(path)]
    count = len(ranking.children(path))
    reasons = [why_not(tree, path, group) for group in range(1, len(set(path)) + 2)]
    barred = [reason for reason in reasons if reason]
    text = (f'Split: order {order.id} goes on each begun slab that stays legal, or on a new one: '
            f'{plural(count, "case")}.')
    return Words('split', text + (f' Not possible: {"; ".join(barred)}.' if barred else ''))


def why_not(tree: LogTree, path: Path, group: int) -> str:
    """Why the next order may not go on a group; '' where it may."""
    ranking = tree.ranking
    room = ranking.room(path, group)
    if room is Room.FREE:
        return ''
    order = ranking.orders[len(path)]
    joined = [*ranking.groups(path).get(group, []), order]
    if room is Room.HEAVY:
        load = sum(other.steps for other in joined)
        return f'slab {group} would weigh {show(load)}, more than {show(ranking.top)}'
    if room is Room.COLOURFUL:
        return f'slab {group} would have {len({other.colour for other in joined})} colours'
    return (f'slab {group} comes before slab {path[-1]} of the equal order '
            f'{ranking.orders[len(path) - 1].id}, and equal orders come in rising groups')


def leaf_words(tree: LogTree, record: Record) -> Words:
    """What the plan of a leaf loses, slab by slab."""
    ranking, path = tree.ranking, record.path
    if len(path) < len(ranking.orders):
        return Words('leaf', f'Leaf: but order {ranking.orders[len(path)].id} has no slab yet.')
    losses = ranking.losses(path)
    total = sum(losses)
    parts = ' + '.join(f'{show(loss)} (slab {group})'
                       for group, loss in zip(ranking.groups(path), losses, strict=True)) or '0'
    told = 'is not less' if total >= tree.loss else 'is less'
    label = f'loses {show(total)}' + (' = best' if total == tree.loss else '')
    return Words(label, f'Leaf: every order has its slab. The plan loses {parts} = {show(total)}, '
                 f'which {told} than {show(tree.loss)}.')


def priced_words(tree: LogTree, record: Record) -> Words:
    """The prices, the least slack of each group, the worth, and what it is compared with."""
    ranking = tree.ranking
    later = ranking.orders[len(record.path):]
    if len(later) > MOST_OPEN:
        return Words('priced', f'Priced: {len(later)} orders are open, too many to explain here.')
    priced = ranking.pricing(record.path, record.rest)
    paid = ', '.join(f'order {order.id} {price}'
                     for order, price in zip(later, record.rest, strict=True)) or 'no order'
    text = f'Priced, in sixtieths of a unit of loss: {paid}. '
    if priced.overpaid is None:
        text += 'No legal slab of open orders alone is paid more than it loses. '
    else:
        names = ', '.join(order.id for order in priced.overpaid)
        text += (f'But a slab of {names} alone is paid more than it loses, so the prices aren\'t '
                 'valid. ')
    slacks = ', '.join(f'slab {group} {slack}' for group, slack in priced.slacks.items())
    if slacks:
        text += f'The least that begun slabs lose beyond the prices of what joins them: {slacks}. '
    bound = 60 * (tree.loss - 1)
    told = 'more' if priced.worth > bound else 'not more'
    text += (f'Prices and least slacks together, the worth, are {priced.worth}, which is {told} '
             f'than 60 ({show(tree.loss)} - 1) = {bound}')
    least = -(-priced.worth // 60)
    text += f': every plan under this path loses at least {show(max(least, 0))}.' \
        if priced.overpaid is None else '.'
    return Words(f'≥ {show(max(least, 0))}', text)


def dominated_words(tree: LogTree, record: Record) -> Words:
    """Live key and dead loss of both paths."""
    ranking, other = tree.ranking, record.rest
    text = f'Dominated by the path {path_text(other)}. '
    if not ranking.is_in_tree(other):
        return Words('as another', text + 'But that path isn\'t in the tree.')
    mine, theirs = ranking.live_key(record.path), ranking.live_key(other)
    text += f'Slabs that can still take an order here: {key_text(mine)}; '
    text += 'there the same. ' if mine == theirs else f'but there: {key_text(theirs)}. '
    dead, less = ranking.dead_loss(record.path), ranking.dead_loss(other)
    text += f'The other slabs have lost {show(dead)} here and {show(less)} there. '
    named = tree.records.get(other)
    if not ranking.starts_class(len(record.path)):
        text += 'But the path ends between two equal orders.'
    elif mine != theirs or less > dead:
        text += 'So that path isn\'t known to be as good.'
    elif named is None or named.kind is RecordKind.DOMINATED:
        text += 'But that path isn\'t closed by a record of its own.'
    else:
        text += 'So what is best under that path is at least as good.'
    return Words('as another', text)


def key_text(key: Counter[LiveGroup]) -> str:
    """A live key for people."""
    groups = []
    for (load, colours, has), times in sorted(key.items(), reverse=True):
        shared = sum(has)
        told = f'load {show(load)}, {plural(colours, "colour")}'
        told += f', {shared} of {len(has)} open orders in one of them'
        groups.append(f'{times} times {told}' if times > 1 else told)
    return '; '.join(groups) or 'none'


_WORDS = {RecordKind.SPLIT: split_words, RecordKind.LEAF: leaf_words,
          RecordKind.PRICED: priced_words, RecordKind.DOMINATED: dominated_words}

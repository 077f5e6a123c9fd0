#!/usr/bin/python3
"""A stand-in for mill_slab, for tests without the kit: the same words, texts and statuses.

It searches the tree of paths in order and believes every log. It proves nothing.
"""
import sys


class Refused(Exception):
    pass


def instance(data):
    """Sizes, orders as (weight, colour), and where the instance ends."""
    tokens, at = [], 0
    for piece in data.replace(b'\n', b' ').replace(b'\t', b' ').replace(b'\r', b' ').split(b' '):
        if piece:
            tokens.append((piece, at))
        at += len(piece) + 1
    place = iter(range(len(tokens) + 1))

    def take(name, least, most):
        k = next(place)
        if k == len(tokens):
            raise Refused(f'refused instance short token {k + 1}')
        piece, start = tokens[k]
        bad = [i for i, byte in enumerate(piece) if not 48 <= byte <= 57]
        if bad:
            raise Refused(f'refused instance byte {start + bad[0]}')
        piece = piece.lstrip(b'0') or b'0'
        if len(piece) > 9 or not least <= int(piece) <= most:
            raise Refused(f'refused instance range {name} token {k + 1}')
        return int(piece)

    sizes = [take('size', 1, 20000) for _ in range(take('sizecount', 1, 1024))]
    take('colourcount', 0, 4096)
    orders = [(take('weight', 1, 1000000), take('colour', 1, 4096))
              for _ in range(take('orders', 0, 1024))]
    used = next(place)
    rest = tokens[used][1] if used < len(tokens) else None
    return sorted(set(sizes)), orders, rest


def charge(sizes, load):
    return 0 if load == 0 else min(size for size in sizes if size >= load) - load


def search(sizes, orders, colours, nodes):
    """The best plan by rank, its loss, the records, and whether the budget ended."""
    rank = sorted(range(len(orders)), key=lambda i: (-orders[i][0], orders[i][1], i))
    best, log, waiting = None, [], [()]
    while waiting and len(log) < nodes:
        path = waiting.pop()
        groups = {}
        for i, group in zip(rank, path):
            groups.setdefault(group, []).append(orders[i])
        if len(path) == len(orders):
            loss = sum(charge(sizes, sum(w for w, _ in group)) for group in groups.values())
            best = (loss, path) if best is None or loss < best[0] else best
            log.append(f'L {len(path)}' + ''.join(f' {g}' for g in path))
            continue
        log.append(f'S {len(path)}' + ''.join(f' {g}' for g in path))
        mine = orders[rank[len(path)]]
        equal = path and orders[rank[len(path) - 1]] == mine
        for group in range(len(groups) + 1, (path[-1] if equal else 1) - 1, -1):
            here = groups.get(group, []) + [mine]
            if sum(w for w, _ in here) <= sizes[-1] and len({c for _, c in here}) <= colours:
                waiting.append((*path, group))
    if best is None:
        best = sum(charge(sizes, w) for w, _ in orders), tuple(range(1, len(orders) + 1))
    slab = dict(zip(rank, best[1]))
    names = {}
    plan = [names.setdefault(slab[i], len(names) + 1) for i in range(len(orders))]
    return best[0], plan, log, bool(waiting)


def judge(sizes, orders, colours, lines, word):
    """The line and the status of check and verify."""
    heavy = next((i + 1 for i, (w, _) in enumerate(orders) if w > sizes[-1]), 0)
    if lines[0] == 'infeasible':
        stated = int(lines[1].split()[1])
        return (f'confirmed infeasible order {heavy}', 0) if stated == heavy else (
            f'rejected order stated {stated} found {heavy}', 8)
    for number, start in enumerate(('', 'loss ', 'plan', ''), 1):
        if len(lines) < number or not lines[number - 1].startswith(start) or (
                number == 1 and lines[0] not in ('optimal', 'feasible')):
            raise Refused(f'refused answer line {number}')
    stated, plan = int(lines[1][5:]), [int(s) for s in lines[2][4:].split()]
    if len(plan) != len(orders) or not all(1 <= s <= len(orders) for s in plan):
        raise Refused('refused answer line 3')
    if word == 'verify' and (lines[0] == 'feasible' or not lines[3].startswith('log')):
        raise Refused('refused answer kind')
    loss = 0
    for slab in sorted(set(plan)):
        here = [order for order, s in zip(orders, plan) if s == slab]
        load, shades = sum(w for w, _ in here), len({c for _, c in here})
        if load > sizes[-1]:
            return f'rejected heavy slab {slab} load {load}', 8
        if shades > colours:
            return f'rejected colourful slab {slab} colours {shades}', 8
        loss += charge(sizes, load)
    if loss != stated:
        return f'rejected loss stated {stated} found {loss}', 8
    return f'{"verified" if word == "verify" else "legal"} loss {loss}', 0


def main(words):
    """The text and the status of a run."""
    if not words or words[0] not in ('solve', 'prove', 'check', 'verify') or len(words) % 2 == 0:
        return 'usage: stand_in solve|prove|check|verify [--nodes N] [--colours N]', 2
    word, options = words[0], dict(zip(words[1::2], words[2::2]))
    known = {'--colours'} | ({'--nodes'} if word in ('solve', 'prove') else set())
    if not set(options) <= known or not all(value.isdigit() for value in options.values()):
        return 'usage: stand_in solve|prove|check|verify [--nodes N] [--colours N]', 2
    data, colours = sys.stdin.buffer.read(), int(options.get('--colours', 2))
    try:
        sizes, orders, rest = instance(data)
        if word in ('check', 'verify'):
            lines = data[rest:].decode().split('\n') if rest is not None else ['']
            return judge(sizes, orders, colours, lines, word)
        if rest is not None:
            raise Refused(f'refused rest byte {rest}')
    except Refused as refused:
        return str(refused), 3
    heavy = [i + 1 for i, (w, _) in enumerate(orders) if w > sizes[-1]]
    if heavy:
        return f'infeasible\norder {heavy[0]}\nend', 1
    nodes = int(options.get('--nodes', 20000))
    loss, plan, log, ended = search(sizes, orders, colours, nodes)
    head = f'loss {loss}\nplan' + ''.join(f' {slab}' for slab in plan)
    if ended:
        return f'feasible\n{head}\nspent {nodes}\nend', 4
    kept = '\n'.join([f'log 1 {len(log)}', *log]) + '\n' if word == 'prove' else ''
    return f'optimal\n{head}\n{kept}end', 0


if __name__ == '__main__':
    text, status = main(sys.argv[1:])
    print(text)
    sys.exit(status)

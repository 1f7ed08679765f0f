"""What is wrong with the observations, the roots and the slices of a recording, against those of the model."""
import today
from recordings.calls import called
from recordings.observations import lines, root_lines, shown
from recordings.slices import sliced
from statuses import done, not_there


BLOCK = 4096  # what is written at a time


def whole_blocks(text):
    return text[:len(text) // BLOCK * BLOCK]


def differing(what, outcome, want):
    """What is wrong with an outcome that should be done and have written these bytes, in lines to read."""
    if outcome.status != done:
        return [f'{what}: {outcome.status.line}']
    got = outcome.output
    if got == want:
        return []
    at = next((i for i, pair in enumerate(zip(got, want)) if pair[0] != pair[1]), min(len(got), len(want)))
    return [f'{what}: {len(got)} bytes, not {len(want)}; from byte {at} on {got[at:at + 40]!r}',
            f'  not {want[at:at + 40]!r}']


def wrong_calls(program, root, data, observed, made):
    """The slice by calls of a root, its replay, and the slice by calls that is made of the process slice."""
    by_calls = program.run(['calls', f'{root:#x}'], data)
    wrong = differing(f'calls {root:#x}', by_calls, called(observed).spell())
    wrong += differing(f'replay of calls {root:#x}', program.run(['replay'], by_calls.output), lines(observed))
    return wrong + differing(f'relog of process {root:#x}', program.run(['relog'], made), by_calls.output)


def wrong_roots(program, recording):
    """Each root that `roots` lists is traced and sliced, and its slices are replayed, which gives the lines again."""
    data, roots = recording.spell(), shown(recording)
    wrong = differing('roots', program.run(['roots'], data), root_lines(roots))
    for root, (_, observed) in roots.items():
        want = lines(observed)
        traced, made = (program.run([*words, f'{root:#x}'], data) for words in (['trace', 'root'], ['process']))
        wrong += differing(f'trace root {root:#x}', traced, want)
        wrong += differing(f'process {root:#x}', made, sliced(observed).spell())
        wrong += differing(f'replay of process {root:#x}', program.run(['replay'], made.output), want)
        if today.SLICES_BY_CALLS:
            wrong += wrong_calls(program, root, data, observed, made.output)
    other = next(root for root in range(len(roots) + 1) if root not in roots)
    for words in (['trace', 'root'], ['process'], *[['calls']] * today.SLICES_BY_CALLS):
        outcome = program.run([*words, str(other)], data)
        if outcome.status != not_there or outcome.output:
            wrong.append(f'{" ".join(words)} {other}: {outcome.status.line}, {len(outcome.output)} bytes')
    return wrong

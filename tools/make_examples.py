#!/usr/bin/env python3
"""Makes the captures of the examples, and works out from the rules what must come out.

    tools/make_examples.py                writes the capture, expected/ and plan.svg of each example
    tools/make_examples.py --check        writes nothing, and fails if a file is not what would be written, an example
                                          of the pages is not what the rules say, or README.md shows
                                          a policy or a report that is not in its example
    tools/make_examples.py --list NAME    prints a line for each record of this example: what it is, and what becomes of it
    tools/make_examples.py --page FOLDER  writes a folder like those of the examples for each table of packets of the pages
    tools/make_examples.py --lines FOLDER writes a folder like those of the examples, without a capture, for each row of the tables of
                                          lines of the pages, and for what these rows say to write instead

The pages are docs/POLICY.md, docs/PLANS.md, docs/FAULTS.md and docs/GRAPHS.md (page_examples.py).

The expected files are worked out here, with Python's standard library alone, and never taken from the program's own
output: two accounts of the same rules that agree say more than one. policy_rules.py has those of the language,
packet_rules.py those of the functions, graph_rules.py those of graphs, and capture_rules.py those of captures. An example with a file graphs is
planned and run with these, and once without them, which gives another plan and other copies in the report. A capture is called in.pcap or in.pcapng by its format, and
what is written of it out.pcap or out.pcapng.
"""

import pathlib
import sys

import blocks
import capture_rules
import frames
import graph_rules
import packet_rules
import page_examples
import plan_picture
import policy_rules
from example_captures import MADE

EXAMPLES = pathlib.Path(__file__).resolve().parent.parent / 'examples'
README = EXAMPLES.parent / 'README.md'

# What README.md shows: nothing today, since tools/check-tutorial runs its policy.
SHOWN = []


def place_of_capture(folder):
    """An example in the folder of another one is run over the capture of that one."""
    return folder.parent if folder.parent.parent == EXAMPLES else folder


def ending_of(data):
    """Of the name of a capture, by its format."""
    return 'pcapng' if data.startswith(capture_rules.SECTION_LEAD) else 'pcap'


def capture_in(folder):
    """The file with the capture of an example, or nothing where it is planned and not run."""
    return next(place_of_capture(folder).glob('in.pcap*'), None)


def bytes_of(capture):
    """The file of a capture that is made, which may be none."""
    made = {frames.Capture: frames.written, blocks.Capture: blocks.written}
    return capture and made[type(capture)](capture)


def files_of(folder, policy, capture):
    """The bytes of each file that is made in an example's folder."""
    expected = folder / 'expected'
    files = {expected / 'plan': policy_rules.plan(policy)[0].encode('ascii')}
    if capture is None:
        return files
    graphs = graphs_in(folder)
    due = packet_rules.answer(policy, capture, graphs)
    if graphs is not None:
        files[expected / 'graph-plan'] = graph_rules.plan(policy, graphs)[0].encode('ascii')
        files[expected / 'compiled-report.txt'] = packet_rules.answer(policy, capture).report.encode('ascii')
    files[place_of_capture(folder) / f'in.{ending_of(capture)}'] = capture
    files[expected / 'note'] = f'{due.note}\n'.encode('ascii')
    files[expected / 'status'] = f'{due.status}\n'.encode('ascii')
    if due.out is not None:
        files[expected / f'out.{ending_of(capture)}'] = due.out
        files[expected / 'report.txt'] = due.report.encode('ascii')
    return files


def graphs_in(folder):
    """The text of the graphs of an example, or nothing where they are compiled."""
    path = folder / 'graphs'
    return path.read_bytes() if path.is_file() else None


def pictures_of(folder, policy):
    """The picture of a policy's plan, unless it is refused, and that of its graphs where there are any."""
    graphs = graphs_in(folder)
    plans = {'plan': policy_rules.plan(policy)} | ({} if graphs is None else {'graph-plan': graph_rules.plan(policy, graphs)})
    for name, (plan, status) in plans.items():
        if status == 0:
            yield folder / f'{name}.svg', plan_picture.svg_of(plan, policy=policy).encode('utf-8')


def all_files():
    files = {}
    for name, capture in MADE.items():
        policy = (EXAMPLES / name / 'policy').read_bytes()
        files.update(files_of(EXAMPLES / name, policy, bytes_of(capture)))
        files.update(pictures_of(EXAMPLES / name, policy))
    return files


def page_examples_told():
    return [example for _, example in page_examples.examples_of_pages(page_examples.REFERENCE)]


def page_files(folder):
    """For each table of packets on the pages a folder with the policy too."""
    files = {}
    led = [example for example in page_examples_told() if isinstance(example, page_examples.Led)]
    for number, example in enumerate(led, 1):
        place = folder / f'packets-{number}'
        files[place / 'policy'] = example.policy
        files.update(files_of(place, example.policy, example.capture))
    return files


def line_files(folder):
    """For each policy of the tables of lines a folder with what has to be printed."""
    files = {}
    tried = [example for example in page_examples_told() if isinstance(example, page_examples.Tried)]
    for number, example in enumerate(tried, 1):
        place = folder / f'line-{number}'
        files[place / 'policy'] = example.policy
        files.update(files_of(place, example.policy, None))
        if example.told is not None:
            files[place / 'expected' / 'plan'] = example.told.encode('ascii')
    return files


def write(files):
    for path, data in files.items():
        path.parent.mkdir(parents=True, exist_ok=True)
        path.write_bytes(data)


def show(name):
    due = packet_rules.answer((EXAMPLES / name / 'policy').read_bytes(), bytes_of(MADE[name]))
    several = len({fate.chain for fate in due.fates}) > 1
    for number, (record, frame, fate) in enumerate(zip(MADE[name].records, due.frames, due.fates), 1):
        what = record.what if isinstance(record, blocks.Packet) else record[1]
        chain = [fate.chain or 'none'] if several else []
        end = f'**{fate.drop}**' if fate.drop else page_examples.fate_text(frame, fate)
        size = f'{len(frame)}' + (f' to {len(fate.frame)}' if len(frame) != len(fate.frame) and not fate.drop else '')
        print('| ' + ' | '.join([str(number), what, size, page_examples.ends_text(frame), *chain, end]) + ' |')
    print(due.note)


def is_shown(path):
    """README.md has the whole text of this file as a block."""
    block = ''.join(f'    {line}\n' if line else '\n' for line in path.read_text('ascii').splitlines())
    return f'\n\n{block}\n' in README.read_text('utf-8')


def check():
    files = all_files()
    unshown = [name for name in SHOWN if not is_shown(EXAMPLES / name)]
    for name in unshown:
        print(f'README.md does not show examples/{name} as it is')
    stale = [path for path, data in files.items() if not path.is_file() or path.read_bytes() != data]
    for path in stale:
        print(f'{path.relative_to(EXAMPLES.parent)} is not what tools/make_examples.py writes')
    faults = [(page, example, page_examples.untrue(example)) for page, example in page_examples.examples_of_pages()]
    for page, example, due in faults:
        if due:
            print(f'{page.relative_to(EXAMPLES.parent)} says something else than the rules, for:')
            print(f'{example.policy.decode()}{(getattr(example, "graphs", None) or b"")!r}\nwhich give:\n{due}')
    return 1 if stale or unshown or any(due for _, _, due in faults) else 0


def main(words):
    if len(words) == 2 and words[0] == '--list' and MADE.get(words[1]):
        show(words[1])
        return 0
    if len(words) == 2 and words[0] == '--page':
        write(page_files(pathlib.Path(words[1])))
        return 0
    if len(words) == 2 and words[0] == '--lines':
        write(line_files(pathlib.Path(words[1])))
        return 0
    if words == ['--check']:
        return check()
    if words:
        print(__doc__, file=sys.stderr)
        return 2
    write(all_files())
    return 0


if __name__ == '__main__':
    sys.exit(main(sys.argv[1:]))

"""The picture of a plan, as `nfp plan` prints it: an SVG that depends on the plan and its policy alone, with Python's standard library.

It shows what tools/plan-to-dot shows, and needs no Graphviz: so the pictures of the examples are the same wherever they are
made, and can be compared. A chain is a box, in which packets go from left to right; a stage is a box of its branches, which
may be at work side by side; the functions of a branch come one after another. Over the way into a stage is what is
copied there for one packet; a viewer that shows titles lists all fields of a stage when you point at it. With the policy, it says
beside each chain which packets enter, and below the branches of a stage how the fields are passed on and why the branches are so.
"""

import typing

import plan_reasons
import plan_texts

LETTER, LINE = 7.3, 16  # of the type in use, which is of one width
SMALL = 11  # the size of what is said beside the names, which have 12
PAD, GAP, BOX, END = 12, 14, 28, 18  # around things, between them, the height of a branch, the radius of an end
HEAD = PAD + LINE  # the title of a chain or a stage
WAY = 44  # from one thing to the next


class Stage(typing.NamedTuple):
    branches: list  # of the names of functions
    parts: list  # field and how it is handed on
    why: list  # the lines that a policy adds to it

    def copies(self):
        """What is over the way into it, line by line."""
        copies = [f"{field} ×{mode.split()[1]}" for field, mode in self.parts if mode.startswith('copied ')]
        return ['copied:', *copies] if copies else []

    def lines(self, is_told):
        """What is below its branches."""
        if not is_told:
            return []
        return [*plan_reasons.part_lines([(field, mode.split()) for field, mode in self.parts]), *self.why]

    def titles(self):
        return ', '.join(f'{field} {mode}' for field, mode in self.parts)


def chains_of(plan, label, said):
    """The chains of a plan: each a name and its stages, with what a policy says of each."""
    chains = []
    for line in plan.splitlines():
        lead, *words = line.split(' ')
        if lead == 'chain':
            chains.append((words[0], []))
        elif lead == 'stage':
            name, stages = chains[-1]
            stages.append(Stage([], [], said[name].stages[len(stages)] if name in said else []))
        elif lead == 'branch':
            chain = chains[-1][0]
            kinds = said[chain].kinds if chain in said else {}
            chains[-1][1][-1].branches.append([label(chain, name) + (f' ({kinds[name]})' if name in kinds else '') for name in words[1:]])
        elif lead == 'part':
            chains[-1][1][-1].parts.append((words[0], ' '.join(words[1:])))
    return chains


def wide(text):
    return len(text) * LETTER


def text(x, y, words, size=12, anchor='middle'):
    return f'<text x="{x:.1f}" y="{y:.1f}" font-size="{size}" text-anchor="{anchor}">{words}</text>'


def box(x, y, width, height, kind):
    return f'<rect class="{kind}" x="{x:.1f}" y="{y:.1f}" width="{width:.1f}" height="{height:.1f}" rx="4"/>'


def way(points, has_head=False):
    told = ' '.join(f'{x:.1f},{y:.1f}' for x, y in points)
    return f'<polyline points="{told}"' + (' marker-end="url(#head)"/>' if has_head else '/>')


def end(x, y, word):
    return f'<circle cx="{x:.1f}" cy="{y:.1f}" r="{END}"/>' + text(x, y + 4, word)


def half_of(stage):
    """Half of what its branches take from top to bottom: packets come in at their middle."""
    return (len(stage.branches) * (BOX + GAP) - GAP) / 2


def drawn_stage(stage, number, x, middle, lines):
    """A stage whose left side is at x: what is drawn, and where its right side is."""
    labels = [' → '.join(names) for names in stage.branches]
    least = max([wide(line) * SMALL / 12 + 2 * PAD - 3 * WAY for line in lines], default=0)
    inner = max([least, *(wide(label) + 2 * PAD for label in labels)])
    left, right, top = x + WAY, x + 3 * WAY + inner, middle - half_of(stage) - HEAD
    below = top + HEAD + 2 * half_of(stage) + PAD
    frame = box(x, top, right - x, below - top + LINE * len(lines), 'stage')
    parts = [f'<g><title>{stage.titles()}</title>', frame, text((x + right) / 2, top + HEAD - 8, f'stage {number}')]
    for at, label in enumerate(labels):
        y = top + HEAD + at * (BOX + GAP)
        centre = y + BOX / 2
        parts += [
            way([(x, middle), (x + WAY / 2, centre), (left, centre)], True),
            box(left, y, inner, BOX, 'branch'),
            text(left + inner / 2, centre + 4, label),
            way([(left + inner, centre), (right - WAY * 1.5, centre), (right, middle)]),
        ]
    parts += [text(x + PAD, below + LINE * at + SMALL - 4, line, SMALL, 'start') for at, line in enumerate(lines)]
    return [*parts, '</g>'], right


def drawn_chain(title, stages, top, is_told):
    """A chain whose upper side is at top: what is drawn, and how far it goes to the right and down."""
    lines = [stage.lines(is_told) for stage in stages]
    above = max([END] + [max(half_of(stage) + HEAD, LINE * len(stage.copies())) for stage in stages])
    below = max([END] + [half_of(stage) + PAD + LINE * len(said) for stage, said in zip(stages, lines)])
    inner, middle = HEAD + above + below + PAD, top + HEAD + above
    parts = [end(PAD * 2 + END, middle, 'in')]
    x = PAD * 2 + END * 2
    for number, stage in enumerate(stages, 1):
        copies = stage.copies()
        room = max([wide(copy) for copy in copies], default=0) + WAY
        parts.append(way([(x, middle), (x + room, middle)], True))
        lowest = middle - 8 - LINE * (len(copies) - 1)
        parts += [text(x + room / 2 - 4, lowest + LINE * at, copy, size=11) for at, copy in enumerate(copies)]
        more, x = drawn_stage(stage, number, x + room, middle, lines[number - 1])
        parts += more
    parts += [way([(x, middle), (x + WAY, middle)], True), end(x + WAY + END, middle, 'out')]
    right = max(x + WAY + 2 * END + PAD, PAD * 3 + wide(title))
    frame = box(PAD, top, right - PAD, inner, 'chain')
    return [frame, text(PAD * 2, top + HEAD - 8, title, anchor='start'), *parts], right + PAD, top + inner


STYLE = (
    'text{font-family:monospace;fill:black}rect,circle,polyline{fill:none;stroke:black}'
    '.chain{fill:#f6f6f6}.stage{fill:white}.branch{fill:#e4eefb}'
)
ARROW = '<marker id="head" viewBox="0 0 8 8" refX="8" refY="4" markerWidth="7" markerHeight="7" orient="auto"><path d="M0,0L8,4L0,8z"/></marker>'


def svg_of(plan, label=lambda chain, name: name, policy=None):
    """The picture of a plan. A function is found by what the label says of its chain's name and its own. The policy, where it is
    given, is the text of which this is the plan."""
    graphs = {chain.name: chain.graph() for chain in plan_texts.chains_of(plan.splitlines())}
    said, left = plan_reasons.told(policy, graphs) if policy else ({}, None)
    parts, right, bottom = [], 0, 0
    chains = [(f'chain {name}' + (f': {said[name].takes}' if name in said else ''), stages) for name, stages in chains_of(plan, label, said)]
    for title, stages in chains + ([(left, [])] if left else []):
        more, far, bottom = drawn_chain(title, stages, bottom + PAD, bool(policy))
        parts, right = parts + more, max(right, far)
    width, height = round(right), round(bottom + PAD)
    return '\n'.join([
        f'<svg xmlns="http://www.w3.org/2000/svg" width="{width}" height="{height}" viewBox="0 0 {width} {height}">',
        f'<style>{STYLE}</style><defs>{ARROW}</defs>',
        f'<rect x="0" y="0" width="{width}" height="{height}" style="fill:white;stroke:none"/>',
        *parts,
        '</svg>\n',
    ])

"""Names for the places in a proof: a chain of more than five ' .before' becomes steps of at most five, each with the name of its place.

A clause gets a `let` for each step. Where several clauses go back to the start of the function, the way there from the last place that they share
is an abbreviation, `start-of`, ahead of the first of them; one that stands in the file already is used. In a signature, where no `let` can stand,
the way is an abbreviation of its own. Only text is changed, and only that of a declaration whose place is known.
"""

import re

MOST = 5
LONG = re.compile(r'(?: \.before){%d,}' % (MOST + 1))
HEAD = re.compile(r'^(?:(?:abbrev|pub|unfoldable) )*([^\s:]+) :')
# What the first argument is: that of a need, a place in brackets, or a place ahead of an arrow; with what places are told in this file.
NEED = re.compile(r': tie\.(Need-\S+)((?: [^\s()→]+)*)')
PLACE = re.compile(r': \(\S+ : tie\.([^\s()]+)((?: [^\s()]+)*)\)')
ARROW = re.compile(r': tie\.([^\s()]+)((?: [^\s()→]+)*) →')
WAY = re.compile(r'^abbrev (\S+) : tie\.([^\s()]+)(?: [^\s()→]+)* → tie\.([^\s()]+)', re.M)
# Places that tell little: a case, an equation, and those that have a given fact alone, as of a slice's elements or of an argument.
PLAIN = re.compile(r'^match|^same\d*$')
# What stands first in its term: behind a bracket, an operator or `in`.
FIRST = r'(?:(?<=[(])|(?<=[,=;∙+*≡≤→×] )|(?<=\bin ))'


class Line:
    """The places from one back to the start, their types and names. Ways are abbreviations of the file, {type: (name, the type it leads to)}."""

    def __init__(self, records, place, ways):
        self.types, self.names, self.telling, self.ways = [], [], [], ways
        while place in records:
            fields = [name for name, _ in records[place] if name != 'before']
            self.types.append(place)
            self.names.append('start' if 'args' in fields else 'at-' + (fields[0] if fields else place.lower()))
            given = [name for name, _ in records.get(place + '·own', ())] == ['given']
            self.telling.append(not given and not PLAIN.search(fields[0] if fields else ''))
            place = dict(records[place]).get('before')

    def leads(self, at, low, high):
        """The offset that the way from this place leads to, if it is one of low to high."""
        way = self.ways.get(self.types[at])
        return self.types.index(way[1]) if way and way[1] in self.types[low:high + 1] else None

    def next(self, at, wanted):
        """The offset of the next step: by a way, or to a place in reach that has one, or as far as reach goes, if it can be to a telling place."""
        by_way = self.leads(at, at + 1, wanted)
        if by_way:
            return by_way
        reach = range(at + 1, min(at + MOST, wanted) + 1)
        for j in reach:
            if self.leads(j, j + 2, wanted):
                return j
        if wanted in reach:
            return wanted
        return max([j for j in reach if self.telling[j]], default=at + MOST)

    def steps(self, wanted):
        """Pairs of offsets, from and to, that lead to all these."""
        at, found = 0, []
        for k in wanted:
            while at < k:
                here, at = at, self.next(at, k)
                found.append((here, at))
        return found

    def term(self, here, there, name):
        """The place at the second offset, from the name of the first."""
        if self.leads(here, there, there):
            return '%s %s' % (self.ways[self.types[here]][0], name)
        return name + ' .before' * (there - here)


def chains(var, least=MOST + 1):
    return re.compile(r'(?<![^\s()])%s((?: \.before){%d,})' % (re.escape(var), least))


def count(match):
    return match.group(1).count('.before')


def offsets(text, var):
    """The lengths of the long chains behind this variable."""
    return sorted({count(match) for match in chains(var).finditer(text)})


def steps_to(line, wanted, var, used):
    """For each step its name and its term, and the name of each offset that has one."""
    names, made = {0: var}, []
    for here, there in line.steps(wanted):
        name = line.names[there]
        while name in used or name in names.values():
            name += '′'
        made.append((name, line.term(here, there, names[here])))
        names[there] = name
    del names[0]
    return made, names


def lets(made):
    return ['    let %s = %s in' % step for step in made]


def from_variable(body, var):
    """The body with every place written from this variable: a `let` that names a chain goes, and what it named is the chain."""
    while True:
        one = re.search(r'(?m)^( *)let (\S+) = %s((?: \.before)+) in(?: |\n)' % re.escape(var), body)
        if not one:
            return body
        place = var + one.group(3)
        body = body[:one.start()] + (one.group(1) if one.group(0).endswith(' ') else '') + body[one.end():]
        # a field of it is the chain and the field where it stands first; as an argument, `f e .x`, the field is that of f e
        body = re.sub(FIRST + re.escape(one.group(2)) + r'(?= \.)', place, body)
        body = re.sub(r'(?<![-\w.′])%s(?![-\w′])' % re.escape(one.group(2)), '(%s)' % place, body)


def with_names(body, var, line):
    """The lines of a clause's body with names for its places; as they are where it has no long chain."""
    body = from_variable(body, var)
    wanted = offsets(body, var)
    if not wanted or wanted[-1] >= len(line.types):
        return body.split('\n')
    used = set(re.findall(r'[^\s().,;{}\[\]]+', body)) | {name for name, _ in line.ways.values()}
    made, names = steps_to(line, wanted, var, used)
    # a short chain to a place that has a name now takes it too
    body = chains(var, 1).sub(lambda match: names.get(count(match), match.group(0)), body)
    body = re.sub(r'\(([^\s()]+)\)', lambda match: match.group(1) if match.group(1) in names.values() else match.group(0), body)
    body = without_aliases(body, names.values())
    if body.strip() == made[-1][0]:
        return lets(made[:-1]) + ['    ' + made[-1][1]]
    return lets(made) + body.split('\n')


def without_aliases(body, names):
    """No second name for a place: `let s = start in` goes, and what was s is start."""
    for indent, alias, name, rest in re.findall(r'(?m)^( *)let (\S+) = (\S+) in(.*)$', body):
        if name in names:
            line = '%slet %s = %s in%s\n' % (indent, alias, name, rest)
            body = (body + '\n').replace(line, '%s%s\n' % (indent, rest.strip()) if rest.strip() else '')[:-1]
            body = re.sub(r'(?<![-\w.′])%s(?![-\w′])' % re.escape(alias), name, body)
    return body


def abbreviation(name, line, k, told, comment):
    """The way from the first place of the line to the one at this offset."""
    made, _ = steps_to(line, [k], 'c', {name})
    body = '\n'.join(['', *lets(made[:-1]), '    ' + made[-1][1]]) if made[1:] else ' ' + made[0][1]
    return '-- %s\nabbrev %s : tie.%s%s → tie.%s%s\n%s c =%s' % (comment, name, line.types[0], told, line.types[k], told, name, body)


class Declaration:
    """Its name, the place of its first argument, what places are told, its signature, and of each clause the head, the body and all lines."""

    def __init__(self, text, needs):
        lines = text.split('\n')
        heads = [i for i, line in enumerate(lines) if HEAD.match(line)]
        self.place, self.clauses = None, []
        if len(heads) != 1:
            return
        head = lines[heads[0]]
        self.name = HEAD.match(head).group(1)
        need, place = NEED.search(head), PLACE.search(head) or ARROW.search(head)
        self.place, self.told = (needs.get(need.group(1)), need.group(2)) if need else place.groups() if place else (None, '')
        clause = re.compile(r'%s(?: [^=]+)? =(?: |$)' % re.escape(self.name))
        starts = [i for i in range(heads[0] + 1, len(lines)) if clause.match(lines[i])]
        self.signature = '\n'.join(lines[:starts[0]]) if starts else text
        for i, end in zip(starts, starts[1:] + [None]):
            head, _, first = lines[i].partition(' =')
            self.clauses.append((head, '\n'.join((['    ' + first.strip()] if first.strip() else []) + lines[i + 1:end]), lines[i:end]))

    def variable(self, head):
        words = head.split()
        return words[1] if len(words) > 1 else None

    def goes_to_start(self, line):
        return any(self.variable(head) and offsets(body, self.variable(head))[-1:] == [len(line.types) - 1] for head, body, _ in self.clauses)

    def named(self, line):
        """Its text with names, and ahead of it the abbreviations that its signature asks for."""
        ahead, signature = [], self.signature
        for k in offsets(signature, 'c'):
            if not line.leads(0, k, k):
                name = '%s-%s' % (self.name, line.names[k].replace('at-', ''))
                ahead.append(abbreviation(name, line, k, self.told, 'a place of `%s`' % self.name))
                line.ways[line.types[0]] = name, line.types[k]
            term = line.term(0, k, 'c')
            signature = chains('c').sub(lambda match: '(%s)' % term if count(match) == k else match.group(0), signature)
        # what begins with a bracket of its own needs none within it
        lines = [re.sub(r'\(\((\S+ c)\)', r'(\1', signature)]
        for head, body, clause in self.clauses:
            var = self.variable(head)
            lines += [head + ' ='] + with_names(body, var, line) if var and offsets(from_variable(body, var), var) else clause
        return '\n\n'.join(ahead + ['\n'.join(lines)])


def shared_place(lines):
    """The last place that these ways back to the start share, where it saves a step."""
    shared = [i for i, place in enumerate(lines[0].types[:-2]) if all(place in line.types for line in lines)]
    best = [i for i in shared if lines[0].telling[i]] + shared
    return lines[0].types[best[0]] if best else None


def renamed(text, records, needs):
    """The text of a proof file with names for its places."""
    parts = re.split(r'(\n[ \t]*\n)', text)
    found = {i: Declaration(part, needs) for i, part in enumerate(parts) if LONG.search(part)}
    found = {i: one for i, one in found.items() if one.clauses and one.place in records}
    if not found:
        return text
    names = {one.name for one in found.values()}
    ways = {source: (name, target) for name, source, target in WAY.findall(text) if source in records and name not in names}
    lines = [line for line, one in ((Line(records, one.place, ways), one) for one in found.values()) if one.goes_to_start(line)]
    place = shared_place(lines) if len(lines) > 1 and not any(target == lines[0].types[-1] for _, target in ways.values()) else None
    ahead = []
    if place:
        line = Line(records, place, ways)
        told = next(iter(found.values())).told
        ahead = [abbreviation('start-of', line, len(line.types) - 1, told, 'where the function starts')]
        ways = dict(ways, **{place: ('start-of', line.types[-1])})
    for i, one in found.items():
        parts[i] = one.named(Line(records, one.place, ways))
    parts[min(found)] = '\n\n'.join(ahead + [parts[min(found)]])
    return ''.join(parts)

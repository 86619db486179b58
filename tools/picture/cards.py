"""The cards of the page: what a name means, where it is declared, its copies, its readers."""

from html import escape

from .facts import at, name_of, scope_title
from .listing import ERRORS
from .meaning import ERROR, GLOBAL, LOCAL
from .script import label, shown

WHY = {
    1: "No scope around it, nor the module, nor the globals have this name.",
    2: "It means a local variable; a type may not read one.",
}

MOST_PLACES = 40  # as many places are listed together


def row_id(meaning):
    """The row of the tables that shows a meaning; module entries may share slots, so theirs go by binding."""
    if meaning.kind == LOCAL:
        return "row-%d.%d" % meaning.chain[0]
    return f"row-g{meaning.number}" if meaning.kind == GLOBAL else f"row-b{meaning.binding}"


def link(target, text):
    return f'<a href="#{target}">{text}</a>'


class Cards:
    """A card for each meaning that the page shows, made when it is first asked for."""

    def __init__(self, script, readers=None):
        """`readers`: the nodes that read each variable, by its group; without it they are those that are marked."""
        self.script, self.resolved = script, script.resolved
        self.made = {}
        self.readers, self.setters = {}, {}
        for mark in self.resolved.marks:
            held = self.setters if mark.sets else self.readers
            held.setdefault(self.group(mark.meaning, mark.node), []).append(mark)
        marked = {mark.node: mark for mark in self.resolved.marks}
        for group, nodes in (readers or {}).items():
            if nodes:
                self.readers[group] = sorted((marked[node] for node in nodes), key=lambda mark: mark.offset)

    def group(self, meaning, node=None):
        """What all names of one variable have in common; so have errors of one name and kind."""
        if meaning.kind == ERROR:
            return f"e{meaning.number}-{self.resolved.tree.nodes[node].value}"
        return f"g{meaning.number}" if meaning.kind == GLOBAL else f"b{meaning.binding}"

    def attributes(self, meaning, node=None):
        """The attributes by which an element shows a card and lights up its variable."""
        group = self.group(meaning, node)
        key = group + ("-%d.%d" % meaning.chain[0] if meaning.copied else "")
        if key not in self.made:
            self.made[key] = self.article(f"card-{key}", meaning, group)
        copies = " ".join(f"s{scope}" for scope, _ in meaning.chain[:-1])
        source = self.source(meaning)
        declared = "" if source is None else f' data-declared="n{source}"'
        return (f'data-of="{group}" data-card="card-{key}" data-copies="{copies}"{declared} '
                f'aria-describedby="card-{key}"')

    def source(self, meaning):
        """The Name that declares a variable, None where the script has none."""
        return None if meaning.binding is None else self.resolved.bindings[meaning.binding].source

    def target(self, mark):
        """Where the link of a name leads: the declaration, or its row of a table."""
        if mark.meaning.kind == ERROR:
            return f"row-{self.group(mark.meaning, mark.node)}"
        source = self.source(mark.meaning)
        return row_id(mark.meaning) if source is None or mark.sets else f"n{source}"

    def count(self, group):
        """In how many places a variable stands."""
        return len(self.setters.get(group, [])) + len(self.readers.get(group, []))

    def wrong(self):
        """The errors: of each name that has some, its group and its places."""
        return [(group, marks) for group, marks in self.readers.items() if marks[0].meaning.kind == ERROR]

    def articles(self):
        return self.made.values()

    def article(self, key, meaning, group):
        lines = {ERROR: self.error, GLOBAL: self.global_}.get(meaning.kind, self.variable)(meaning, group)
        return f'<article class="card roving {meaning.kind}" id="{key}" hidden>{"".join(lines)}</article>'

    def error(self, meaning, group):
        name = shown(self.readers[group][0].name)
        yield title(name, f"error: {ERRORS[meaning.number]}", "error")
        yield f"<p>{WHY[meaning.number]}</p><dl>" + self.places("Read at", self.readers[group]) + "</dl>"

    def global_(self, meaning, group):
        yield title(shown(self.resolved.file.names[self.resolved.file.globals[meaning.number]]),
                    f"global {meaning.number}", "global")
        yield "<dl>" + self.places("Read at", self.readers.get(group, [])) + "</dl>"

    def variable(self, meaning, group):
        binding = self.resolved.bindings[meaning.binding]
        kind = "local, copied" if meaning.copied else "local" if meaning.kind == LOCAL else "module"
        yield title(name_of(self.script, meaning.binding), kind, "copied" if meaning.copied else meaning.kind)
        yield from self.chain(meaning) if meaning.kind == LOCAL else [f"<p>Slot {meaning.number} of the module.</p>"]
        yield "<dl>" + self.declaration(binding)
        bound = "any number of times" if binding.any else "once"
        yield f"<dt>Is</dt><dd>{'public' if binding.public else 'private'}, bound {bound}"
        yield ", captured by a function inside" * binding.captured
        yield ", <strong>never read</strong>" * self.resolved.unread(meaning.binding) + "</dd>"
        yield self.places("Bound at", self.setters.get(group, []))
        yield self.places("Read at", self.readers.get(group, [])) + self.namesakes(meaning.binding) + "</dl>"

    def namesakes(self, number):
        """The other variables with this name."""
        _, name = self.resolved.variable(number)
        others = [self.resolved.own(other) for (_, spelled), other in self.resolved.bound.items()
                  if spelled == name and other != number]
        links = some(link(row_id(own), label(own)) for own in others)
        return f"<dt>Not</dt><dd>{links}: the same name, another variable</dd>" if others else ""

    def declaration(self, binding):
        if binding.source is None:
            return "<dt>Declared</dt><dd>in the module's list, before this script</dd>"
        offset = self.resolved.tree.nodes[binding.source].offset
        line, _ = self.script.place(offset)
        return (f"<dt>Declared</dt><dd>{link(f'n{binding.source}', at(self.script, offset))}"
                f"<pre>{escape(self.script.line_text(line))}</pre></dd>")

    def chain(self, meaning):
        """Where the value is, and each copy on the way out to the variable's own slot."""
        yield '<ol class="chain">'
        for number, (scope, slot) in enumerate(meaning.chain):
            yield (f"<li>{'copied from' if number else 'in'} {link(f'row-{scope}.{slot}', f'{scope}.{slot}')}, "
                   f"slot {slot} of {escape(scope_title(self.script, scope))}</li>")
        yield "</ol>"

    def places(self, what, marks):
        return f"<dt>{what}</dt><dd>{self.place_links(marks) or 'nowhere'}</dd>"

    def place_links(self, marks):
        return some(link(f"n{mark.node}", at(self.script, mark.offset)) for mark in marks)


def some(links):
    """Links after each other, the first ones of many."""
    links = list(links)
    more = f" and {len(links) - MOST_PLACES} more" if len(links) > MOST_PLACES else ""
    return ", ".join(links[:MOST_PLACES]) + more


def title(name, what, kind):
    return f'<h2><code>{escape(name)}</code> <span class="badge {kind}">{what}</span></h2>'

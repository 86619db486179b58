"""What a lint says of a script, from its node file and the listing of that."""

from nodefile import preorder

MESSAGES = {1: "`{}` is not found", 2: "`{}` is a local, and a type cannot use it"}
NEVER_READ = "`{}` is never read"


def findings(file, listing):
    """The byte offset and the message of each finding, in the order of the text."""
    nodes = list(preorder(file.root))
    found = [(node, MESSAGES[code]) for node, code in listing.errors.items()]
    found += ((binding.source, NEVER_READ) for binding in listing.bindings if is_unread(binding, file, nodes))
    return sorted((nodes[node].offset, message.format(spelling(file, nodes[node]))) for node, message in found)


def is_unread(binding, file, nodes):
    """Whether this script declares a name and never reads it."""
    return binding.source is not None and binding.unread(file.names[nodes[binding.source].value])


def spelling(file, node):
    return file.names[node.value].decode()

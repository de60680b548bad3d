"""Which program has a command: the complete one, or its core, which has fewer commands and is proved faster. Both answer the
commands of the core alike."""

WHOLE, CORE = "bootswap", "bootswap_core"

# The commands of the core, and the options that it doesn't accept.
OF_CORE = ("provision", "run", "help")
OPTIONS = ("--explain", "--json")

# The options for the help of a command. The core has the help of all commands.
HELP = ("--help", "-h")

# The topics of `help` that the core lacks: manual pages, completion scripts, and the list of these two.
TOPICS = ("man", "completions", "help")


def needed_for(words):
    """Returns the name of the smallest program that does what these arguments ask for. Without arguments that is `choose`."""
    command, rest = words[:1], words[1:2]
    if not command or any(it in words for it in OPTIONS):
        return WHOLE
    if command == ["help"] and rest and rest[0] in TOPICS:
        return WHOLE
    is_help = command[0].startswith("-") or rest in ([it] for it in HELP)
    return CORE if is_help or command[0] in OF_CORE else WHOLE

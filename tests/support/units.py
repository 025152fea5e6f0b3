"""What the service manager starts for a unit of a tunnel, for tests and benches that start it themselves."""

import re
import shlex

SHOWN = "${CREDENTIALS_DIRECTORY}"


def command_in(unit):
    """Returns the words of the command in a unit's text; the files that the unit is shown have their own paths."""
    [line] = re.findall("^ExecStart=(.*)$", unit, re.MULTILINE)
    for name, path in re.findall("^LoadCredential=(.*?):(.*)$", unit, re.MULTILINE):
        line = line.replace(f"{SHOWN}/{name}", path)
    return shlex.split(line)

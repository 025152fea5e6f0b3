"""Signs a member's export or evidence, so that anyone who has the group's file sees who made it.

usage: payd sign --group GROUP --secret SECRET FILE

The signature is of the group, the member, the time and the file, to the byte. It is in the new file FILE.sig, in place
of what stands there: of a link that itself, and not what it leads to. `payd audit-signed` checks that of an export, and
`payd evidence --check` that of evidence.
"""

from __future__ import annotations

import time

from payd_tools import signing, usage
from payd_tools.groups import read_group, read_secret


@usage.tool()
def main() -> None:
    words = usage.parser(__doc__)
    words.add_argument("--group", required=True, help="the group's file")
    words.add_argument("--secret", required=True, help="the file of the member's secret")
    words.add_argument("file", help="the file of its export or evidence")
    given = words.parse_args()
    now = time.strftime("%Y-%m-%dT%H:%M:%SZ", time.gmtime())
    signing.sign(given.file, read_group(given.group), read_secret(given.secret), now)

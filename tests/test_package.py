"""Black-box tests of tools/package: the package is well made, and runs members where it is installed, upgraded and
removed."""

import os
import re
import shlex
import shutil
import subprocess
import tempfile

import pytest

from support.nodes import free_ports, write_json
from support.runs import SECONDS, TOP, call, key_texts, read_text, same, write_text
from test_group import does

TOOL = os.path.join(TOP, "tools", "package")
MEMBERS = "ada", "bob"
NEXT = "9.9.9"


def packed(folder):
    """The package of the program that there is."""
    status, output, errors = call([TOOL, "--unproved", folder])
    same((status, errors), (0, ""), output)
    return output.strip()


@pytest.mark.needs("dpkg-deb")
def test_package_is_made_of_all_that_is_installed(folder):
    """With the words of the unproved program, in a folder that it makes; made twice it is the same to the byte."""
    made = os.path.join(folder, "packages")
    deb = packed(made)
    with open(deb, "rb") as first:
        was = first.read()
    with open(packed(made), "rb") as second:
        same(second.read() == was, True, "the package made once more")
    same(os.path.basename(deb), "payd_0.1.0~unproved_amd64.deb", "its name")
    fields = call(["dpkg-deb", "--field", deb])[1]
    same(("~unproved\n" in fields, "\n UNVERIFIED" in fields or "\n For tests" in fields), (True, True), fields)
    subprocess.run(["dpkg-deb", "--extract", deb, os.path.join(folder, "root")], check=True, timeout=SECONDS)
    for place in ("bin/payd", "lib/systemd/system/payd@.service", "lib/sysusers.d/payd.conf", "libexec/payd/pay",
                  "lib/tmpfiles.d/payd.conf", "share/man/man1/payd.1.gz", "share/man/man5/payd.5.gz",
                  "share/doc/payd/copyright", "share/doc/payd/examples/shop", "share/zsh/vendor-completions/_payd"):
        same(os.path.isfile(os.path.join(folder, "root", "usr", place)), True, place)


@pytest.mark.needs("lintian")
def test_package_has_no_errors(folder):
    done = subprocess.run(["lintian", packed(folder)], capture_output=True, text=True, timeout=SECONDS)
    same([it for it in done.stdout.splitlines() if it[:2] == "E:"], [], f"errors: {done.stderr}")
    same(done.returncode, 0, "the status of lintian")


# ---- in a root of its own

# Makes a root that is this machine's, where all that is written is in memory, without a network; and runs there.
ENTER = """set -e
umask 022
mount -t tmpfs none "$1"
mkdir "$1/upper" "$1/work" "$1/root"
mount -t overlay none -o "lowerdir=/,upperdir=$1/upper,workdir=$1/work" "$1/root"
mount -t proc none "$1/root/proc"
mount -t tmpfs none "$1/root/run"
mount --rbind /dev "$1/root/dev"
cp -r "$2" "$1/root/given"
ip link set lo up
exec env -i PATH=/usr/sbin:/usr/bin:/sbin:/bin chroot "$1/root" sh -c "cd / && . /given/script"
"""

# Two members of one machine, whose nodes are run as their service says.
SCRIPT = """set -e
as_payd() { setpriv --reuid payd --regid payd --init-groups -- "$@"; }
put() { (cd "/var/lib/payd/$1" && as_payd {command} {ends}); }
start() { (cd "/var/lib/payd/$1" && exec setpriv --reuid payd --regid payd --init-groups -- {command} --stay) \
    </dev/null >/dev/null 2>&1 & }
ask() { until as_payd payd send --data "/var/lib/payd/$1/member" "$2" 2>/dev/null; do sleep 0.1; done; }
wait_for() { until [ "$(ask "$1" FRONT)" = "front $2" ]; do sleep 0.1; done; }
dpkg --no-triggers -i /given/payd.deb >/dev/null
stat -c '%U %G %a' /var/lib/payd
for name in ada bob; do
    install -d -o payd -g payd -m 750 "/var/lib/payd/$name"
    install -o payd -g payd -m 600 "/given/$name"/* "/var/lib/payd/$name"
    put "$name" --new </dev/null >/dev/null 2>&1
    start "$name"
done
ask ada 'PAY 1 1 3'
wait_for bob '1 0'
dpkg --no-triggers -i /given/next.deb >/dev/null
payd --version 2>/dev/null
ask ada 'PAY 2 1 4'
wait_for bob '2 0'
kill $(pidof payd)
wait
for name in ada bob; do start "$name"; done
ask ada 'PAY 1 1 3'
ask bob 'PAY 1 0 1'
wait_for ada '2 1'
kill $(pidof payd)
wait
dpkg --no-triggers --remove payd >/dev/null
dpkg --no-triggers --purge payd >/dev/null
[ -e /usr/bin/payd ] || echo gone
ls /var/lib/payd/ada/member/log
ls -d /usr/lib/payd /usr/libexec/payd 2>/dev/null || echo none left
"""


# What stands there for what needs a network, and for a manager of services, which runs a service's command as its user.
SHIMS = """set -e
apt() { dpkg --no-triggers -i "$2" >/dev/null; }
systemctl() { (. /given/service) </dev/null >"/given/${3#payd@}.said" 2>&1 & }
"""
SERVICE = """name=${3#payd@}
cd "/var/lib/payd/$name"
exec setpriv --reuid payd --regid payd --init-groups -- {command}
"""


def words_of_guide():
    """The commands of docs/guide.md that lead from the package to the first payment."""
    text = read_text(os.path.join(TOP, "docs", "guide.md"))
    [block] = re.findall(r"\nFrom the package to the first payment .*\n\n((?:    .*\n)+)", text)
    return [line.strip() for line in block.splitlines()]


def refusal():
    """Why no such root can be made here, or None."""
    with tempfile.TemporaryDirectory() as folder, tempfile.TemporaryDirectory() as given:
        write_text(os.path.join(given, "script"), "dpkg --version >/dev/null && systemd-sysusers --version >/dev/null")
        status, _, errors = entered(folder, given)
    return None if status == 0 else f"no root of its own here: {errors.strip()[-200:]}"


def entered(folder, given):
    words = ["unshare", "--mount", "--net", "--pid", "--fork", "--kill-child", "sh", "-c", ENTER, "sh", folder, given]
    try:
        return call(words)
    except FileNotFoundError as error:
        return 1, "", str(error)


def test_the_words_of_the_guide_lead_from_the_package_to_a_payment(folder):
    """As they stand there, for ada; and for bob, who is paid, those up to the payment. The owner agrees by a word in
    place of a terminal."""
    if (why := refusal()) is not None:
        pytest.skip(why)
    given = os.path.join(folder, "given")
    os.mkdir(given)
    deb = packed(given)
    lines = [does(folder, "new", "--name", it, f"{it}.secret").strip() for it in MEMBERS]
    words = ["--faults", "0", "--opening", "100,0", "--ports", ",".join(map(str, free_ports(2)))]
    write_text(os.path.join(folder, "group.json"), does(folder, "make", *words, *lines))
    for name in MEMBERS:
        os.mkdir(os.path.join(given, name))
        shutil.copy(os.path.join(folder, "group.json"), os.path.join(given, name))
        does(folder, "keys", "group.json", f"{name}.secret", os.path.join(given, name, "keys.json"))
        os.link(deb, os.path.join(given, name, os.path.basename(deb)))
    raw = os.path.join(folder, "raw")
    subprocess.run(["dpkg-deb", "--raw-extract", deb, raw], check=True, timeout=SECONDS)
    unit = read_text(os.path.join(raw, "usr", "lib", "systemd", "system", "payd@.service"))
    [command] = re.findall("^ExecStart=(.*)$", unit, re.MULTILINE)
    write_text(os.path.join(given, "service"), SERVICE.replace("{command}", command))
    *until_then, payment = words_of_guide()
    script = [SHIMS, "cd /given/bob", *(it.replace("ada", "bob") for it in until_then)]
    script += ["cd /given/ada", *until_then, payment.replace("payd pay ", "payd pay --yes ")]
    script += ["runuser -u payd -- payd send --data /var/lib/payd/bob/member 'BALANCE 1'"]
    write_text(os.path.join(given, "script"), "\n".join(f"{it}" for it in script))
    with tempfile.TemporaryDirectory() as place:
        status, output, errors = entered(place, given)
    same((status, output.splitlines()[-1:], "settled" in output), (0, ["balance 1 30"], True), f"{output}{errors}")


def test_package_runs_members_through_upgrade_and_removal(folder):
    """Of two members of one machine nothing is lost, and their folders are kept by whatever is done to the package."""
    if (why := refusal()) is not None:
        pytest.skip(why)
    given = os.path.join(folder, "given")
    os.mkdir(given)
    deb = packed(folder)
    shutil.copy(deb, os.path.join(given, "payd.deb"))
    raw = os.path.join(folder, "raw")
    subprocess.run(["dpkg-deb", "--raw-extract", deb, raw], check=True, timeout=SECONDS)
    control = os.path.join(raw, "DEBIAN", "control")
    write_text(control, re.sub("^Version: .*$", f"Version: {NEXT}", read_text(control), flags=re.MULTILINE))
    following = os.path.join(given, "next.deb")
    subprocess.run(["dpkg-deb", "--build", raw, following], check=True, stdout=subprocess.DEVNULL, timeout=SECONDS)
    ports = free_ports(len(MEMBERS))
    for own, name in enumerate(MEMBERS):
        os.mkdir(os.path.join(given, name))
        group = {"members": 2, "faults": 0, "opening": [9, 9], "ports": ports}
        write_json(given, f"{name}/group.json", group)
        write_json(given, f"{name}/keys.json", {"own": own, "keys": key_texts(own, 2)})
    unit = read_text(os.path.join(raw, "usr", "lib", "systemd", "system", "payd@.service"))
    [command] = re.findall("^ExecStart=(.*) --stay --dials always$", unit, re.MULTILINE)
    command = f"{shlex.join(shlex.split(command))} --dials always"
    write_text(os.path.join(given, "script"), SCRIPT.replace("{command}", command).replace("{ends}", '"$2"'))
    with tempfile.TemporaryDirectory() as place:
        status, output, errors = entered(place, given)
    lines = ["payd payd 750", "asked 1 seq 0", "payd 0.1.0", "asked 2 seq 1", "asked 1 seq 0", "asked 1 seq 0", "gone"]
    lines += ["/var/lib/payd/ada/member/log", "none left"]
    same((status, output.splitlines()), (0, lines), errors)

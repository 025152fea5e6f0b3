"""The keys of a group's file, by a slow model: X25519 as RFC 7748 and HKDF as RFC 5869 write them down."""

import hashlib
import hmac

P = 2**255 - 19
A24 = 121665
BASE = (9).to_bytes(32, "little")
D = -121665 * pow(121666, P - 2, P)
BASE_OF_SIGNATURES = (
    15112221349535400772501151409588531511454012693041857206046113283949847762202,
    46316835694926478169428394003475163141307993866256225615783033603165251855960,
)


def x25519(secret, point):
    """The function X25519 of RFC 7748, section 5, by its ladder."""
    k = bytearray(secret)
    k[0] &= 248
    k[31] = k[31] & 127 | 64
    k = int.from_bytes(k, "little")
    x_1 = int.from_bytes(point, "little") % 2**255 % P
    x_2, z_2, x_3, z_3 = 1, 0, x_1, 1
    for t in reversed(range(255)):
        if k >> t & 1:
            x_2, z_2, x_3, z_3 = ladder_step(x_1, x_3, z_3, x_2, z_2)
            x_2, z_2, x_3, z_3 = x_3, z_3, x_2, z_2
        else:
            x_2, z_2, x_3, z_3 = ladder_step(x_1, x_2, z_2, x_3, z_3)
    return (x_2 * pow(z_2, P - 2, P) % P).to_bytes(32, "little")


def ladder_step(x_1, x_2, z_2, x_3, z_3):
    a, b, c, d = x_2 + z_2, x_2 - z_2, x_3 + z_3, x_3 - z_3
    aa, bb, da, cb = a * a % P, b * b % P, d * a % P, c * b % P
    e = aa - bb
    return aa * bb % P, e * (aa + A24 * e) % P, (da + cb) ** 2 % P, x_1 * (da - cb) ** 2 % P


def multiple(times):
    """The base point of RFC 8032, section 5.1, added up so many times, in the bytes of section 5.1.2."""
    x, y = BASE_OF_SIGNATURES
    for _ in range(times - 1):
        a, b = BASE_OF_SIGNATURES
        product = D * x * a * y * b
        x, y = (x * b + a * y) * pow(1 + product, P - 2, P) % P, (y * b + x * a) * pow(1 - product, P - 2, P) % P
    return (y | (x & 1) << 255).to_bytes(32, "little")


def hkdf(secret, salt, info, length=32):
    """HKDF with SHA-256 of RFC 5869, section 2."""
    key, block, out = hmac.digest(salt or bytes(32), secret, "sha256"), b"", b""
    while len(out) < length:
        block = hmac.digest(key, block + info + bytes([len(out) // 32 + 1]), "sha256")
        out += block
    return out[:length]


def canonical(group):
    """The text that a group's keys hang on."""
    parts = [
        "payd group 1",
        f"members {group['members']}",
        f"faults {group['faults']}",
        "opening " + " ".join(str(it) for it in group["opening"]),
        f"group {group['group']}",
    ]
    parts += [f"public {it}" for it in group["public"]]
    parts += [f"name {it}" for it in group.get("names", [])]
    if "former" in group:
        parts.append(f"former {group['former']}")
    return "\n".join(parts) + "\n"


def fingerprint(group):
    """Twelve groups of five digits: five bytes each of SHA-512 of that text and of the unit, modulo 100,000."""
    unit = f"unit {group['unit']} {group['decimals']}\n" if "unit" in group else ""
    digest = hashlib.sha512((canonical(group) + unit).encode()).digest()
    return " ".join(str(int(digest[at : at + 5].hex(), 16) % 100000).zfill(5) for at in range(0, 60, 5))


def keys(group, own, secret):
    """The file of keys of a member."""
    salt = hashlib.sha256(canonical(group).encode()).digest()
    found = []
    for peer, public in enumerate(group["public"]):
        info = f"payd pair {min(own, peer)} {max(own, peer)}".encode("ascii")
        found.append("" if peer == own else hkdf(x25519(secret, bytes.fromhex(public)[:32]), salt, info).hex())
    return {"own": own, "keys": found, "group": group["group"], "digest": salt.hex()[:16]}

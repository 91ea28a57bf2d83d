#!/usr/bin/env python3
"""Reads the machine code of what handles keys and texts, and fails where an address or a branch depends on one of them.

    read.py PROGRAM

A value that is loaded from memory or comes out of a vector register is a secret, and so is a value computed from one. The arguments of a function
in general registers, and past the sixth on the stack, are none: pointers, lengths and counts. Nor is what the program has as a constant, at
an address that is no secret. A register that is kept on the stack stays what it is. Refused are

- an address that has a secret in it;
- a jump under flags that a secret has set, or to a place that is one;
- a division of or by a secret.

A select under such flags (`cmov`, `set`) is no branch. The lists below have what is read, and what is no secret though it was loaded.
Not seen are a store through a pointer to where a register is kept on the stack, and what the processor makes of an instruction.

It was tried on functions in C. It refused a look-up in a table by octets of a text, a comparison that ends early, and a loop that ends by
an octet of a record that a call made. It passed a comparison with no early end, and a loop that ends by the field of PUBLIC_FIELDS.
"""
import re
import subprocess
import sys

# The code that is read, by the names of its functions, each with the code that is inlined in it. Each of these must be there. In the library
# `SealingKey::new` is inlined in `Kept::boxed`, `decrypt` in `unseal`, what seals a text in `encrypt`, and the comparison in
# `opened_under`: they are read where they are alone too.
READ = [
    r"^krb_aes::encryption::encrypted$",
    r"^krb_aes::encryption::encrypted_two$",
    r"^krb_aes::decryption::decrypted$",
    r"^krb_aes::decryption::decrypted_four$",
    r"^krb_aes::decryption::decrypted_eight$",
    r"^krb_aes::schedule::EncryptionSchedule::new$",
    r"^krb_crypto::cbc::",
    r"^krb_crypto::cts::decrypt_under$",
    r"^krb_crypto::cts::encrypt_under$",
    r"^krb_crypto::hmac::HmacKey::new$",
    r"^krb_crypto::hmac::HmacState::finalize$",
    r"^krb_crypto::suite::sealing_keys$",
    r"^krb_crypto::checksum::checksum_key$",
    r"^krb_crypto::one_way::opened_under$",
    r"^krb_crypto::sealing::encrypt$",
    r"^krb_context::kept::Kept::boxed$",
    r"^krb_replies::unseal::unseal$",
    r"^sha1::compress::compress$",
    r"^sha1::Sha1::update$",
]
READ_WHERE_ALONE = [
    r"^krb_aes::schedule::KeySchedule::new$",
    r"^krb_aes::schedule::DecryptionSchedule::new$",
    r"^krb_crypto::hmac::HmacKey::",
    r"^krb_crypto::one_way::sealed_under$",
    r"^krb_crypto::sealing::decrypt$",
    r"^krb_crypto::sealing_key::SealingKey::",
    r"^krb_der::equal::is_equal$",
]

# Loads that are no secrets, by the name of the function and the address. And calls whose results are none.
PUBLIC_LOADS = [
    # how many octets were digested
    (r"^sha1::Sha1::update$", r"(rdi|r15)\+0x58"),
]
# The values that a call writes and that are no secret: how far past the place on the stack that it writes to, and how wide.
GROWS = r"<std_alloc::vec::Vec::grow_amortized"
PUBLIC_FIELDS = [
    # the number of rounds, which a schedule for encryption has after the 240 octets of its round keys
    (r"<krb_aes::schedule::EncryptionSchedule::new>", 240, "QWORD"),
    # whether the two keys of a usage have 16 octets or 32: the front of each, of which the second is 33 octets after the first
    (r"<krb_crypto::suite::sealing_keys>", 0, "BYTE"),
    (r"<krb_crypto::suite::sealing_keys>", 33, "BYTE"),
    # how many octets both digests of a key have taken, each after its 84 octets
    (r"<krb_crypto::hmac::HmacKey::new>", 88, "QWORD"),
    (r"<krb_crypto::hmac::HmacKey::new>", 184, "QWORD"),
    # where a vector's octets lie, how many they are and how many fit
    (GROWS, 0, "QWORD"),
    (GROWS, 8, "QWORD"),
    (GROWS, 16, "QWORD"),
    # whether memory was found for a sealed text
    (r"<krb_crypto::one_way::sealed_under>", 0, "BYTE"),
    # whether a text was opened, or why not
    (r"<krb_crypto::one_way::opened_under>", 0, "BYTE"),
    (r"<krb_crypto::one_way::opened_under>", 1, "BYTE"),
]
PUBLIC_CALLS = [r"<rattle_alloc>", r"<memcpy@plt>", r"<memmove@plt>", GROWS]

# How many branches by a secret a function may have: an opening answers whether the checksum is the one.
ANSWERS = {r"^krb_crypto::one_way::opened_under$": 1}

# Functions that are given secrets in general registers.
GIVEN = {}

WIDTHS = {}
for at, name in enumerate("ax bx cx dx si di bp sp".split()):
    low = f"{name[0]}l" if at < 4 else f"{name}l"
    WIDTHS.update({form: f"r{name}" for form in (f"r{name}", f"e{name}", name, low)})
    if at < 4:
        WIDTHS[f"{name[0]}h"] = f"r{name}"
for at in range(8, 16):
    WIDTHS.update({f"r{at}{end}": f"r{at}" for end in ("", "d", "w", "b")})
BRANCH = "a branch depends on a secret"
CLOBBERED = {"rax", "rcx", "rdx", "rsi", "rdi", "r8", "r9", "r10", "r11"}
VECTOR = re.compile(r"\b[xyz]mm\d+\b")
PLACE = re.compile(r"\[([^\]]*)\]")
WORD = re.compile(r"\b[a-z][a-z0-9]*\b")


def functions(program):
    """The functions of a program: name, and a list of address, mnemonic and operands."""
    command = ["objdump", "-d", "-w", "-C", "-M", "intel", "--no-show-raw-insn", program]
    name, body = None, []
    for line in subprocess.run(command, check=True, capture_output=True, text=True).stdout.splitlines():
        head = re.fullmatch(r"[0-9a-f]+ <(.*)>:", line)
        if head:
            if name:
                yield name, body
            name, body = head[1], []
            continue
        code = re.match(r"\s+([0-9a-f]+):\t(.*)", line)
        if code and name:
            text = re.sub(r"\b(rep|repz|repnz|lock|notrack|bnd|data16|cs|ds)\s+", lambda m: "rep_" if m[1].startswith("rep") else "", code[2].split("#")[0].strip())
            mnemonic, _, rest = text.partition(" ")
            operands = [part.strip() for part in re.split(r",(?![^\[]*\])", rest)] if rest.strip() else []
            body.append((int(code[1], 16), mnemonic, operands))
    if name:
        yield name, body


# An operand on the stack at a fixed place: how wide it is, and how far past `rsp`.
ON_STACK = re.compile(r"\b(BYTE|WORD|DWORD|QWORD|XMMWORD|YMMWORD) PTR \[rsp([+-]0x[0-9a-f]+)?\]")
OCTETS = {"BYTE": 1, "WORD": 2, "DWORD": 4, "QWORD": 8, "XMMWORD": 16, "YMMWORD": 32}
TOP = "QWORD PTR [rsp]"
# The place of the arguments that have no register: after the place to return to.
GIVEN_ON_STACK = range(8, 72)


def octets_at(behind, width):
    """The octets of the stack from this distance past `rsp` on."""
    return set(range(behind, behind + OCTETS[width]))


def octets_of(operand):
    """The octets of the stack that an operand is: none where it is no place on the stack, or no fixed one."""
    place = ON_STACK.search(operand)
    return octets_at(int(place[2] or "0", 16), place[1]) if place else set()


def registers(text):
    return {WIDTHS[word] for word in WORD.findall(text) if word in WIDTHS}


class Reading:
    """The state before an instruction: which registers and flags are secret, which octets of the stack are not, which registers
    point to the stack, and where, and which to a constant."""

    def __init__(self, secrets, octets, pointers=(), constants=()):
        self.secrets, self.octets, self.pointers, self.constants = set(secrets), set(octets), dict(pointers), set(constants)

    def copy(self):
        return Reading(self.secrets, self.octets, self.pointers, self.constants)

    def move(self, by):
        """The stack grows by this number of octets. Octets beyond it are lost."""
        self.octets = {at + by for at in self.octets if at + by >= 0}
        self.pointers = {register: at + by for register, at in self.pointers.items()}

    def joined(self, other):
        pointers = set(self.pointers.items()) & set(other.pointers.items())
        return Reading(self.secrets | other.secrets, self.octets & other.octets, pointers, self.constants & other.constants)

    def same(self, other):
        return vars(self) == vars(other)

    def is_secret(self, name, operand):
        place = PLACE.search(operand)
        if octets_of(operand) and octets_of(operand) <= self.octets:
            return False
        if place and place[1].split("+")[0] in {"rip", *self.constants}:
            return False
        if place:
            return not any(re.search(f, name) and re.fullmatch(p, place[1]) for f, p in PUBLIC_LOADS)
        return bool(VECTOR.search(operand)) or bool(registers(operand) & self.secrets)

    def put(self, operand, secret):
        if PLACE.search(operand):
            (self.octets.difference_update if secret else self.octets.update)(octets_of(operand))
            return
        for register in registers(operand):
            (self.secrets.add if secret else self.secrets.discard)(register)
            self.forget(register)

    def forget(self, register):
        """Where a register points to is no longer known."""
        self.pointers.pop(register, None)
        self.constants.discard(register)

    def point(self, register, source):
        """A register takes an address: `source` is a register, or the text between the brackets."""
        at = re.fullmatch(r"(\w+)(?:\+(0x[0-9a-f]+))?", source)
        start = 0 if at and at[1] == "rsp" else self.pointers.get(at[1]) if at else None
        is_constant = bool(at) and at[1] in {"rip", *self.constants}
        self.forget(register)
        if start is not None:
            self.pointers[register] = start + int(at[2] or "0", 16)
        if is_constant:
            self.constants.add(register)


def step(name, now, mnemonic, operands):
    """Returns the state after an instruction, and what is wrong with it."""
    after = now.copy()
    wrong = None
    for operand in operands:
        place = PLACE.search(operand)
        if place and mnemonic not in ("lea", "nop", "nopw", "nopl") and registers(place[1]) & now.secrets:
            wrong = "an address depends on a secret"
    secret = any(now.is_secret(name, operand) for operand in operands)
    first = operands[0] if operands else ""
    if mnemonic.startswith("j"):
        if mnemonic == "jmp":
            if registers(first) & now.secrets:
                wrong = "a jump to a place that is a secret"
        elif "flags" in now.secrets or mnemonic in ("jrcxz", "jecxz") and "rcx" in now.secrets:
            wrong = BRANCH
    elif mnemonic == "call":
        is_public = any(re.search(pattern, " ".join(operands)) for pattern in PUBLIC_CALLS)
        after.secrets |= CLOBBERED | {"flags"}
        if is_public:
            after.secrets -= {"rax", "rdx"}
        for pattern, behind, width in PUBLIC_FIELDS:
            if "rdi" in now.pointers and re.search(pattern, " ".join(operands)):
                after.octets |= octets_at(now.pointers["rdi"] + behind, width)
        for register in CLOBBERED:
            after.forget(register)
    elif mnemonic == "push":
        after.move(8)
        after.put(TOP, secret)
    elif mnemonic == "pop":
        after.put(first, now.is_secret(name, TOP))
        after.move(-8)
    elif mnemonic in ("sub", "add") and first == "rsp" and operands[1].startswith("0x"):
        after.move(int(operands[1], 16) * (1 if mnemonic == "sub" else -1))
    elif first == "rsp":
        after.octets.clear()
        after.pointers.clear()
    elif mnemonic.startswith("rep_"):
        if {"rcx", "rdi", "rsi"} & now.secrets and "stos" not in mnemonic or {"rcx", "rdi"} & now.secrets:
            wrong = "a copy whose place or length is a secret"
        for register in ("rcx", "rdi", "rsi"):
            after.forget(register)
    elif mnemonic == "lea":
        after.put(first, bool(registers(operands[1]) & now.secrets))
        if first in WIDTHS.values():
            after.point(first, PLACE.search(operands[1])[1])
    elif mnemonic in ("cmp", "test", "bt") or re.fullmatch(r"v?(ptest|testp[sd]|u?comis[sd])", mnemonic):
        (after.secrets.add if secret else after.secrets.discard)("flags")
    elif mnemonic.startswith("cmov"):
        after.put(first, secret or "flags" in now.secrets)
    elif mnemonic.startswith("set"):
        after.put(first, "flags" in now.secrets)
    elif mnemonic in ("div", "idiv"):
        if secret or {"rax", "rdx"} & now.secrets:
            wrong = "a division of a secret"
    elif mnemonic.startswith("mov") and not VECTOR.search(first):
        after.put(first, now.is_secret(name, operands[1]))
        if first in WIDTHS.values() and operands[1] in WIDTHS.values():
            after.point(first, operands[1])
    elif mnemonic in ("mul", "imul") and len(operands) == 1:
        for register in ("rax", "rdx"):
            after.put(register, secret or "rax" in now.secrets)
    elif mnemonic in ("cdq", "cqo"):
        after.put("rdx", "rax" in now.secrets)
    elif VECTOR.search(first):
        pass
    elif mnemonic in ("xor", "sub") and first == operands[1]:
        after.put(first, False)
        after.secrets.discard("flags")
    elif operands:
        carries = mnemonic in ("adc", "sbb", "rcl", "rcr") and "flags" in now.secrets
        result = secret or carries
        if mnemonic.startswith(("pextr", "vpextr", "vmov", "bsf", "bsr", "tzcnt", "lzcnt", "popcnt", "rorx", "shlx", "shrx", "sarx", "andn", "imul")):
            result = any(now.is_secret(name, operand) for operand in operands[1:])
        after.put(first, result)
        if mnemonic not in ("not", "bswap", "rorx", "shlx", "shrx", "sarx") and not mnemonic.startswith(("v", "pextr")):
            (after.secrets.add if result else after.secrets.discard)("flags")
        if mnemonic == "xchg":
            after.put(operands[1], secret)
    return after, wrong


def successors(body, at):
    address, mnemonic, operands = body[at]
    if mnemonic in ("ret", "ud2", "hlt", "int3"):
        return
    if mnemonic.startswith("j"):
        target = re.match(r"([0-9a-f]+)\b", operands[0])
        places = {line[0]: place for place, line in enumerate(body)}
        if target and int(target[1], 16) in places:
            yield places[int(target[1], 16)]
        if mnemonic == "jmp":
            return
    if at + 1 < len(body):
        yield at + 1


def faults(name, body):
    """The instructions of a function that are refused."""
    given = {register for pattern, some in GIVEN.items() if re.search(pattern, name) for register in some}
    before = {0: Reading(given, GIVEN_ON_STACK)}
    work, found = [0], {}
    while work:
        at = work.pop()
        after, wrong = step(name, before[at], body[at][1], body[at][2])
        if wrong:
            found[at] = wrong
        for place in successors(body, at):
            joined = before[place].joined(after) if place in before else after
            if place not in before or not joined.same(before[place]):
                before[place] = joined
                work.append(place)
    return [(body[at], wrong) for at, wrong in sorted(found.items())]


def main():
    read, refused = set(), 0
    for name, body in functions(sys.argv[1]):
        wanted = [pattern for pattern in READ + READ_WHERE_ALONE if re.search(pattern, name)]
        if not wanted:
            continue
        read.update(wanted)
        wrong = faults(name, body)
        answers = sum(count for pattern, count in ANSWERS.items() if re.search(pattern, name))
        if len(wrong) == answers and all(why == BRANCH for _, why in wrong):
            wrong = []
        refused += len(wrong)
        print(f"{'refused' if wrong else 'good'}: {name}, {len(body)} instructions")
        for (address, mnemonic, operands), why in wrong:
            print(f"    {address:x}: {mnemonic} {','.join(operands)}: {why}")
    for pattern in READ:
        if pattern not in read:
            print(f"missing: no function is named {pattern}")
            refused += 1
    print(f"machine code: {refused} refused")
    return 1 if refused else 0


if __name__ == "__main__":
    sys.exit(main())

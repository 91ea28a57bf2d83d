# How many clients a second a server in this process admits, over python3-gssapi:  rate.py COUNT KEYTAB ROUNDS [PROCESSES]
# It is run with the interposer (GSS_MECH_CONFIG, MENOLAVURI_GSS_CONF). In each round COUNT tokens, which another process made with MIT's
# library alone, are taken by each of three acceptors in turn: the interposer's with its store, MIT's mechanism with its replay cache, and
# MIT's without one. MIT's is called by the OID by which the mechglue lets an interposer call it. With PROCESSES, each of them takes
# COUNT tokens of its own at the same time. The processor's time is that of one process for a client, kernel and Python with it: other work
# on the machine changes it less than the clients a second.
import os, pickle, statistics, sys, tempfile, time

import gssapi

count, keytab, rounds = int(sys.argv[1]), sys.argv[2], int(sys.argv[3])
processes = int(sys.argv[4]) if len(sys.argv) > 4 else 1
NAME = gssapi.Name("host@localhost", gssapi.NameType.hostbased_service)
KRB5 = "1.2.840.113554.1.2.2"
# (an OID after another one: its first octet, 1.2, is the arc 42)
BEHIND = "1.3.6.1.4.1.32473.4120.1." + KRB5.replace("1.2", "42", 1)
CACHE = f"file2:{os.path.dirname(keytab)}/rate.replays"
ACCEPTORS = {
    "the interposer, with its store": (KRB5, None),
    "MIT's mechanism, with its replay cache": (BEHIND, CACHE),
    "MIT's mechanism, without one": (BEHIND, "none:"),
}


def make(path):
    """The tokens of all processes, made in a child that loads no interposer."""
    if os.fork() == 0:
        os.environ.pop("GSS_MECH_CONFIG", None)
        flags = [gssapi.RequirementFlag.mutual_authentication]
        tokens = [gssapi.SecurityContext(name=NAME, usage="initiate", flags=flags).step() for _ in range(count * processes)]
        with open(path, "wb") as file:
            pickle.dump(tokens, file)
        os._exit(0)
    os.wait()
    with open(path, "rb") as file:
        return pickle.load(file)


def credential(mech, cache):
    store = {"keytab": keytab, **({"rcache": cache} if cache else {})}
    return gssapi.Credentials(usage="accept", mechs=[gssapi.OID.from_int_seq(mech)], store=store)


def admitted(credential, token):
    context = gssapi.SecurityContext(creds=credential, usage="accept")
    try:
        context.step(token)
    except gssapi.exceptions.GSSError as error:
        print(error, file=sys.stderr)
        return False
    return context.complete


def serve(credential, tokens):
    begin, busy = time.perf_counter(), time.process_time()
    let_in = sum(admitted(credential, token) for token in tokens)
    return let_in, time.perf_counter() - begin, time.process_time() - busy


def measure(mech, cache, tokens):
    """Clients a second, microseconds of the processor for a client, and how many were refused."""
    begin = time.perf_counter()
    for number in range(1, processes):
        if os.fork() == 0:
            os._exit(serve(credential(mech, cache), tokens[number * count :][:count])[0] != count)
    let_in, took, busy = serve(credential(mech, cache), tokens[:count])
    failed = sum(os.waitstatus_to_exitcode(os.wait()[1]) for _ in range(1, processes))
    if processes > 1:
        took = time.perf_counter() - begin
    return count * processes / took, busy / count * 1e6, count - let_in + failed


rates = {words: [] for words in ACCEPTORS}
times = {words: [] for words in ACCEPTORS}
refused = dict.fromkeys(ACCEPTORS, 0)
for _ in range(rounds):
    with tempfile.NamedTemporaryFile() as file:
        tokens = make(file.name)
    for words, (mech, cache) in ACCEPTORS.items():
        rate, busy, missed = measure(mech, cache, tokens)
        rates[words].append(rate)
        times[words].append(busy)
        refused[words] += missed
for words, all in rates.items():
    least, middle, most = min(all), statistics.median(all), max(all)
    busy = f"{min(times[words]):.0f} to {max(times[words]):.0f} µs of the processor, in the middle {statistics.median(times[words]):.0f}"
    print(f"{words}: {least:.0f} to {most:.0f} clients a second, in the middle {middle:.0f}; {busy}; {refused[words]} refused")

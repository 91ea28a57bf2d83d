# The initiators: the example initiator, and krb_run's with carry between it and KDCs. Each logs in at Heimdal's KDC, and speaks to
# gss_server. No rule is named: the example goes by the RFCs, and krb_run by none.
krb_run=${RUN:-crates/krb_run/out/krb_run}

# reaches PASSWORD KDC[,KDC]
reaches() {
    timeout 20 "$examples/initiator" "127.0.0.1:$acceptor_port" host/server.example.com alice@EXAMPLE.COM - usual "$2" <<< "$1"
}

# Whether the example initiator is refused with these words: is_told PATTERN PASSWORD KDC[,KDC]
is_told() {
    reaches "$2" "$3" > "$room/said" 2>&1 && { cat "$room/said"; echo "it logged in"; return 1; }
    cat "$room/said"
    grep -q "refused: .*$1" "$room/said"
}

try_example() {
    local tcp=tcp://127.0.0.1:$heimdal_port
    check "the example initiator, Heimdal's KDC over TCP, three messages" reaches secret "$tcp"
    check "its server names alice" logged its-server '^admitted: alice@example.com$'
    check "over UDP, and over TCP where the answer is too long" reaches secret "udp://127.0.0.1:$heimdal_port"
    check "a second KDC where the first is away" reaches secret "tcp://$nobody,$tcp"
    check "no KDC is there" is_told 'Network 1: no KDC answered' secret "tcp://$nobody"
    check "a wrong password" is_told 'Kdc 24: the password or the key is not' wrong "$tcp"
}

# logs_in KDC_URL PASSWORD OTHER..
logs_in() {
    local url=$1
    shift
    timeout 20 "$python" "$live/log_in.py" "$krb_run" "$examples/carry" "$url" "$acceptor_port" "$@"
}

# Whether the initiator is refused with these words: fails PATTERN KDC_URL PASSWORD OTHER..
fails() {
    local pattern=$1
    shift
    logs_in "$@" > "$room/said" && { cat "$room/said"; echo "it logged in"; return 1; }
    cat "$room/said"
    grep -q "refused .*$pattern" "$room/said"
}

try_krb_run() {
    [ -x "$krb_run" ] || { echo "not tried: krb_run's initiator, which needs $krb_run; make build makes it"; return; }
    check "a password, Heimdal's KDC over TCP, a sealed message" logs_in "tcp://127.0.0.1:$heimdal_port" secret
    check "over UDP, and over TCP where the answer is too long" logs_in "udp://127.0.0.1:$heimdal_port" secret
    check "a second KDC where the first is away" logs_in "tcp://$nobody" secret "127.0.0.1:$heimdal_port"
    check "no KDC is there" fails 'Network 1' "tcp://$nobody" secret
    check "a wrong password" fails 'Kdc 24' "tcp://127.0.0.1:$heimdal_port" wrong
}

try_initiator() {
    local nobody
    has_heimdal || { echo "not tried: the initiators, which need Heimdal's KDC; tests/live/unpack unpacks it"; return; }
    [ -n "${heimdal:-}" ] || start_heimdal > "$room/heimdal.log" 2>&1
    nobody=127.0.0.1:$(free_port)
    start_acceptor its-server host/server.example.com "$(heimdal_key host)"
    await_port "$acceptor_port"
    try_example
    try_krb_run
}

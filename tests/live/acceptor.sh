# MIT's gss-client at the example gss_server.

# Starts gss_server with the key of a service: start_acceptor NAME SERVICE KEY RULE.., and leaves its port in acceptor_port. The
# key is new, so it need not wait.
start_acceptor() {
    acceptor_port=$(free_port)
    (umask 077 && echo "$3" > "$room/$1.key")
    start "$1" "$examples/gss_server" "127.0.0.1:$acceptor_port" "$2" "$room/$1.key" 300 0 "${@:4}"
    acceptor=$last
}

# Whether gss-client, with these options, gets no answer, and the server's log says why: is_refused NAME PATTERN OPTION..
is_refused() {
    local name=$1 pattern=$2
    shift 2
    timeout 20 gss-client -port "$acceptor_port" "$@" && { echo "it was answered"; return 1; }
    logged "$name" "$pattern"
}

# gss-client gets an answer if it asks for no signature.
is_answered() {
    timeout 20 gss-client -port "$acceptor_port" -nm 127.0.0.1 host@server.example.com hello | grep '^Response received'
}

# Four clients at the same time, each with ten connections of three messages.
crowd() {
    local clients=() status=0 i
    for i in 1 2 3 4; do
        verifies 30 "$acceptor_port" -ccount 10 -mcount 3 hello > "$room/crowd-$i" &
        clients+=($!)
    done
    for client in "${clients[@]}"; do wait "$client" || status=1; done
    [ $status -eq 0 ] || { tail -n 3 "$room"/crowd-*; grep -v -e '^admitted' -e octets "$room/acceptor.log" | tail -n 3; }
    return $status
}

# Whether what a relay kept gets no answer at a port: is_unanswered PORT FILE
is_unanswered() { [ "$("$python" "$live/relay.py" again "$1" "$2")" = "answered by 0 octets" ]; }

# A token that comes again, on a connection of its own, is refused. A relay keeps what a client sends, and sends it again.
comes_again() {
    local port
    port=$(free_port)
    start relay "$python" "$live/relay.py" "$port" "$acceptor_port" "$room/kept"
    await_relay
    verifies 1 "$port" hello || return 1
    kill "$last"
    is_unanswered "$acceptor_port" "$room/kept" && logged acceptor Replayed
}

# A token with one octet changed is refused, wherever that is. It may be one that nothing protects: the token itself came before.
changed_comes() { [ "$("$python" "$live/relay.py" altered "$acceptor_port" "$room/kept" 200)" = "answered 0 times" ]; }

# Octets that are no frames of this protocol are refused.
noise_comes() {
    head -c 100000 /dev/urandom > "$room/noise"
    is_unanswered "$acceptor_port" "$room/noise" || return 1
    printf '\x11\x00\x00\x00\x00\x02\xff\xff\xff\xff' > "$room/noise"
    is_unanswered "$acceptor_port" "$room/noise" || return 1
    printf '\x11\x00\x00\x00\x00\x02\x00\x00\x00\x00' > "$room/noise"
    is_unanswered "$acceptor_port" "$room/noise"
}

# A frame that says 2^31 octets is refused, before memory is taken for it and after it, in words. The server never had 100 MB.
long_frame_comes() {
    printf '\x11\x00\x00\x00\x00\x02\x80\x00\x00\x00' > "$room/noise"
    is_unanswered "$acceptor_port" "$room/noise" || return 1
    logged acceptor 'a frame says that it has 2147483648 octets' || return 1
    grep VmHWM "/proc/$acceptor/status"
    awk '/VmHWM/ && $2 > 100000 { exit 1 }' "/proc/$acceptor/status"
}

# While one address has as many connections as it may have, and all are silent, another one of it is refused.
silent_clients_come() {
    local clients=() client status=0 _
    for _ in $(seq 64); do exec {client}<> "/dev/tcp/127.0.0.1/$acceptor_port" && clients+=("$client"); done
    verifies 1 "$acceptor_port" hello && status=1
    logged acceptor 'not admitted: its address has 64 places already' || status=1
    for client in "${clients[@]}"; do exec {client}>&-; done
    return $status
}

# gss_server with a keytab, and a wait: start_by_keytab NAME SERVICE WAIT, which leaves its port in acceptor_port.
start_by_keytab() {
    acceptor_port=$(free_port)
    start "$1" "$examples/gss_server" "127.0.0.1:$acceptor_port" "$2" "$mit/keytab" 300 "$3"
    logged "$1" "^listening at 127.0.0.1:$acceptor_port$"
}

# Whether gss-client gets through to imap: reaches_imap
reaches_imap() { timeout 20 gss-client -port "$acceptor_port" 127.0.0.1 imap@server.example.com hello | grep '^Signature verified'; }

# Whether gss_server ends at once with these words: ends_with PATTERN ADDRESS SERVICE KEY SKEW WAIT
ends_with() {
    timeout 5 "$examples/gss_server" "${@:2}" > "$room/said" 2>&1
    [ $? -eq 1 ] || { cat "$room/said"; return 1; }
    cat "$room/said"
    grep -q -- "$1" "$room/said" && [ "$(wc -l < "$room/said")" -eq 1 ]
}

# The keytab has the keys of imap before and after their change, and the client a ticket under the older one.
try_keytabs() {
    local old
    check "the client has a ticket for imap" kvno imap/server.example.com
    kadmin.local ktadd -k "$mit/keytab" imap/server.example.com > "$room/ktadd.log" 2>&1
    check "gss_server with a keytab" start_by_keytab keytab-acceptor imap/server.example.com 0
    check "a ticket under the older of its keys" reaches_imap
    old=$KRB5CCNAME
    export KRB5CCNAME=FILE:$room/new-ccache
    echo secret | kinit alice > "$room/kinit.log" 2>&1
    check "a ticket under the newer one" reaches_imap
    export KRB5CCNAME=$old
}

# A server that waits says so, and why, and admits nobody until then.
try_wait() {
    check "gss_server with a wait" start_by_keytab waits host/server.example.com 4
    check "its log has the wait, and why" logged waits '^nobody is admitted for 4 seconds: a token that an earlier process admitted'
    check "during its wait nobody is admitted" is_refused waits 'not admitted: the wait is not over' 127.0.0.1 host@server.example.com hello
    check "its log says when that is over" logged waits '^clients are admitted from now on$'
    check "and then clients are admitted" verifies 1 "$acceptor_port" hello
}

# A failure at the start names its file or its address, in one line.
try_failures() {
    local busy=127.0.0.1:$acceptor_port service=host/server.example.com
    echo 0123 > "$room/short.key"
    check "no key file" ends_with "the key file $room/none is not read: No such file" "$busy" $service "$room/none" 300 0
    check "a key of two octets" ends_with "$room/short.key is no keytab, and no key" "$busy" $service "$room/short.key" 300 0
    check "a keytab without the service" ends_with "the keytab $mit/keytab has no key of AES for ftp/there; klist -k" "$busy" ftp/there "$mit/keytab" 300 0
    check "an address that is taken" ends_with "nothing listens at $busy, .*: Address already in use" "$busy" $service "$mit/keytab" 300 0
    check "a skew that is no number" ends_with 'the skew is a number of seconds, and not "soon"' "$busy" $service "$mit/keytab" soon 0
}

# The relay takes one connection alone, so nobody may try its port.
await_relay() { logged relay listens; }

try_acceptor() {
    local other_port acceptor
    start_acceptor other-key host/server.example.com "$(service_key imap)"
    other_port=$acceptor_port
    start_acceptor acceptor host/server.example.com "$(service_key host)"
    check "the log says where it listens" logged acceptor "^listening at 127.0.0.1:$acceptor_port$"
    head -c 100000 /dev/urandom | od -An -v -tx1 > "$room/file"
    check "the default: mutual, sealed, with a signature" verifies 1 "$acceptor_port" hello
    check "the log names the client" logged acceptor '^admitted: alice@example.com$'
    check "-mcount 3" verifies 3 "$acceptor_port" -mcount 3 hello
    check "-ccount 3: three connections" verifies 3 "$acceptor_port" -ccount 3 hello
    check "-seq -noreplay" verifies 1 "$acceptor_port" -seq -noreplay hello
    check "-nx: not sealed" verifies 1 "$acceptor_port" -nx hello
    check "its message has a checksum" logged acceptor '^5 octets, with a checksum: "hello"$'
    check "-nw: not wrapped" verifies 1 "$acceptor_port" -nw hello
    check "-nomutual" verifies 1 "$acceptor_port" -nomutual hello
    check "-nomutual -nx -mcount 3" verifies 3 "$acceptor_port" -nomutual -nx -mcount 3 hello
    check "-nm: no signature" is_answered
    check "-d: with a ticket for the server's own use" verifies 1 "$acceptor_port" -d hello
    check "-q: quiet" verifies 0 "$acceptor_port" -q hello
    check "-mech, by its number" verifies 1 "$acceptor_port" -mech "{ 1 2 840 113554 1 2 2 }" hello
    check "-user and -pass" verifies 1 "$acceptor_port" -user alice -pass secret hello
    check "an empty message" verifies 1 "$acceptor_port" ""
    check "-f: a file of $(wc -c < "$room/file") octets" verifies 1 "$acceptor_port" -f "$room/file"
    check "-na: a client that does not log in is refused" is_refused acceptor 'does not log in' -na 127.0.0.1 host@server.example.com hello
    check "a ticket for another service is refused" is_refused acceptor 'NoServiceKey' 127.0.0.1 imap@server.example.com hello
    check "four clients at once, 120 messages" crowd
    check "a token that comes again is refused" comes_again
    check "200 tokens with one octet changed are refused" changed_comes
    check "what is no token is refused" noise_comes
    check "a frame that says 2^31 octets is refused" long_frame_comes
    check "64 silent clients of one address: the next is refused" silent_clients_come
    check "and clients are admitted as before" verifies 1 "$acceptor_port" hello
    acceptor_port=$other_port
    check "another key than the ticket's is refused" is_refused other-key 'Altered' 127.0.0.1 host@server.example.com hello
    try_keytabs
    try_wait
    try_failures
}

# A server over python3-gssapi (gss/server.py), and a client over it: what a context tells, messages of each kind, channel bindings.

# Whether the client says so as its last line: python_client PORT SERVICE OPTION..
python_client() { timeout "${patience:-20}" "$python" "$live/gss/client.py" "$@" | tail -n 1 | grep -x done; }

# Whether the server's log has such a line for a client: python_tells PATTERN OPTION..
python_tells() {
    admits host/localhost bash -c "python_client $python_port host@localhost ${*:2}" || return 1
    tail -n 8 "$room/python.log" | grep -- "$1"
}

# Whether the message after a lost one is answered if no order is asked for: the client fails then, and the server has no error to print.
lost_is_answered() { ! python_client "$python_port" host@localhost noorder lost && tail -n 1 "$room/python.log" | grep '^key of '; }

# Starts the server, which holds its clients to such bindings, or to none: start_python NAME [DATA]
start_python() {
    python_port=$(free_port)
    serve "$1" "$python" "$live/gss/server.py" "$python_port" "${@:2}"
    await_port "$python_port"
}

try_gss_python() {
    local python_port free bound mech
    "$python" -c 'import gssapi' 2> /dev/null || { echo "not tried: Python, of Debian's package python3-gssapi"; return; }
    export -f python_client && export python live
    start_python python && free=$python_port
    try_admissions Python host/localhost bash -c "python_client $free host@localhost"
    check "Python: SPNEGO" admits host/localhost bash -c "python_client $free host@localhost mech=spnego"
    check "Python: the name, its flags, the ticket's time" python_tells 'alice@EXAMPLE.COM .* mutual replay sequence conf integ ready, life [0-9]'
    check "Python: a client that asks for no mutual authentication" python_tells ': replay sequence conf integ ready, ' nomutual
    check "Python: a client that asks for no order of messages" python_tells ': mutual replay conf integ ready, ' noorder
    check "Python: a message that comes twice is refused with its words" python_tells 'Repeated: the message was opened before' twice noorder
    check "Python: a message after a lost one is refused, if order is asked for" python_tells 'Number: the message is not the next one in order' lost
    check "Python: it is not refused otherwise" lost_is_answered
    check "Python: a delegated ticket" python_tells 'delegated by alice@EXAMPLE.COM' deleg
    check "Python: a message that is altered is refused with its words" python_tells 'Altered: the key does not open it' altered
    check "Python: the session's key" python_tells 'key of 32 octets, type 18'
    for mech in iakerb old wrong; do
        check "Python: another OID of Kerberos, $mech" stays_out bash -c "python_client $free host@localhost mech=$mech"
    done
    check "Python: DCE style" turns_away 'Shape: ' bash -c "python_client $free host@localhost dce"
    check "Python: a client that binds, where the server does not" admits host/localhost bash -c "python_client $free host@localhost bind=x"
    start_python bound tls-server-end-point:x && bound=$python_port
    check "Python: the same channel bindings" admits host/localhost bash -c "python_client $bound host@localhost bind=tls-server-end-point:x"
    check "Python: other channel bindings" turns_away 'Bindings: ' bash -c "python_client $bound host@localhost bind=tls-server-end-point:y"
    check "Python: no channel bindings" turns_away 'Bindings: ' bash -c "python_client $bound host@localhost"
    check "Python: bindings with an address" turns_away 'Bindings: ' bash -c "python_client $bound host@localhost bind=address"
    check "Python: 2000 altered tokens are refused" admits host/localhost bash -c "python_client $free host@localhost fuzz=2000"
}

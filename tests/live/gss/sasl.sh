# A server over Cyrus' libsasl2 (pop_server.py), and clients over it, with each of the three layers.

# Whether Cyrus' client is admitted and answered in a layer of a strength between these: sasl_client PORT LEAST MOST
sasl_client() {
    local said
    said=$(timeout 20 "$python" "$live/pop.py" "$1" "$2" "$3" - 65536 5) || { echo "$said"; return 1; }
    [ "$(grep -c '^+OK 0 0$' <<< "$said")" -eq 5 ]
}

# Whether Cyrus' sample programs agree, with such bits, and each reads the other's message: sasl_samples LEAST MOST. Lines that begin with S:
# go to the client, and those with C: to the server, which is named as this machine.
sasl_samples() {
    local options=(-s pop -m GSSAPI -b "min=$1,max=$2") ends=$gss/samples-$1
    mkfifo "$ends.to-client" "$ends.to-server"
    served timeout 15 stdbuf -oL sasl-sample-server "${options[@]}" < "$ends.to-server" 2> /dev/null |
        stdbuf -oL tee "$ends.server" | grep --line-buffered '^S: ' > "$ends.to-client" &
    timeout 15 stdbuf -oL sasl-sample-client "${options[@]}" -n "$(hostname)" -u alice -a alice < "$ends.to-client" 2> /dev/null |
        stdbuf -oL tee "$ends.client" | grep --line-buffered '^C: ' > "$ends.to-server"
    wait $!
    grep -a "decoded message 'client message 1'" "$ends.server" && grep -a "decoded message 'srv message 1'" "$ends.client"
}

try_gss_sasl() {
    local port plugins=(/usr/lib/*/sasl2/libgssapiv2.so)
    [ -e "${plugins[0]}" ] || { echo "not tried: Cyrus' SASL, of Debian's package libsasl2-modules-gssapi-mit"; return; }
    port=$(free_port)
    serve sasl-server "$python" "$live/pop_server.py" "$port" 0 256 65536
    await_port "$port"
    export -f sasl_client && export python live
    try_admissions "Cyrus' SASL" pop/server.example.com bash -c "sasl_client $port 256 256"
    check "Cyrus' SASL, no layer" admits pop/server.example.com bash -c "sasl_client $port 0 0"
    check "Cyrus' SASL, integrity" admits pop/server.example.com bash -c "sasl_client $port 1 1"
    command -v sasl-sample-server > /dev/null || { echo "not tried: sasl-sample-server, of Debian's package sasl2-bin"; return; }
    export gss mit KRB5_CONFIG && export -f sasl_samples served
    check "sasl-sample, integrity" admits "pop/$(hostname)" bash -c "sasl_samples 1 1"
    check "sasl-sample, confidentiality" admits "pop/$(hostname)" bash -c "sasl_samples 56 256"
}

# Java's and Cyrus' clients of SASL at the example sasl_server, and the example sasl_client at a server of Cyrus' and at sasl_server.

# Starts sasl_server with these layers: start_sasl LAYERS KEY|KEYTAB HOST, and leaves its port in sasl_port.
start_sasl() {
    local file=$2
    sasl_port=$(free_port)
    [ -e "$file" ] || { file=$room/$sasl_port.key && (umask 077 && echo "$2" > "$file"); }
    start "sasl-$sasl_port" "$examples/sasl_server" "127.0.0.1:$sasl_port" "pop/${3:-server.example.com}" "$file" 300 0 "$1"
}

# Whether Java's client said this of a case: java_said WORDS
java_said() { cat "$room/java.said"; grep -qxF -- "$1" "$room/java.said"; }

try_java() {
    command -v java javac > /dev/null || { echo "not tried: Java's client, which needs Debian's package openjdk-17-jdk-headless"; return; }
    javac -d "$room" "$live/Pop.java" || return
    timeout 60 java -cp "$room" -Djava.security.krb5.conf="$mit/krb5.conf" -XX:TieredStopAtLevel=1 Pop "$sasl_port" \
        auth//5 auth-int//5 auth-conf//5 auth-conf/alice@example.com/100 auth-conf/bob/1 > "$room/java.said" 2>&1
    for layer in auth auth-int auth-conf; do check "Java's client, $layer" java_said "$layer//5: +OK $layer 5"; done
    check "Java's client, auth-conf, acts for itself, 100 messages" java_said "auth-conf/alice@example.com/100: +OK auth-conf 100"
    check "Java's client is refused where it acts for another" java_said "auth-conf/bob/1: -ERR"
}

# Whether Cyrus' client is admitted and answered, in a layer of a strength between these: cyrus_in LEAST MOST AUTHORIZATION_ID LONGEST COUNT
cyrus_in() {
    timeout 20 "$python" "$live/pop.py" "$sasl_port" "$@" > "$room/said" || { cat "$room/said"; return 1; }
    cat "$room/said"
    [ "$(grep -c '^+OK 0 0$' "$room/said")" -eq "$5" ]
}

refused_cyrus() { ! timeout 20 "$python" "$live/pop.py" "$sasl_port" "$@"; }

try_cyrus() {
    local plugins=(/usr/lib/*/sasl2/libgssapiv2.so)
    [ -e "${plugins[0]}" ] || { echo "not tried: Cyrus' client, which needs Debian's package libsasl2-modules-gssapi-mit"; return; }
    check "Cyrus' client, no layer" cyrus_in 0 0 - 65536 5
    check "Cyrus' client, integrity" cyrus_in 1 1 - 65536 5
    check "Cyrus' client, confidentiality" cyrus_in 2 256 - 65536 5
    check "Cyrus' client, confidentiality, acts for itself, 100 messages" cyrus_in 2 256 alice@example.com 65536 100
    check "Cyrus' client, confidentiality, messages of 200 octets at most" cyrus_in 2 256 - 200 5
    check "Cyrus' client is refused where it acts for another" refused_cyrus 2 256 bob 65536 1
}

# Whether Cyrus' imtest, which speaks POP3 too, is admitted and answered: imtest_in LEAST MOST
imtest_in() {
    printf 'STAT\r\nNOOP\r\nQUIT\r\n' | LD_LIBRARY_PATH=$(echo "$live"/out/cyrus/usr/lib/*-linux-gnu) timeout 20 "$imtest" -P pop3 -m GSSAPI \
        -k "$1" -l "$2" -p "$sasl_port" localhost > "$room/said" || { cat "$room/said"; return 1; }
    cat "$room/said"
    grep -q '^Authenticated' "$room/said" && grep -q '^+OK 0 0' "$room/said"
}

try_imtest() {
    [ -x "$imtest" ] || { echo "not tried: imtest, of Debian's package cyrus-clients, which tests/live/unpack unpacks"; return; }
    check "imtest, no layer" imtest_in 0 0
    check "imtest, integrity" imtest_in 1 1
    check "imtest, confidentiality" imtest_in 2 256
}

# Whether the example sasl_client is admitted and answered at this port, in a layer: client_in PORT LAYER NAME COUNT RULE..
client_in() {
    timeout 20 "$examples/sasl_client" "127.0.0.1:$1" pop/server.example.com alice@EXAMPLE.COM - "$2" "$4" "tcp://127.0.0.1:$mit_port" \
        "${@:5}" <<< secret > "$room/said" 2>&1 || { cat "$room/said"; return 1; }
    cat "$room/said"
    grep -qxF "logged in: pop/server.example.com, layer $3" "$room/said" && [ "$(grep -c '^+OK 0 0$' "$room/said")" -eq "$4" ]
}

# It gets this error, and ends: client_is_told PATTERN PORT LAYER RULE..
client_is_told() {
    client_in "$2" "$3" - 1 "${@:4}" && { echo "it was admitted"; return 1; }
    grep -q -- "$1" "$room/said"
}

# No rule is named.
try_client() {
    local own=$sasl_port port
    check "sasl_client at sasl_server, no layer" client_in "$own" 1 None 5
    check "sasl_client at sasl_server, integrity" client_in "$own" 2 Integrity 5
    check "sasl_client at sasl_server, confidentiality, 100 messages" client_in "$own" 4 Confidentiality 100
    check "without a rule the KDC's first reply is refused" client_is_told 'refused: .* EarlyAsRep' "$own" 4 NONE
    check "its log names the layer" logged "sasl-$own" '^admitted: alice@example.com, layer Confidentiality$'
    check "sasl_client is refused if it asks for what is not offered" client_is_told 'the layer is not offered' "$strict_port" 2
    local plugins=(/usr/lib/*/sasl2/libgssapiv2.so)
    [ -e "${plugins[0]}" ] || { echo "not tried: a server of Cyrus', which needs Debian's package libsasl2-modules-gssapi-mit"; return; }
    port=$(free_port)
    start cyrus-server env "KRB5_KTNAME=FILE:$mit/keytab" "$python" "$live/pop_server.py" "$port" 0 256 65536
    await_port "$port"
    check "sasl_client at a server of Cyrus', no layer" client_in "$port" 1 None 5
    check "sasl_client at a server of Cyrus', integrity" client_in "$port" 2 Integrity 5
    check "sasl_client at a server of Cyrus', confidentiality, 100 messages" client_in "$port" 4 Confidentiality 100
    check "the server names alice, and the layer" logged cyrus-server '^admitted: alice, strength 256$'
    port=$(free_port)
    start cyrus-small env "KRB5_KTNAME=FILE:$mit/keytab" "$python" "$live/pop_server.py" "$port" 2 256 100
    await_port "$port"
    check "sasl_client at a server of Cyrus', messages of 100 octets at most" client_in "$port" 4 Confidentiality 5
    check "sasl_client is refused by a server of Cyrus' that requires confidentiality" client_is_told 'the layer is not offered' "$port" 2
}

try_sasl() {
    local imtest=$live/out/cyrus/usr/lib/cyrus/bin/imtest all_port localhost_port strict_port
    [ -x "$imtest" ] || imtest=/usr/lib/cyrus/bin/imtest
    start_sasl 7 "$(service_key pop)" && all_port=$sasl_port
    start_sasl 7 "$mit/keytab" localhost && localhost_port=$sasl_port
    start_sasl 4 "$(service_key pop)" && await_port "$sasl_port" && strict_port=$sasl_port
    check "Cyrus' client is refused if it asks for no layer and confidentiality is offered" refused_cyrus 0 0 - 65536 1
    check "Cyrus' client, where confidentiality alone is offered" cyrus_in 0 256 - 65536 1
    sasl_port=$all_port
    try_java
    try_cyrus
    try_client
    sasl_port=$localhost_port
    try_imtest
}

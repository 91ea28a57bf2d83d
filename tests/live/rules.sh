# The examples initiator and gss_server at peers of MIT krb5, Heimdal and Java: by the rules of the RFCs, without naming one; and what each
# rule is for, with all but one.
all_rules=(AS_REP_TAGGED_26 NO_PREAUTHENTICATION SUITE_OF_EACH_KEY SUBKEY_FLAG_BY_ORIGIN FIRST_NUMBER_AS_SHOWN AP_REP_WITHOUT_SUBKEY
    THIRD_LEG_BY_VALUE ONE_WAY_IS_SETTLED EXTRA_COUNT_BY_TOKEN FRESH_REPLIES ANSWERS_ITS_AUTHENTICATOR)

# Starts a service, and leaves its port in `port`: start_service NAME COMMAND.., which gets its port in place of the word PORT.
start_service() {
    local name=$1 words=("${@:2}")
    port=$(free_port)
    start "$name" "${words[@]/#PORT/$port}"
    await_port "$port"
}

# The example initiator logs in by the KDC `kdc`, and speaks to the service `service` at `port`, all of which its caller sets:
# visits USER KEYTAB|- usual|one-way|dce-style RULE..
visits() { timeout 20 "$examples/initiator" "127.0.0.1:$port" "$service" "$1@EXAMPLE.COM" "$2" "$3" "$kdc" "${@:4}" <<< secret; }

# With a password, and without a word about rules: visits_plainly USER ASKED
visits_plainly() { visits "$1" - "$2"; }

# All rules but one, in `rules`; none with `-`, so that the library's own stay: all_but RULE|-
all_but() {
    local rule
    rules=()
    [ "$1" = - ] && return
    for rule in "${all_rules[@]}"; do [ "$rule" = "$1" ] || rules+=("$rule"); done
}

# With all rules but one, or the library's own with `-`, it gets through to nobody: is_away RULE|- USER ASKED
is_away() {
    local rules
    all_but "$1"
    visits "$2" - "$3" "${rules[@]}" > "$room/said" 2>&1 && { cat "$room/said"; echo "it got through"; return 1; }
    cat "$room/said"
}

# With no rule at all it is refused with these words: refuses_without_rules PATTERN USER ASKED
refuses_without_rules() {
    visits "$2" - "$3" NONE > "$room/said" 2>&1 && { cat "$room/said"; echo "it got through"; return 1; }
    cat "$room/said"
    grep -q -- "$1" "$room/said"
}

# is_away, and the initiator says so: `needs RULE PATTERN USER ASKED`
needs() { is_away "$1" "$3" "$4" && grep -q -- "$2" "$room/said"; }

# As `needs`, and the service says so in its log: `its_service_needs RULE NAME PATTERN USER ASKED`
its_service_needs() {
    local before
    before=$(wc -l < "$room/$2.log")
    is_away "$1" "$4" "$5" || return 1
    for _ in $(seq 50); do
        tail -n "+$((before + 1))" "$room/$2.log" | grep -q -- "$3" && return
        sleep 0.1
    done
    echo "no line '$3' in the log of $2:"
    tail -n "+$((before + 1))" "$room/$2.log" | tail -n 5
    return 1
}

# carol has to pre-authenticate; small and the service of small.example.com have one key, of AES-128.
add_mit_principals() {
    local one_key=aes128-cts-hmac-sha1-96:normal
    kadmin.local addprinc +requires_preauth -pw secret carol
    kadmin.local addprinc -e "$one_key" +requires_preauth -pw secret small
    kadmin.local addprinc -e "$one_key" -randkey host/small.example.com
    kadmin.local ktadd -e "$one_key" -k "$mit/keytab" host/small.example.com
    kadmin.local ktadd -norandkey -k "$mit/carol.keytab" carol
}

try_mit_kdc() {
    local kdc=tcp://127.0.0.1:$mit_port port service=host/server.example.com
    start_service mit-service env "$mit_keytab" gss-server -port PORT host@server.example.com
    check "MIT's KDC and service" visits_plainly carol usual
    check "the same with the key of a keytab" visits carol "$mit/carol.keytab" usual
    check "MIT's KDC without any rule: its AS-REP is refused" refuses_without_rules 'refused: .* Inner' carol usual
    check "MIT's KDC without AS_REP_TAGGED_26: each AS-REP is refused" needs AS_REP_TAGGED_26 'refused: .* Inner' carol usual
    check "a user without pre-authentication" visits_plainly alice usual
    check "without NO_PREAUTHENTICATION the first AS-REP is refused" needs NO_PREAUTHENTICATION 'refused: .* EarlyAsRep' alice usual
    check "a user with one key of AES-128" visits_plainly small usual
    check "without SUITE_OF_EACH_KEY the KDC refuses it" needs SUITE_OF_EACH_KEY 'refused: .* Kdc' small usual
    kdc=udp://127.0.0.1:$mit_port
    check "MIT's KDC over UDP" visits_plainly carol usual
    if "$python" -c 'import kdcproxy' 2> /dev/null; then
        start_proxy
        kdc=http://127.0.0.1:$proxy_port/KdcProxy
        check "MIT's KDC through a proxy" visits_plainly carol usual
    fi
    service=host/small.example.com
    start_service mit-small env "$mit_keytab" gss-server -port PORT host@small.example.com
    check "a service with one key of AES-128" visits_plainly carol usual
    kadmin.local setstr host/small.example.com session_enctypes aes128-cts-hmac-sha1-96 > "$room/small.log" 2>&1
    check "a service whose sessions are to have AES-128" visits_plainly carol usual
    check "without SUITE_OF_EACH_KEY its key is refused" needs SUITE_OF_EACH_KEY 'refused: .* KeyLength' carol usual
}

try_mit_service() {
    local kdc=tcp://127.0.0.1:$mit_port port service=host/server.example.com mit_library=libgssapi_krb5.so.2
    start_service mit-server env "$mit_keytab" stdbuf -oL gss-server -port PORT host@server.example.com
    check "MIT's service without FIRST_NUMBER_AS_SHOWN: it reports a gap" its_service_needs FIRST_NUMBER_AS_SHOWN mit-server unsealing carol usual
    check "MIT's service one way" visits_plainly carol one-way
    check "without ONE_WAY_IS_SETTLED it awaits what never comes" needs ONE_WAY_IS_SETTLED 'sent nothing for 10s' carol one-way
    check "MIT's service in DCE style, which opens messages as a whole: it refuses them" its_service_needs - mit-server unsealing carol dce-style
    start_service mit-wraps env "$mit_keytab" "$python" "$live/gss.py" serve "$mit_library" PORT whole wrapped
    check "MIT's messages" visits_plainly carol usual
    start_service mit-parts env "$mit_keytab" "$python" "$live/gss.py" serve "$mit_library" PORT parts mic
    check "MIT's service in DCE style, which opens messages in parts" visits_plainly carol dce-style
    start_service mit-dce env "$mit_keytab" "$python" "$live/gss.py" serve "$mit_library" PORT parts wrapped
    check "MIT's messages in DCE style" visits_plainly carol dce-style
    check "without EXTRA_COUNT_BY_TOKEN they are refused" needs EXTRA_COUNT_BY_TOKEN 'refused: .* ExtraCount' carol dce-style
}

try_java_service() {
    local kdc=tcp://127.0.0.1:$mit_port port service=host/server.example.com
    command -v java javac > /dev/null || { echo "not tried: a service in Java, which needs Debian's package openjdk-17-jdk-headless"; return; }
    javac -d "$room" "$live/Service.java" || return
    start_service java-service java -cp "$room" -Djava.security.krb5.conf="$mit/krb5.conf" -XX:TieredStopAtLevel=1 Service PORT "$mit/keytab" \
        host/server.example.com@EXAMPLE.COM
    check "a service in Java" visits_plainly carol usual
    check "a service in Java one way" visits_plainly carol one-way
    check "without AP_REP_WITHOUT_SUBKEY its AP-REP is refused" needs AP_REP_WITHOUT_SUBKEY 'refused: .* NoSubKey' carol usual
    check "without FIRST_NUMBER_AS_SHOWN it reports a gap" its_service_needs FIRST_NUMBER_AS_SHOWN java-service 'a message is missing' carol usual
}

# A user of Heimdal's realm with one key of AES-128.
add_heimdal_user() {
    local admin=("$heimdal_folder/usr/bin/kadmin.heimdal" -c "$heimdal/small.conf" -l)
    { cat "$heimdal/krb5.conf" && printf '[kadmin]\n    default_keys = aes128-cts-hmac-sha1-96:pw-salt\n'; } > "$heimdal/small.conf"
    heimdal "${admin[@]}" add --use-defaults -p secret small
    heimdal "${admin[@]}" modify -a +requires-pre-auth small
    heimdal "${admin[@]}" ext_keytab -k "$heimdal/alice.keytab" alice
}

try_heimdal_service() {
    local kdc=tcp://127.0.0.1:$heimdal_port port service=host/server.example.com keytab=KRB5_KTNAME=FILE:$heimdal/keytab
    start_service heimdal-service env "${heimdal_settings[@]}" "$keytab" "$python" "$live/gss.py" serve libgssapi.so.3 PORT whole mic
    check "Heimdal's KDC and service" visits_plainly alice usual
    check "the same with the key of a keytab, at Heimdal's KDC" visits alice "$heimdal/alice.keytab" usual
    check "a user with one key of AES-128 at Heimdal's KDC" visits_plainly small usual
    check "without SUITE_OF_EACH_KEY Heimdal's KDC refuses it" needs SUITE_OF_EACH_KEY 'refused: .* Kdc' small usual
    check "Heimdal's service without FIRST_NUMBER_AS_SHOWN: it reports a gap" its_service_needs FIRST_NUMBER_AS_SHOWN heimdal-service \
        'gss_unwrap: 0x10' alice usual
    check "Heimdal's service one way" visits_plainly alice one-way
    check "without SUBKEY_FLAG_BY_ORIGIN it refuses the messages" its_service_needs SUBKEY_FLAG_BY_ORIGIN heimdal-service gss_unwrap alice one-way
    check "Heimdal's service in DCE style" visits_plainly alice dce-style
    start_service heimdal-wraps env "${heimdal_settings[@]}" "$keytab" "$python" "$live/gss.py" serve libgssapi.so.3 PORT whole wrapped
    check "Heimdal's messages" visits_plainly alice usual
    check "Heimdal's messages in DCE style" visits_plainly alice dce-style
    check "without EXTRA_COUNT_BY_TOKEN they are refused" needs EXTRA_COUNT_BY_TOKEN 'refused: .* ExtraCount' alice dce-style
}

try_heimdal_client() {
    local rules mutual=62 one_way=52 kdc=tcp://127.0.0.1:$heimdal_port port service=host/server.example.com
    start_acceptor open-server host/server.example.com "$(heimdal_key host)"
    await_port "$acceptor_port"
    check "Heimdal's client at gss_server" heimdal_speaks "$mutual"
    check "the same one way" heimdal_speaks "$one_way"
    port=$acceptor_port
    check "the initiator at gss_server, both without a word about rules" visits_plainly alice usual
    check "the same one way" visits_plainly alice one-way
    all_but SUBKEY_FLAG_BY_ORIGIN
    start_acceptor flagged-server host/server.example.com "$(heimdal_key host)" "${rules[@]}"
    await_port "$acceptor_port"
    check "without SUBKEY_FLAG_BY_ORIGIN Heimdal's client refuses the signature, one way" heimdal_refuses "$one_way"
}

try_mit_client() {
    start_acceptor mit-open-server host/server.example.com "$(service_key host)"
    await_port "$acceptor_port"
    check "MIT's client at gss_server" verifies 3 "$acceptor_port" -seq -mcount 3 hello
    check "the same one way" verifies 3 "$acceptor_port" -nomutual -mcount 3 hello
}

try_rules() {
    local mit_keytab=KRB5_KTNAME=FILE:$mit/keytab
    add_mit_principals > "$room/principals.log" 2>&1
    try_mit_kdc
    try_mit_service
    try_mit_client
    try_java_service
    has_heimdal || { echo "not tried: Heimdal, whose packages tests/live/unpack unpacks"; return; }
    [ -n "${heimdal:-}" ] || start_heimdal > "$room/heimdal.log" 2>&1
    add_heimdal_user > "$room/heimdal-user.log" 2>&1
    try_heimdal_service
    try_heimdal_client
}

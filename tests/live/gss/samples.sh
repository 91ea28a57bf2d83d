# MIT's sample programs: gss-server, and gss-client, which verifies a MIC over what it sent.

# Whether gss-client says this many times that the signature of what it sent is good: sample_client PORT COUNT OPTION..
sample_client() {
    [ "$(timeout "${patience:-20}" gss-client -port "$1" "${@:3}" 127.0.0.1 "${sample_service:-host}@localhost" 'hello there' | grep -cx 'Signature verified.')" -eq "$2" ]
}

# Starts MIT's gss-server with the interposer: start_sample NAME WRAPPER.., and leaves its port in sample_port.
start_sample() {
    sample_port=$(free_port)
    serve "$1" "${@:2}" gss-server -port "$sample_port" host@localhost
    await_port "$sample_port"
}

# A token that the process at one port admitted comes to the one at the other.
comes_to_another() {
    local preload=(env LD_PRELOAD="$room/again.so")
    rm -f "$gss/token"
    admits host/localhost "${preload[@]}" KEEP="$gss/token" bash -c "sample_client $1 1" || return 1
    turns_away 'Replayed: ' "${preload[@]}" AGAIN="$gss/token" bash -c "sample_client $2 1"
}

# Whether four processes of alice that log in at once are each admitted, 100 times: many of their authenticators have one microsecond.
has_a_crowd() {
    local said
    said=$(timeout 60 "$python" "$live/gss.py" crowd libgssapi_krb5.so.2 "$1" host@localhost 62 4 100)
    echo "$said"
    [ "$said" = 'of 400 log-ins 0 were refused' ]
}

# Whether valgrind finds no error in gss-server and the interposer, and nothing lost but what the mechglue loses by itself, with one client
# that is judged so: is_clean admits SERVICE, is_clean has_wrong_clock
is_clean() {
    local sample_port process
    local -x patience=100 # (seconds)
    sample_port=$(free_port)
    serve valgrind valgrind --quiet --leak-check=full --error-exitcode=9 --suppressions="$live/gss/mechglue.supp" \
        gss-server -port "$sample_port" -once host@localhost
    process=$last
    # (it serves one connection, so that a look whether it listens must not be one)
    for _ in $(seq 100); do grep -q ":$(printf %04X "$sample_port") 00000000:0000 0A" /proc/net/tcp && break; sleep 0.2; done
    "$@" bash -c "sample_client $sample_port 3 -mcount 3" || return 1
    wait "$process" || { grep -v '^[^=]' "$room/valgrind.log"; return 1; }
}

# Whether the client says why it was refused: the acceptor's KRB-ERROR tells it.
says_the_skew() {
    KRB5CCNAME=FILE:$gss/skewed timeout 20 gss-client -port "$1" 127.0.0.1 host@localhost hello 2>&1 | tee /dev/stderr | grep -q 'Clock skew too great'
}

# Whether tickets under the older and the newer key of a service are admitted, once the keytab has both.
rolls_over() {
    local gss_conf=$gss/rolled.conf older=FILE:$gss/older.ccache sample_port
    gss_settings "file:$gss/store" | sed "s#^keytab = .*#keytab = $gss/rolled.keytab#" > "$gss_conf"
    kadmin.local addprinc -randkey roll/localhost && kadmin.local ktadd -k "$gss/rolled.keytab" roll/localhost
    cp "${KRB5CCNAME#FILE:}" "${older#FILE:}" && KRB5CCNAME=$older kvno roll/localhost
    sample_port=$(free_port)
    serve gss-rolled gss-server -port "$sample_port" roll@localhost
    await_port "$sample_port"
    sample_service=roll KRB5CCNAME=$older admits roll/localhost bash -c "sample_client $sample_port 1" || return 1
    kadmin.local ktadd -k "$gss/rolled.keytab" roll/localhost
    sample_service=roll KRB5CCNAME=$older admits roll/localhost bash -c "sample_client $sample_port 1" || return 1
    sample_service=roll admits roll/localhost bash -c "sample_client $sample_port 1" || return 1
    klist -k "$gss/rolled.keytab" && klist -c "$older" | grep roll/localhost
}

# Whether nobody is admitted where the store cannot be written.
is_closed_without_store() {
    local gss_conf=$gss/away.conf
    gss_settings file:/nonexistent > "$gss_conf"
    start_sample gss-away
    turns_away 'the store of admitted clients does not answer: nobody is admitted (/nonexistent/' bash -c "sample_client $sample_port 1"
}

# A keytab is found by KRB5_KTNAME, and each call is traced on standard error, if the settings name neither.
has_environment() {
    local gss_conf=$gss/plain.conf
    gss_settings "file:$gss/store" | sed '/^keytab/d' > "$gss_conf"
    start_sample gss-plain env "KRB5_KTNAME=FILE:$gss/keytab" MENOLAVURI_TRACE=stderr
    sample_client "$sample_port" 1 && logged gss-plain ': unwrap 11 octets, sealed=true' && logged gss-plain ': admitted client=alice@'
}

try_gss_samples() {
    local sample_port first
    start_sample gss-1 && first=$sample_port
    start_sample gss-2
    export -f sample_client
    try_admissions gss-server host/localhost bash -c "sample_client $first 1"
    check "gss-server: a token comes again at another process" comes_to_another "$first" "$sample_port"
    check "gss-server: messages in the clear" admits host/localhost bash -c "sample_client $first 1 -nx"
    check "gss-server: SPNEGO" admits host/localhost bash -c "sample_client $first 1 -spnego"
    check "gss-server: a client is told that its clock is wrong" says_the_skew "$first"
    check "gss-server: the older and the newer key of a service" rolls_over
    check "gss-server: a client that delegates" admits host/localhost bash -c "sample_client $first 1 -d"
    check "gss-server: five log-ins, ten messages each" admits host/localhost bash -c "sample_client $first 50 -ccount 5 -mcount 10"
    check "gss-server: the store is away: nobody is admitted" is_closed_without_store
    check "gss-server: KRB5_KTNAME and MENOLAVURI_TRACE" has_environment
    check "gss-server: four processes of one client at once" has_a_crowd "$first"
    command -v valgrind > /dev/null || { echo "not tried: gss-server under Debian's valgrind"; return; }
    check "gss-server under valgrind" is_clean admits host/localhost
    check "gss-server under valgrind, a client that is refused" is_clean has_wrong_clock
}

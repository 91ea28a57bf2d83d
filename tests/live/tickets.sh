# A user's tickets: kinit's of MIT and Heimdal, and a cache that Java wrote. The example initiator and Debian's clients, unchanged, go on from
# there: MIT's mechglue loads bindings/gss, whose settings say initiate = yes, and the proved initiator reaches servers of the part gss. The
# log says so, with the word `reached`.
# shellcheck disable=SC1091
. "$live/gss/referral.sh"

# Runs a client with the interposer, whose settings are those of tickets_conf, or of the folder's tickets.conf: initiates COMMAND..
initiates() { env GSS_MECH_CONFIG="$gss/mech.conf" MENOLAVURI_GSS_CONF="${tickets_conf:-$gss/tickets.conf}" "$@"; }

# Whether a client ends so, and the proved initiator said so within two seconds: initiator_says STATUS PATTERN CLIENT..
initiator_says() {
    local wanted=$1 pattern=$2 ended=0
    : > "$gss/tickets.log"
    timeout 30 env GSS_MECH_CONFIG="${gss_mech:-$gss/mech.conf}" MENOLAVURI_GSS_CONF="${tickets_conf:-$gss/tickets.conf}" "${@:3}" || ended=1
    cut -d' ' -f2- "$gss/tickets.log" | tail -n 5
    [ "$ended" -eq "$wanted" ] && grep -q -- "$pattern" "$gss/tickets.log"
}

# Whether a client of a service gets through by the proved initiator: reaches_it SERVICE CLIENT..
reaches_it() { initiator_says 0 "menolavuri.*: reached client=alice@EXAMPLE.COM service=$1 took=" "${@:2}"; }

# Whether a client of a service gets through with a ticket by the proved initiator, and does not look at the answer: shows_a_ticket SERVICE CLIENT..
shows_a_ticket() { initiator_says 0 "menolavuri.*: shows a ticket client=alice@EXAMPLE.COM service=$1 took=" "${@:2}"; }

# Whether a client does not get through, and the proved initiator said why: misses_it PATTERN CLIENT..
misses_it() { initiator_says 1 "menolavuri.*: not reached client=alice@EXAMPLE.COM .*: $1" "${@:2}"; }

# Whether a client gets through by MIT's mechanism, which was asked for this reason: goes_by_mit PATTERN CLIENT..
goes_by_mit() {
    initiator_says 0 "menolavuri.*: MIT's mechanism initiates: $1" env MENOLAVURI_TRACE="$gss/tickets.log" "${@:2}" &&
        ! grep ': reached ' "$gss/tickets.log"
}

# The realm's krb5.conf with other KDCs: with_kdcs NAME HOST.. It leaves its path in kdcs_conf.
with_kdcs() {
    local lines='' host
    kdcs_conf=$gss/$1.conf
    for host in "${@:2}"; do lines+="        kdc = $host\n"; done
    sed "s#^        kdc = .*#${lines%\\n}#" "$gss/krb5.conf" > "$kdcs_conf"
}

tickets_room() {
    gss_room tickets || return 1
    printf '%s\n' 'initiate = yes' "log = $gss/tickets.log" "status = $gss/status" > "$gss/tickets.conf"
    sed 's/yes/no/' "$gss/tickets.conf" > "$gss/no.conf"
    touch "$gss/tickets.log" && chmod 666 "$gss/tickets.log"
    mkdir "$gss/folder"
    kdestroy -q && echo secret | kinit alice
    cp "${KRB5CCNAME#FILE:}" "$gss/tgt.ccache"
}

# The ticket of a user in a cache that another implementation wrote: heimdal_cache FILE, java_cache FILE
heimdal_cache() {
    echo secret > "$gss/password"
    env LD_LIBRARY_PATH="$(echo "$heimdal_folder"/usr/lib/*-linux-gnu)" KRB5_CONFIG="$mit/krb5.conf" \
        "$heimdal_folder/usr/bin/kinit.heimdal" --password-file="$gss/password" -c "FILE:$1" alice && chmod 600 "$1"
}

java_cache() {
    local exports=(--add-exports java.security.jgss/sun.security.krb5=ALL-UNNAMED
        --add-exports java.security.jgss/sun.security.krb5.internal.ccache=ALL-UNNAMED)
    javac -d "$gss" "${exports[@]}" "$live/gss/Kinit.java" &&
        java -cp "$gss" "${exports[@]}" -Djava.security.krb5.conf="$mit/krb5.conf" -XX:TieredStopAtLevel=1 Kinit alice@EXAMPLE.COM secret "$1"
}

# The example initiator with the tickets of a cache, at gss-server: starts_from CACHE
starts_from() {
    timeout 20 "$examples/initiator" "127.0.0.1:$sample_port" host/localhost alice@EXAMPLE.COM "FILE:$1" usual "udp://127.0.0.1:$mit_port"
}

# All that goes on from one cache: try_cache WORDS FILE
try_cache() {
    local -x KRB5CCNAME=FILE:$gss/going.ccache
    cp "$2" "$gss/going.ccache"
    check "$1: the example initiator" starts_from "$gss/going.ccache"
    check "$1: gss-client" reaches_it host/localhost bash -c "sample_client $sample_port 1"
    check "$1: ssh" reaches_it host/localhost bash -c "ssh_client $ssh_port gssapi-with-mic"
}

try_ticket_caches() {
    try_cache "kinit of MIT" "${KRB5CCNAME#FILE:}"
    if has_heimdal && heimdal_cache "$gss/heimdal.ccache" > "$room/heimdal-kinit.log" 2>&1; then try_cache "kinit of Heimdal" "$gss/heimdal.ccache"
    else echo "not tried: kinit of Heimdal, which tests/live/unpack unpacks"; fi
    if command -v javac > /dev/null && java_cache "$gss/java.ccache" > "$room/java-kinit.log" 2>&1; then try_cache "a cache of Java" "$gss/java.ccache"
    else echo "not tried: a cache of Java, of Debian's package openjdk-17-jdk-headless"; fi
}

# Whether the library takes no ticket from a cache, with these words, and a client is not admitted: MIT's mechanism, which is asked for such a
# reason, has no other ticket. is_not_taken CAUSE REASON FILE
is_not_taken() {
    starts_from "$3" > "$room/said" 2>&1 && { cat "$room/said"; echo "it logged in"; return 1; }
    cat "$room/said"
    grep -q "the tickets in $3 are not taken: .*$1" "$room/said" || return 1
    KRB5CCNAME=FILE:$3 initiator_says 1 "menolavuri.*: MIT's mechanism initiates: $2" env MENOLAVURI_TRACE="$gss/tickets.log" \
        bash -c "sample_client $sample_port 1"
}

# Caches that no initiator starts from: one whose ticket has expired, one with the tickets of another client than the one that it is of, and
# one that was cut.
try_bad_caches() {
    KRB5CCNAME=FILE:$gss/expired.ccache kinit -l 1s alice <<< secret > /dev/null && sleep 2
    check "a ticket that has expired" is_not_taken NoIdentity 'the credential has expired' "$gss/expired.ccache"
    "$python" -c 'import sys; sys.stdout.buffer.write(sys.stdin.buffer.read().replace(b"alice", b"bobby", 1))' < "$gss/tgt.ccache" > "$gss/other.ccache"
    check "the ticket of another client" is_not_taken NoIdentity "$gss/other.ccache has no ticket that is valid" "$gss/other.ccache"
    head -c -1 "$gss/tgt.ccache" > "$gss/cut.ccache"
    check "a cache that was cut" is_not_taken Shape 'there is no credential' "$gss/cut.ccache"
}

# Clients of the part gss, as far as their servers are there.
try_ticket_clients() {
    check "gss-client, SPNEGO" reaches_it host/localhost bash -c "sample_client $sample_port 1 -spnego"
    check "gss-client, five log-ins, ten messages each" reaches_it host/localhost bash -c "sample_client $sample_port 50 -ccount 5 -mcount 10"
    check "gss-client, without mutual authentication" reaches_it host/localhost bash -c "sample_client $sample_port 1 -nomutual"
    check "ssh, gssapi-keyex" reaches_it host/localhost bash -c "ssh_client $ssh_port gssapi-keyex"
    [ -z "${pg_port:-}" ] || check "psql, gss" reaches_it postgres/localhost bash -c "pg_client $pg_port disable f"
    [ -z "${pg_port:-}" ] || check "psql, gssencmode=require" reaches_it postgres/localhost bash -c "pg_client $pg_port require t"
    [ -z "${web_port:-}" ] || check "curl --negotiate" shows_a_ticket HTTP/localhost bash -c "web_client $web_port"
    [ -z "${mail_port:-}" ] || check "imtest" reaches_it imap/localhost bash -c "imap_client $mail_port"
    [ -z "${ldap_port:-}" ] || check "ldapwhoami" reaches_it ldap/localhost bash -c "ldap_client $ldap_port"
    "$python" -c 'import gssapi' 2> /dev/null || return
    check "Python: messages of each kind, in order" reaches_it host/localhost bash -c "python_client $python_port host@localhost"
    check "Python: the same channel bindings" reaches_it host/localhost bash -c "python_client $bound_port host@localhost bind=tls-server-end-point:x"
    check "Python: other channel bindings" stays_out initiates bash -c "python_client $bound_port host@localhost bind=tls-server-end-point:y"
}

# The service's ticket is in the cache, and no KDC is there.
needs_no_kdc() {
    local -x KRB5CCNAME=FILE:$gss/service.ccache
    local kdcs_conf
    cp "$gss/tgt.ccache" "$gss/service.ccache"
    kvno host/localhost || return 1
    with_kdcs nowhere "127.0.0.1:$(free_port)"
    KRB5_CONFIG=$kdcs_conf reaches_it host/localhost bash -c "sample_client $sample_port 1"
}

# Whether a ticket that a KDC returned is in the cache after that: klist of MIT and Heimdal list it, MIT's kvno goes on from the file, and the
# next log-in needs no KDC. keeps_it FILE, a cache that has the ticket-granting ticket
keeps_it() {
    local -x KRB5CCNAME=FILE:$gss/kept.ccache
    local kdcs_conf
    cp "$1" "$gss/kept.ccache" && chmod 600 "$gss/kept.ccache"
    reaches_it host/localhost bash -c "sample_client $sample_port 1" || return 1
    klist | tee /dev/stderr | grep -q ' host/localhost@EXAMPLE.COM$' || return 1
    ! has_heimdal || env LD_LIBRARY_PATH="$(echo "$heimdal_folder"/usr/lib/*-linux-gnu)" "$heimdal_folder/usr/bin/heimtools" klist |
        tee /dev/stderr | grep -q ' host/localhost@EXAMPLE.COM$' || return 1
    kvno imap/localhost || return 1
    with_kdcs nowhere "127.0.0.1:$(free_port)"
    KRB5_CONFIG=$kdcs_conf reaches_it host/localhost bash -c "sample_client $sample_port 1"
}

# Ten clients at once, and MIT's kvno five times next to them, add tickets to one cache, from which a client goes on.
share_a_cache() {
    local -x KRB5CCNAME=FILE:$gss/shared.ccache
    local clients=() client status=0 it
    cp "$gss/tgt.ccache" "$gss/shared.ccache"
    for it in {1..10}; do initiates bash -c "sample_client $sample_port 1" & clients+=($!); done
    for it in HTTP imap ldap pop postgres; do kvno -q "$it/localhost" & clients+=($!); done
    for client in "${clients[@]}"; do wait "$client" || status=1; done
    klist
    [ "$status" -eq 0 ] && [ "$(klist | grep -c '/localhost@EXAMPLE.COM$')" -ge 6 ] && starts_from "$gss/shared.ccache"
}

# Whether a client gets through with these KDCs in its krb5.conf: finds_kdc NAME HOST..
finds_kdc() {
    local -x KRB5CCNAME=FILE:$gss/asks.ccache
    local kdcs_conf
    cp "$gss/tgt.ccache" "$gss/asks.ccache"
    with_kdcs "$@"
    KRB5_CONFIG=$kdcs_conf reaches_it host/localhost bash -c "sample_client $sample_port 1"
}

# Whether a client fails since no KDC replied.
misses_all_kdcs() {
    local -x KRB5CCNAME=FILE:$gss/asks.ccache
    local kdcs_conf
    cp "$gss/tgt.ccache" "$gss/asks.ccache"
    with_kdcs none "$1"
    KRB5_CONFIG=$kdcs_conf misses_it 'Network: no KDC replied' bash -c "sample_client $sample_port 1"
}

try_ticket_kdcs() {
    local silent_port small_port nobody
    silent_port=$(free_port) nobody=127.0.0.1:$(free_port)
    start silent "$python" "$live/kdc.py" silent "$silent_port"
    await_port "$silent_port"
    start_small
    check "the service's ticket is there: no KDC is asked" needs_no_kdc
    check "a ticket that a KDC returned is kept in the cache" keeps_it "$gss/tgt.ccache"
    [ ! -s "$gss/heimdal.ccache" ] || check "the same in a cache of Heimdal" keeps_it "$gss/heimdal.ccache"
    [ ! -s "$gss/java.ccache" ] || check "the same in a cache of Java" keeps_it "$gss/java.ccache"
    check "fifteen clients at once add to one cache" share_a_cache
    check "a KDC whose replies are too long for UDP" finds_kdc small "127.0.0.1:$small_port"
    check "a KDC over TCP alone" finds_kdc tcp "tcp/127.0.0.1:$mit_port"
    check "a second KDC where the first is silent" finds_kdc silent "127.0.0.1:$silent_port" "127.0.0.1:$mit_port"
    check "a second KDC where the first is away" finds_kdc away "$nobody" "127.0.0.1:$mit_port"
    check "no KDC is there" misses_all_kdcs "$nobody"
    check "a service of another realm, to which the KDC refers" is_referred
    "$python" -c 'import kdcproxy' 2> /dev/null || { echo "not tried: the proxy, which needs Debian's package python3-kdcproxy"; return; }
    start_proxy
    check "a proxy (MS-KKDCP)" finds_kdc proxy "http://127.0.0.1:$proxy_port/KdcProxy"
}

# Whether valgrind finds no error in gss-client and the interposer, and nothing lost but what the mechglue loses by itself.
client_is_clean() {
    local -x KRB5CCNAME=FILE:$gss/clean.ccache
    cp "$gss/tgt.ccache" "$gss/clean.ccache"
    reaches_it host/localhost timeout 60 valgrind --quiet --leak-check=full --error-exitcode=9 --suppressions="$live/gss/mechglue.supp" \
        gss-client -port "$sample_port" -mcount 3 127.0.0.1 host@localhost hello
}

# Whether the address sanitizer finds nothing in the interposer of gss-client.
client_is_sane() {
    local -x KRB5CCNAME=FILE:$gss/clean.ccache
    local gss_mech=$gss/sanitized.conf
    cp "$gss/tgt.ccache" "$gss/clean.ccache"
    echo "menolavuri 1.3.6.1.4.1.32473.4120.1 $sanitized <interposer>" > "$gss_mech"
    reaches_it host/localhost timeout 60 env LD_PRELOAD="$runtime" ASAN_OPTIONS="detect_leaks=0:log_path=$gss/asan:verify_asan_link_order=0" \
        gss-client -port "$sample_port" -mcount 3 127.0.0.1 host@localhost hello || return 1
    ! cat "$gss"/asan.* 2> /dev/null
}

# Contexts that MIT's mechanism begins, and contexts that nobody establishes.
try_ticket_limits() {
    local client=(bash -c "sample_client $sample_port 1") delegates=(bash -c "sample_client $sample_port 1 -d")
    tickets_conf=$gss/no.conf check "initiate = no" goes_by_mit 'the settings do not say' "${client[@]}"
    check "a client that delegates" goes_by_mit 'delegation' "${delegates[@]}"
    KRB5CCNAME=DIR:$gss/folder kinit alice <<< secret > /dev/null
    KRB5CCNAME=DIR:$gss/folder check "a cache that is a folder" goes_by_mit 'the cache DIR:' "${client[@]}"
    KRB5CCNAME=FILE:$gss/none check "no cache" initiator_says 1 "MIT's mechanism initiates: there is no credential" \
        env MENOLAVURI_TRACE="$gss/tickets.log" "${client[@]}"
    check "a service that the KDC does not know" misses_it 'Server not found in Kerberos database' \
        timeout 20 gss-client -port "$sample_port" 127.0.0.1 nobody@localhost hello
    ! command -v valgrind > /dev/null || check "gss-client under valgrind" client_is_clean
    ! build_sanitized > "$room/sanitized" 2>&1 || check "gss-client under the address sanitizer" client_is_sane
    check "a client's error says so" bash -c "env GSS_MECH_CONFIG=$gss/mech.conf MENOLAVURI_GSS_CONF=$gss/tickets.conf gss-client -port $sample_port \
        127.0.0.1 nobody@localhost hello 2>&1 | grep 'Server not found in Kerberos database'"
}

# The servers of the part gss that clients reach here, each with the interposer.
start_ticket_servers() {
    local web_modules=/usr/lib/apache2/modules/mod_auth_gssapi.so as_postgres=(env)
    start_sample ticket-server
    [ "$(id -u)" -ne 0 ] || { mkdir -p /run/sshd && as_postgres=(setpriv --reuid postgres --regid postgres --init-groups); }
    [ ! -x /usr/sbin/sshd ] || start_sshd ticket-sshd
    pg_bin=$(printf '%s\n' /usr/lib/postgresql/*/bin | tail -n 1)
    [ ! -x "$pg_bin/initdb" ] || start_postgres || pg_port=
    [ "$(id -u)" -ne 0 ] || [ ! -e "$web_modules" ] || start_apache prefork
    imtest=/usr/lib/cyrus/bin/imtest
    [ -x "$imtest" ] || imtest=$live/out/cyrus/usr/lib/cyrus/bin/imtest
    [ "$(id -u)" -ne 0 ] || [ ! -x /usr/sbin/dovecot ] || [ ! -x "$imtest" ] || start_dovecot
    [ ! -x /usr/sbin/slapd ] || ! command -v ldapwhoami > /dev/null || start_ldap ticket-slapd
    "$python" -c 'import gssapi' 2> /dev/null || return 0
    start_python ticket-bound tls-server-end-point:x && bound_port=$python_port
    start_python ticket-python
}

try_tickets() {
    local gss gss_built gss_conf='' gss_mech='' tickets_conf='' runtime sanitized KRB5_CONFIG=$KRB5_CONFIG
    local sample_port ssh_port pg_bin pg_port='' web_port='' mail_port='' ldap_port='' python_port bound_port postgres imtest
    has_krb5 2> /dev/null || { echo "not tried: tickets over the interposer, which needs Debian's package libkrb5-dev"; return; }
    build_gss > "$room/built" 2>&1 || { cat "$room/built"; check "bindings/gss is built" false; return; }
    tickets_room > "$room/tickets-room.log" 2>&1 || { cat "$room/tickets-room.log"; check "the room of the tickets" false; return; }
    export KRB5_CONFIG=$gss/krb5.conf python live imtest
    export -f sample_client ssh_client pg_client web_client imap_client ldap_client python_client
    start_ticket_servers > "$room/servers.log" 2>&1 || { cat "$room/servers.log"; check "the servers start" false; return; }
    export imtest
    try_ticket_caches
    try_bad_caches
    try_ticket_clients
    try_ticket_kdcs
    try_ticket_limits
}

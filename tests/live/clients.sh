# Clients of any name, several of one client at once, and clients that bind their channel, at the example gss_server, whose command names
# no rule.

# A client over MIT's library: mit_speaks FLAGS COUNT WORD.., the words being those of gss.py.
mit_speaks() {
    timeout 20 "$python" "$live/gss.py" speak libgssapi_krb5.so.2 "$acceptor_port" host@server.example.com "$@"
}

# Speaks with the keytab of a host, whose name the library gives the type 3: host_speaks FLAGS COUNT
host_speaks() { KRB5CCNAME=FILE:$room/typed-ccache KRB5_CLIENT_KTNAME=FILE:$mit/client.keytab mit_speaks "$@" as=host@client.example.com; }

# Whether a client, by its command, does not get through, and the server's log says why: turned_away NAME PATTERN COMMAND..
turned_away() {
    "${@:3}" && { echo "it got through"; return 1; }
    logged "$1" "$2"
}

add_clients() {
    kadmin.local addprinc -pw secret alice/admin
    kadmin.local addprinc -randkey host/client.example.com
    kadmin.local ktadd -k "$mit/client.keytab" host/client.example.com
}

# The credentials of these clients are in caches of their own.
as_admin() { KRB5CCNAME=FILE:$room/admin-ccache "$@"; }
as_host() { KRB5CCNAME=FILE:$room/host-cache "$@"; }
log_in_admin() { echo secret | as_admin kinit alice/admin; }
log_in_host() { as_host kinit -k -t "$mit/client.keytab" host/client.example.com; }

try_names() {
    check "alice/admin logs in" log_in_admin
    check "alice/admin" as_admin verifies 1 "$acceptor_port" hello
    check "the log has its whole name" logged clients '^admitted: alice/admin@EXAMPLE.COM$'
    check "a host logs in with its keytab" log_in_host
    check "a host with its keytab" as_host verifies 1 "$acceptor_port" hello
    check "the log has its whole name" logged clients '^admitted: host/client.example.com@EXAMPLE.COM$'
    check "a host whose name has the type 3" host_speaks 62 3
    check "alice" verifies 1 "$acceptor_port" hello
    check "the log has her short name" logged clients '^admitted: alice@example.com$'
}

# Four processes of alice make EACH tokens at once: at_once EACH
at_once() {
    local each=$1
    "$python" "$live/gss.py" crowd libgssapi_krb5.so.2 "$acceptor_port" host@server.example.com 2 4 "$each" > "$room/said" || return 1
    cat "$room/said"
    grep -q "^of $((4 * each)) log-ins 0 were refused$" "$room/said" || { grep refused "$room/clients.log" | tail -n 3; return 1; }
}

try_channel() {
    local one=tls-server-end-point:one two=tls-server-end-point:two
    check "a client with a channel, at a server that holds nobody to one" mit_speaks 62 1 "channel=$one"
    start_acceptor bound host/server.example.com "$(service_key host)" "channel:$one"
    await_port "$acceptor_port"
    check "a client with the server's channel" mit_speaks 62 3 "channel=$one"
    check "the same one way" mit_speaks 52 3 "channel=$one"
    check "the same with a ticket for the server's own use" mit_speaks 63 1 "channel=$one"
    check "a client with another channel is refused" turned_away bound 'refused: .*Bindings' mit_speaks 62 1 "channel=$two"
    check "a client without a channel is refused" turned_away bound 'refused: .*Bindings' verifies 1 "$acceptor_port" hello
    has_heimdal || { echo "not tried: Heimdal, whose packages tests/live/unpack unpacks"; return; }
    [ -n "${heimdal:-}" ] || start_heimdal > "$room/heimdal.log" 2>&1
    start_acceptor heimdal-bound host/server.example.com "$(heimdal_key host)" "channel:$one"
    await_port "$acceptor_port"
    check "Heimdal's client with the server's channel" heimdal_binds "$one"
    check "Heimdal's client with another channel is refused" turned_away heimdal-bound 'refused: .*Bindings' heimdal_binds "$two"
    check "Heimdal's client without a channel is refused" turned_away heimdal-bound 'refused: .*Bindings' heimdal_speaks 62
}

# A client over Heimdal's library: heimdal_binds DATA
heimdal_binds() {
    heimdal timeout 20 "$python" "$live/gss.py" speak libgssapi.so.3 "$acceptor_port" host@server.example.com 62 1 "channel=$1"
}

try_clients() {
    add_clients > "$room/clients-realm.log" 2>&1
    start_acceptor clients host/server.example.com "$(service_key host)"
    await_port "$acceptor_port"
    try_names
    check "four processes of one client at once, 25 log-ins each" at_once 25
    check "the same with 100 each" at_once 100
    try_channel
}

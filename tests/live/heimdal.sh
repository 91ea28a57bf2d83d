# Tickets of Heimdal's KDC: MIT's gss-client and a client over Heimdal's library show one to gss_server, and Cyrus' client over Heimdal's
# library shows one to sasl_server.

# Whether Cyrus' client is admitted over Heimdal's library: heimdal_cyrus_in LEAST MOST
heimdal_cyrus_in() {
    local plugins
    plugins=$(echo "$heimdal_folder"/usr/lib/*-linux-gnu/sasl2)
    heimdal env SASL_PATH="$plugins" timeout 20 "$python" "$live/pop.py" "$sasl_port" "$1" "$2" - 65536 5 > "$room/said" || { cat "$room/said"; return 1; }
    cat "$room/said"
    [ "$(grep -c '^+OK 0 0$' "$room/said")" -eq 5 ]
}

# A client over Heimdal's library at gss_server: heimdal_speaks FLAGS, the sum of GSS-API's. Without mutual authentication it is to keep no
# order of messages: Heimdal's own services do not send the numbers that its clients await then.
heimdal_speaks() { heimdal timeout 20 "$python" "$live/gss.py" speak libgssapi.so.3 "$acceptor_port" host@server.example.com "$1" 3; }

# Whether that client refuses the server's signature.
heimdal_refuses() {
    heimdal_speaks "$1" > "$room/said" 2>&1 && { cat "$room/said"; echo "it got through"; return 1; }
    cat "$room/said"
    grep -q '^gss_verify_mic' "$room/said"
}

try_heimdal() {
    has_heimdal || { echo "not tried: Heimdal, whose packages tests/live/unpack unpacks"; return; }
    start_heimdal > "$room/heimdal.log" 2>&1
    start_acceptor heimdal-acceptor host/server.example.com "$(heimdal_key host)"
    start_sasl 7 "$(heimdal_key pop)"
    await_port "$acceptor_port"
    await_port "$sasl_port"
    check "Heimdal's ticket, MIT's client: mutual, sealed" in_heimdal verifies 1 "$acceptor_port" hello
    check "Heimdal's ticket, MIT's client: -nomutual -nx -mcount 3" in_heimdal verifies 3 "$acceptor_port" -nomutual -nx -mcount 3 hello
    check "Heimdal's ticket, a client over Heimdal's library: mutual, sealed" heimdal_speaks 62
    check "the same without mutual authentication" heimdal_speaks 52
    check "Heimdal's ticket, Cyrus' client over Heimdal's library, no layer" heimdal_cyrus_in 0 0
    check "Heimdal's ticket, Cyrus' client over Heimdal's library, integrity" heimdal_cyrus_in 1 1
    check "Heimdal's ticket, Cyrus' client over Heimdal's library, confidentiality" heimdal_cyrus_in 2 256
    check "Heimdal's KDC, over UDP: nobody is not known" brings 'error 6' nobody udp "udp://127.0.0.1:$heimdal_port"
    check "Heimdal's KDC, over TCP: alice is to pre-authenticate" brings 'error 25' alice tcp "tcp://127.0.0.1:$heimdal_port"
}

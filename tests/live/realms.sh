# A throw-away realm of MIT krb5 on 127.0.0.1, with everything in one folder. Sourced by tests/live/run, which sets `room`.
# alice's password is `secret`, and `keytab` has the keys of its services.

# A port of this machine that nobody listens at, below those that the system gives to connections.
free_port() {
    local port
    for _ in $(seq 100); do
        port=$((20000 + RANDOM % 12000))
        (exec 3<> "/dev/tcp/127.0.0.1/$port") 2> /dev/null || { echo "$port"; return; }
    done
    return 1
}

# Waits for up to ten seconds until somebody listens at a port.
await_port() {
    for _ in $(seq 100); do
        (exec 3<> "/dev/tcp/127.0.0.1/$1") 2> /dev/null && return
        sleep 0.1
    done
    echo "nobody listens at port $1" >&2
    return 1
}

write_mit_files() {
    cat > "$mit/krb5.conf" <<END2
[libdefaults]
    default_realm = EXAMPLE.COM
    dns_lookup_kdc = false
    dns_canonicalize_hostname = false
    rdns = false
    forwardable = true
[realms]
    EXAMPLE.COM = {
        kdc = 127.0.0.1:$1
    }
[domain_realm]
    server.example.com = EXAMPLE.COM
END2
    cat > "$mit/kdc.conf" <<END2
[realms]
    EXAMPLE.COM = {
        database_name = $mit/principal
        key_stash_file = $mit/stash
        kdc_listen = 127.0.0.1:$1
        kdc_tcp_listen = 127.0.0.1:$1
    }
[logging]
    kdc = FILE:$mit/kdc.log
END2
}

start_mit() {
    mit=$room/mit
    mit_port=$(free_port)
    mkdir "$mit"
    write_mit_files "$mit_port"
    export KRB5_CONFIG=$mit/krb5.conf KRB5_KDC_PROFILE=$mit/kdc.conf KRB5CCNAME=FILE:$mit/ccache KRB5RCACHENAME=none:
    kdb5_util create -s -P master
    kadmin.local addprinc -pw secret alice
    for service in host/server.example.com imap/server.example.com pop/server.example.com pop/localhost; do
        kadmin.local addprinc -randkey "$service"
        kadmin.local ktadd -k "$mit/keytab" "$service"
    done
    krb5kdc -n > "$mit/kdc.out" 2>&1 &
    await_port "$mit_port"
    echo secret | kinit alice
}

# The newest key of a service in the keytab, in hex: service_key SERVICE HOST, the host being server.example.com unless told.
service_key() {
    klist -k -K "$mit/keytab" | sed -n "s#.* $1/${2:-server.example.com}@.*(0x\(.\{64\}\))\$#\1#p" | tail -n 1
}

# Makes a realm of Heimdal, from packages that tests/live/unpack left in a folder. Answers of more than 400 octets are too long
# for UDP at its KDC. Its programs run by `heimdal PROGRAM ARGUMENT..`, and MIT's in this realm by `in_heimdal COMMAND..`.
heimdal_folder=${HEIMDAL:-$live/out/heimdal}

has_heimdal() { [ -x "$heimdal_folder/usr/bin/kadmin.heimdal" ]; }

heimdal() { env "${heimdal_settings[@]}" "$@"; }

in_heimdal() { KRB5_CONFIG=$heimdal/mit.conf KRB5CCNAME=FILE:$heimdal/mit.ccache "$@"; }

write_heimdal_files() {
    cat > "$heimdal/krb5.conf" <<END2
[libdefaults]
    default_realm = EXAMPLE.COM
    dns_lookup_kdc = false
    dns_canonicalize_hostname = false
[realms]
    EXAMPLE.COM = {
        kdc = tcp/127.0.0.1:$1
    }
[domain_realm]
    server.example.com = EXAMPLE.COM
[kdc]
    max-kdc-datagram-reply-length = 400
    database = {
        dbname = $heimdal/database
        realm = EXAMPLE.COM
        mkey_file = $heimdal/master
        acl_file = $heimdal/acl
        log_file = $heimdal/log
    }
[logging]
    kdc = FILE:$heimdal/kdc.log
END2
    sed "s/127.0.0.1:$mit_port/127.0.0.1:$1/" "$mit/krb5.conf" > "$heimdal/mit.conf"
}

start_heimdal() {
    local admin
    heimdal=$room/heimdal
    heimdal_port=$(free_port)
    heimdal_settings=("LD_LIBRARY_PATH=$(echo "$heimdal_folder"/usr/lib/*-linux-gnu)" "KRB5_CONFIG=$heimdal/krb5.conf"
        "KRB5CCNAME=FILE:$heimdal/ccache")
    mkdir "$heimdal"
    write_heimdal_files "$heimdal_port"
    admin="heimdal $heimdal_folder/usr/bin/kadmin.heimdal -c $heimdal/krb5.conf -l"
    $admin init --realm-max-ticket-life=unlimited --realm-max-renewable-life=unlimited EXAMPLE.COM
    $admin add --use-defaults -p secret alice
    $admin modify -a +requires-pre-auth alice
    for service in host pop; do
        $admin add --use-defaults -r "$service/server.example.com"
        $admin ext_keytab -k "$heimdal/keytab" "$service/server.example.com"
    done
    start heimdal-kdc env "${heimdal_settings[@]}" "$heimdal_folder/usr/lib/heimdal-servers/kdc" -c "$heimdal/krb5.conf" --addresses=127.0.0.1 \
        --ports="$heimdal_port/tcp $heimdal_port/udp"
    await_port "$heimdal_port"
    echo secret > "$heimdal/password"
    heimdal "$heimdal_folder/usr/bin/kinit.heimdal" --password-file="$heimdal/password" alice
    in_heimdal kinit alice < "$heimdal/password"
}

# The key of a service of Heimdal's realm, in hex: heimdal_key host
heimdal_key() {
    heimdal "$heimdal_folder/usr/bin/ktutil.heimdal" -k "$heimdal/keytab" list --keys \
        | sed -n "s#.*aes256-cts-hmac-sha1-96 .*$1/server.example.com.* \([0-9a-f]\{64\}\) .*#\1#p" | tail -n 1
}

# A second realm of MIT krb5, OTHER.COM, to which a KDC of EXAMPLE.COM refers (RFC 6806, section 8): the client does not know whose realm the
# service is of, and the KDC does.

# Makes the realm, with a service, and starts its KDC: its port is in other_port.
start_other_realm() {
    local -x KRB5_CONFIG=$gss/other/krb5.conf KRB5_KDC_PROFILE=$gss/other/kdc.conf
    other_port=$(free_port)
    mkdir "$gss/other"
    sed "s#EXAMPLE.COM#OTHER.COM#; s#$mit_port#$other_port#" "$mit/krb5.conf" > "$KRB5_CONFIG"
    sed "s#EXAMPLE.COM#OTHER.COM#; s#$mit/#$gss/other/#; s#$mit_port#$other_port#" "$mit/kdc.conf" > "$KRB5_KDC_PROFILE"
    kdb5_util create -s -P master
    kadmin.local addprinc -pw cross krbtgt/OTHER.COM@EXAMPLE.COM
    kadmin.local addprinc -randkey host/server.other.com
    kadmin.local ktadd -k "$gss/other/keytab" host/server.other.com
    start other-kdc krb5kdc -n
    await_port "$other_port"
}

# Starts a further KDC of EXAMPLE.COM, which refers: its port is in referring_port.
start_referring_kdc() {
    referring_port=$(free_port)
    kadmin.local addprinc -pw cross krbtgt/OTHER.COM
    { cat "$mit/krb5.conf" && echo '    server.other.com = OTHER.COM'; } > "$gss/referring.conf"
    sed "s#$mit_port#$referring_port#" "$mit/kdc.conf" > "$gss/referring-kdc.conf"
    start referring-kdc env KRB5_CONFIG="$gss/referring.conf" KRB5_KDC_PROFILE="$gss/referring-kdc.conf" krb5kdc -n
    await_port "$referring_port"
}

# Starts gss-server in the other realm: its port is in referred_port.
start_other_server() {
    local gss_conf=$gss/other/gss.conf
    local -x KRB5_CONFIG=$gss/other/krb5.conf
    gss_settings "file:$gss/store" | sed "s#^keytab = .*#keytab = $gss/other/keytab#" > "$gss_conf"
    referred_port=$(free_port)
    serve other-server gss-server -port "$referred_port" host@server.other.com
    await_port "$referred_port"
}

# Whether a client reaches the service by the proved initiator, and the tickets of both realms are in its cache after that.
is_referred() {
    local other_port referring_port referred_port
    local -x KRB5CCNAME=FILE:$gss/referred.ccache
    { start_other_realm && start_referring_kdc && start_other_server; } > "$gss/referral.log" 2>&1 || { cat "$gss/referral.log"; return 1; }
    sed "s#$mit_port#$referring_port#; s#^\[realms\]#&\n    OTHER.COM = {\n        kdc = 127.0.0.1:$other_port\n    }#" "$gss/krb5.conf" > "$gss/referred.conf"
    cp "$gss/tgt.ccache" "$gss/referred.ccache"
    : > "$gss/log"
    KRB5_CONFIG=$gss/referred.conf reaches_it host/server.other.com timeout 20 gss-client -port "$referred_port" 127.0.0.1 host@server.other.com hello ||
        return 1
    grep ': admitted client=alice@EXAMPLE.COM service=host/server.other.com@OTHER.COM ' "$gss/log" || return 1
    klist | tee /dev/stderr | grep -q ' krbtgt/OTHER.COM@EXAMPLE.COM$' && klist | grep -q ' host/server.other.com@OTHER.COM$'
}

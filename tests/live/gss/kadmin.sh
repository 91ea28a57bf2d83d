# kadmind, whose keys are in no file: with the interposer it refuses everybody, and without it does not.

# Starts kadmind over the realm's database: start_kadmind NAME serve|start
start_kadmind() {
    "$2" "$1" env KRB5_CONFIG="$gss/kadmin.conf" KRB5_KDC_PROFILE="$gss/kadmin-kdc.conf" kadmind -nofork -P "$gss/$1.pid"
    kadmind=$last
    await_port "$kadmin_port"
}

kadmin_client() { KRB5_CONFIG=$gss/kadmin.conf timeout 10 kadmin -p alice/admin -w secret -q listprincs | grep alice@; }

try_gss_kadmin() {
    local kadmin_port kadmind
    command -v kadmind > /dev/null || { echo "not tried: kadmind, of Debian's package krb5-admin-server"; return; }
    kadmin_port=$(free_port)
    kadmin.local addprinc -pw secret alice/admin > /dev/null 2>&1
    echo 'alice/admin@EXAMPLE.COM *' > "$gss/acl"
    sed "s/^        kdc = .*/&\n        admin_server = 127.0.0.1:$kadmin_port/" "$gss/krb5.conf" > "$gss/kadmin.conf"
    sed "s#^        database_name.*#&\n        kadmind_listen = 127.0.0.1:$kadmin_port\n        kpasswd_listen = 127.0.0.1:$(free_port)\n        acl_file = $gss/acl#" \
        "$mit/kdc.conf" > "$gss/kadmin-kdc.conf"
    export gss && export -f kadmin_client
    start_kadmind kadmind-1 serve
    check "kadmind: refuses everybody" stays_out bash -c kadmin_client
    kill "$kadmind" && wait "$kadmind" 2> /dev/null
    start_kadmind kadmind-2 start
    check "kadmind without the interposer: lets alice/admin in" bash -c kadmin_client
}

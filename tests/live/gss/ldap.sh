# OpenLDAP's slapd, which has no entries here, and ldapwhoami.

# Starts slapd: start_ldap NAME, and leaves its port in ldap_port.
start_ldap() {
    ldap_port=$(free_port)
    printf '%s\n' "pidfile $gss/$1.pid" 'sasl-host localhost' > "$gss/$1.conf"
    serve "$1" /usr/sbin/slapd -d 0 -h "ldap://127.0.0.1:$ldap_port" -f "$gss/$1.conf"
    await_port "$ldap_port"
}

# Whether the server says that alice is there: ldap_client PORT OPTION..
ldap_client() { [ "$(timeout 20 ldapwhoami -Q -N -Y GSSAPI -H "ldap://localhost:$1" "${@:2}")" = dn:uid=alice,cn=gssapi,cn=auth ]; }

try_gss_ldap() {
    local ldap_port
    [ -x /usr/sbin/slapd ] && command -v ldapwhoami > /dev/null || { echo "not tried: slapd, of Debian's packages slapd and ldap-utils"; return; }
    start_ldap slapd
    export -f ldap_client
    try_admissions slapd ldap/localhost bash -c "ldap_client $ldap_port"
    check "slapd, no layer" admits ldap/localhost bash -c "ldap_client $ldap_port -O maxssf=0"
}

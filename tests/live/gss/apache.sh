# Apache with mod_auth_gssapi, one process a connection and one thread a connection, and curl --negotiate.

# Starts Apache: start_apache PREFORK|EVENT, and leaves its port in web_port. Its keytab is that of its credential store.
# NO_DETACH gives it a session of its own: with FOREGROUND alone its end is that of all in its group of processes, as of tests/live/run.
start_apache() {
    local gss_conf=$gss/apache.conf folder=$gss/apache-$1 modules=/usr/lib/apache2/modules name
    gss_settings "file:$gss/store" | sed '/^keytab/d' > "$gss_conf"
    web_port=$(free_port)
    mkdir -p "$folder/pages" && echo 'hello from apache' > "$folder/pages/index.html" && chmod -R a+rX "$folder"
    {
        printf '%s\n' "ServerRoot $folder" 'ServerName localhost' "PidFile $folder/pid" "Listen 127.0.0.1:$web_port" \
            "ErrorLog $folder/error.log" 'User www-data' 'Group www-data' "LoadModule mpm_$1_module $modules/mod_mpm_$1.so"
        for name in authn_core authz_core authz_user auth_gssapi headers; do echo "LoadModule ${name}_module $modules/mod_$name.so"; done
        printf '%s\n' "DocumentRoot $folder/pages" '<Location />' 'AuthType GSSAPI' 'AuthName "Menolavuri"' 'Require valid-user' \
            "GssapiCredStore keytab:$gss/keytab" 'Header set X-User expr=%{REMOTE_USER}' '</Location>'
    } > "$folder/conf"
    serve "apache-$1" /usr/sbin/apache2 -D NO_DETACH -f "$folder/conf"
    await_port "$web_port"
}

# Whether curl gets the page, and the server's name of the user is alice's whole one: web_client PORT
web_client() {
    local said
    said=$(timeout 20 curl -s -S -f -i --negotiate -u : --connect-to "localhost:80:127.0.0.1:$1" http://localhost/index.html) || return 1
    grep -q '^X-User: alice@EXAMPLE.COM' <<< "$said" && grep -qx 'hello from apache' <<< "$said"
}

# Whether 60 clients, ten at a time, are each admitted, and none was refused.
web_crowd() {
    : > "$gss/log"
    seq 60 | timeout 60 xargs -P 10 -I{} bash -c "web_client $1 || exit 255" || return 1
    [ "$(grep -c ': admitted ' "$gss/log")" -ge 60 ] && ! grep ': refused ' "$gss/log"
}

try_gss_apache() {
    local web_port mpm
    [ -e /usr/lib/apache2/modules/mod_auth_gssapi.so ] && command -v curl > /dev/null ||
        { echo "not tried: Apache, of Debian's packages apache2, libapache2-mod-auth-gssapi and curl"; return; }
    [ "$(id -u)" -eq 0 ] || { echo "not tried: Apache, which is started by root here"; return; }
    export -f web_client
    for mpm in prefork event; do
        check "Apache, $mpm, starts" start_apache "$mpm"
        try_admissions "Apache, $mpm" HTTP/localhost bash -c "web_client $web_port"
        check "Apache, $mpm: 60 clients, ten at a time" web_crowd "$web_port"
    done
}

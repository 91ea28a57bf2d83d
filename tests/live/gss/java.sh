# A service in Java with its native GSS-API, which is MIT's mechglue, and MIT's gss-client.

# Whether each of three messages is opened and its MIC verified: java_client PORT
java_client() {
    [ "$(timeout 20 gss-client -port "$1" -mcount 3 127.0.0.1 host@localhost 'hello java' | grep -cx 'Signature verified.')" -eq 3 ]
}

try_gss_java() {
    local port library
    command -v java javac > /dev/null || { echo "not tried: Java, of Debian's package openjdk-17-jdk-headless"; return; }
    library=$(printf '%s\n' /usr/lib/*/libgssapi_krb5.so.2 | tail -n 1)
    javac -d "$gss" "$live/Service.java" || return
    port=$(free_port)
    serve java java -cp "$gss" -Dsun.security.jgss.native=true -Dsun.security.jgss.lib="$library" \
        -Djavax.security.auth.useSubjectCredsOnly=false -XX:TieredStopAtLevel=1 Service "$port"
    await_port "$port"
    export -f java_client
    try_admissions "Java's native GSS-API" host/localhost bash -c "java_client $port"
}

# MIT's gss-client at MIT's gss-server: shows that the realm works, without anything of this repository.

# Whether gss-client, with these options, says this many times that a signature is good: verifies COUNT PORT OPTION.. MESSAGE
verifies() {
    local count=$1 port=$2 message=${*: -1} said
    local options=("${@:3:$#-3}")
    said=$(timeout 20 gss-client -port "$port" "${options[@]}" 127.0.0.1 host@server.example.com "$message" 2>&1) || { echo "$said"; return 1; }
    echo "$said"
    [ "$(grep -c '^Signature verified' <<< "$said")" -eq "$count" ]
}

try_samples() {
    local port
    port=$(free_port)
    start gss-server env KRB5_KTNAME="FILE:$mit/keytab" gss-server -port "$port" host@server.example.com
    await_port "$port"
    check "gss-client at MIT's own gss-server" verifies 1 "$port" hello
    kill "$last"
}

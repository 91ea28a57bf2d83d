# The example carry, which brings requests to KDCs, at MIT's KDC, at one that is silent, at none, and through a proxy.

# Prints the answer to an AS-REQ of this user: carried USER PROTOCOL URL OTHER..
carried() {
    local user=$1 protocol=$2 url=$3
    shift 3
    "$python" "$live/kdc.py" ask "$user" "$protocol" "$url" | timeout 20 "$examples/carry" "$@" | "$python" "$live/kdc.py" told
}

# Whether that is this: brings WORDS USER PROTOCOL URL OTHER..
brings() {
    local words=$1 answer
    shift
    answer=$(carried "$@")
    echo "$answer"
    [ "$answer" = "$words" ]
}

# A KDC whose answers are all too long for UDP.
start_small() {
    small_port=$(free_port)
    start small "$python" "$live/kdc.py" small "$small_port" "$mit_port"
    await_port "$small_port"
}

start_proxy() {
    proxy_port=$(free_port)
    printf '[global]\nuse_dns = false\n[EXAMPLE.COM]\nkerberos = kerberos+tcp://127.0.0.1:%s\n' "$mit_port" > "$room/kdcproxy.conf"
    start proxy env KDCPROXY_CONFIG="$room/kdcproxy.conf" "$python" "$live/kdc.py" proxy "$proxy_port"
    await_port "$proxy_port"
}

try_proxy() {
    "$python" -c 'import kdcproxy' 2> /dev/null || { echo "not tried: the proxy, which needs Debian's package python3-kdcproxy"; return; }
    start_proxy
    check "through a proxy: nobody is not known" brings 'error 6' nobody http "http://127.0.0.1:$proxy_port/KdcProxy"
    check "through a proxy: alice is answered" brings as-rep alice http "http://127.0.0.1:$proxy_port/KdcProxy"
    check "a second proxy where the first is away" brings as-rep alice http "http://127.0.0.1:$nobody/KdcProxy" "127.0.0.1:$proxy_port/KdcProxy"
}

try_carrying() {
    local kdc=127.0.0.1:$mit_port away nobody silent_port
    nobody=$(free_port)
    away=127.0.0.1:$nobody
    check "over TCP: nobody is not known" brings 'error 6' nobody tcp "tcp://$kdc"
    check "over TCP: alice is answered" brings as-rep alice tcp "tcp://$kdc"
    check "over UDP: nobody is not known" brings 'error 6' nobody udp "udp://$kdc"
    check "over UDP: alice is answered" brings as-rep alice udp "udp://$kdc"
    start_small
    check "over TCP where the answer is too long for UDP" brings as-rep alice udp "udp://127.0.0.1:$small_port"
    check "a second KDC where the first is away, over TCP" brings as-rep alice tcp "tcp://$away" "$kdc"
    check "a second KDC where the first is away, over UDP" brings as-rep alice udp "udp://$away" "$kdc"
    check "no KDC is there: a fault" brings 'fault 1' alice tcp "tcp://$away" "$away"
    check "https is not carried: a fault" brings 'fault 1' alice https "https://$kdc"
    silent_port=$(free_port)
    start silent "$python" "$live/kdc.py" silent "$silent_port"
    await_port "$silent_port"
    check "a second KDC where the first is silent, over TCP" brings as-rep alice tcp "tcp://127.0.0.1:$silent_port" "$kdc"
    check "a second KDC where the first is silent, over UDP" brings as-rep alice udp "udp://127.0.0.1:$silent_port" "$kdc"
    try_proxy
}

# A log-in that is recorded against a live KDC and a live service, and played back to the example initiator when both are gone.

# The rules that take what the RFCs allow, and the two by which an initiator holds answers to what it asked.
takes=("${all_rules[@]:0:9}") checks=("${all_rules[@]:9}")

# The example initiator logs in between these ports: logs_in_between KDC_PORT SERVICE_PORT RULE..
logs_in_between() {
    timeout 20 "$examples/initiator" "127.0.0.1:$2" host/server.example.com alice@EXAMPLE.COM - usual "tcp://127.0.0.1:$1" "${@:3}" <<< secret
}

# A log-in is recorded, and the recorder has all of it: records NAME KDC_PORT SERVICE_PORT
records() {
    local kdc_port service_port
    kdc_port=$(free_port) service_port=$(free_port)
    start "$1-recorder" "$python" -u "$live/playback.py" record "$kdc_port" "$2" "$service_port" "$3" "$room/$1.kept"
    await_listener "$1-recorder" "$kdc_port" && await_listener "$1-recorder" "$service_port" || return 1
    logs_in_between "$kdc_port" "$service_port" && logged "$1-recorder" '^kept [23] replies and 4 frames$'
}

# Waits until a process listens at a port, without a connection to it: await_listener NAME PORT
await_listener() {
    local hex
    hex=$(printf ':%04X 00000000:0000 0A' "$2")
    for _ in $(seq 100); do
        grep -q "$hex" /proc/net/tcp && return
        sleep 0.1
    done
    echo "$1 does not listen at port $2"
    return 1
}

# Plays a recorded log-in to an initiator with these rules: plays NAME RULE.. What was answered is in the log of NAME-player.
plays() {
    local kdc_port service_port status
    kdc_port=$(free_port) service_port=$(free_port)
    start "$1-player" "$python" -u "$live/playback.py" play "$kdc_port" "$service_port" "$room/$1.kept"
    await_listener "$1-player" "$kdc_port" && await_listener "$1-player" "$service_port" || return 1
    logs_in_between "$kdc_port" "$service_port" "${@:2}" > "$room/said" 2>&1
    status=$?
    kill "$last"
    cat "$room/said" "$room/$1-player.log"
    return $status
}

# It is refused with these words, after this many replies of the KDC and frames of the service: is_not_played NAME PATTERN REPLIES FRAMES RULE..
is_not_played() {
    plays "$1" "${@:5}" && { echo "it logged in"; return 1; }
    grep -q -- "refused: .*$2" "$room/said" || return 1
    [ "$(grep -c ^reply "$room/$1-player.log")" -eq "$3" ] && [ "$(grep -c ^frame "$room/$1-player.log")" -eq "$4" ]
}

# Checks an initiator when KDC and service are gone: the AS-REP is the reply with this number. try_player NAME WHOSE NUMBER
try_player() {
    check "$2, played back: refused at its AS-REP" is_not_played "$1" Nonce "$3" 0
    check "the same without FRESH_REPLIES: refused at the service's answer" is_not_played "$1" ReplyTime $(($3 + 1)) 1 "${takes[@]}" "${checks[1]}"
    check "the same without either rule: it is taken, which is what they are for" plays "$1" "${takes[@]}"
}

# A second KDC of MIT over the same realm, which can be ended.
start_second_mit_kdc() {
    second_port=$(free_port)
    sed "s/127.0.0.1:$mit_port/127.0.0.1:$second_port/" "$mit/kdc.conf" > "$mit/second.conf"
    start second-mit-kdc env "KRB5_KDC_PROFILE=$mit/second.conf" krb5kdc -n
    kdc=$last
    await_port "$second_port"
}

try_mit_playback() {
    local second_port service_port kdc service
    start_second_mit_kdc
    service_port=$(free_port)
    start second-mit-service env "KRB5_KTNAME=FILE:$mit/keytab" gss-server -port "$service_port" host@server.example.com
    service=$last
    await_port "$service_port"
    check "a log-in at MIT's KDC and service is recorded" records mit-log-in "$second_port" "$service_port"
    end_processes "$last" "$kdc" "$service"
    try_player mit-log-in "a recorded log-in of MIT's" 1
}

try_heimdal_playback() {
    local second_port service_port kdc service
    second_port=$(free_port) service_port=$(free_port)
    start second-heimdal-kdc env "${heimdal_settings[@]}" "$heimdal_folder/usr/lib/heimdal-servers/kdc" -c "$heimdal/krb5.conf" --addresses=127.0.0.1 \
        --ports="$second_port/tcp"
    kdc=$last
    start second-heimdal-service env "${heimdal_settings[@]}" "KRB5_KTNAME=FILE:$heimdal/keytab" "$python" "$live/gss.py" serve libgssapi.so.3 \
        "$service_port" whole mic
    service=$last
    await_port "$second_port"
    await_port "$service_port"
    check "a log-in at Heimdal's KDC and service is recorded" records heimdal-log-in "$second_port" "$service_port"
    end_processes "$last" "$kdc" "$service"
    try_player heimdal-log-in "a recorded log-in of Heimdal's" 2
}

# Ends processes that were started here, and waits until they have ended.
end_processes() {
    kill "$@"
    wait "$@" 2> /dev/null
}

try_playback() {
    try_mit_playback
    has_heimdal || { echo "not tried: Heimdal's log-in, whose packages tests/live/unpack unpacks"; return; }
    [ -n "${heimdal:-}" ] || start_heimdal > "$room/heimdal.log" 2>&1
    try_heimdal_playback
}

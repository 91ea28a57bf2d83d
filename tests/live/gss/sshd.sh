# sshd of Debian's openssh-server, with key exchange and without, and ssh. alice is the user that runs this, by auth_to_local_names.

# Starts sshd: start_sshd NAME, and leaves its port in ssh_port.
start_sshd() {
    ssh_port=$(free_port)
    ssh-keygen -q -t ed25519 -N '' -f "$gss/$1.key"
    printf '%s\n' "Port $ssh_port" 'ListenAddress 127.0.0.1' "HostKey $gss/$1.key" "PidFile $gss/$1.pid" 'GSSAPIAuthentication yes' \
        'GSSAPIKeyExchange yes' 'GSSAPIStrictAcceptorCheck no' 'PasswordAuthentication no' 'PubkeyAuthentication no' \
        'KbdInteractiveAuthentication no' 'PermitRootLogin yes' 'UsePAM no' 'StrictModes no' 'LogLevel VERBOSE' > "$gss/$1.conf"
    serve "$1" /usr/sbin/sshd -D -e -f "$gss/$1.conf"
    await_port "$ssh_port"
}

# Whether ssh logs in and runs a command: ssh_client PORT METHOD OPTION..
ssh_client() {
    local options=(-F /dev/null -p "$1" -o GSSAPIAuthentication=yes -o PreferredAuthentications="$2" -o StrictHostKeyChecking=no
        -o UserKnownHostsFile=/dev/null -o LogLevel=ERROR)
    [ "$2" = gssapi-keyex ] && options+=(-o GSSAPIKeyExchange=yes)
    timeout "${patience:-20}" ssh "${options[@]}" "${@:3}" localhost "${ssh_command:-echo in}" | grep -x in
}

# Whether the ticket of a client that delegates is in a cache of its session, of which the output says all. If the client got no ticket to
# hand on from the KDC, MIT's library hands on none, and says so to nobody: the trace of MIT's library does.
ssh_delegates() {
    local status=0
    local -x patience=60 # (seconds)
    ssh_command='klist 2>&1 | tee /dev/stderr | grep -q "krbtgt/EXAMPLE.COM@EXAMPLE.COM" && echo in' KRB5_TRACE=$gss/delegates.trace \
        admits host/localhost bash -c "ssh_client $1 gssapi-with-mic -o GSSAPIDelegateCredentials=yes" || status=1
    [ $status -eq 0 ] || tail -n 15 "$gss/delegates.trace" "$room/sshd.log"
    return $status
}

# Whether sshd admits nobody where the interposer cannot be loaded: MIT's mechanism has no key.
is_closed_without() {
    local gss_mech=$gss/nothing.conf ssh_port
    echo "menolavuri 1.3.6.1.4.1.32473.4120.1 $gss/nothing.so <interposer>" > "$gss_mech"
    start_sshd without
    stays_out bash -c "ssh_client $ssh_port gssapi-with-mic"
}

try_gss_sshd() {
    local ssh_port
    [ -x /usr/sbin/sshd ] || { echo "not tried: sshd, of Debian's package openssh-server"; return; }
    [ "$(id -u)" -ne 0 ] || mkdir -p /run/sshd
    start_sshd sshd
    export -f ssh_client
    try_admissions 'sshd, gssapi-with-mic' host/localhost bash -c "ssh_client $ssh_port gssapi-with-mic"
    try_admissions 'sshd, gssapi-keyex' host/localhost bash -c "ssh_client $ssh_port gssapi-keyex"
    check "sshd: a client's delegated ticket is in its session" ssh_delegates "$ssh_port"
    check "sshd: without the interposer nobody is admitted" is_closed_without
}

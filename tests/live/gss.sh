# Servers of Debian's packages, unchanged, into which MIT's mechglue loads bindings/gss: the proved acceptor admits their clients, which are
# MIT's. For each server, as far as its package is there: it admits and its messages go both ways; a token that comes again at another
# process or connection is refused, and so are a clock that is wrong and a key that is another one, each with its words. The last of these
# is undone, and a client is admitted again.
# shellcheck disable=SC1090
for server in samples sshd postgres apache sasl dovecot ldap python java redis kadmin checked; do . "$live/gss/$server.sh"; done

# Runs a program with the interposer: served COMMAND.. Its settings are those of gss_conf, or of the folder's gss.conf, and the line that
# loads it that of gss_mech, or of the folder's mech.conf.
served() { env "GSS_MECH_CONFIG=${gss_mech:-$gss/mech.conf}" "MENOLAVURI_GSS_CONF=${gss_conf:-$gss/gss.conf}" KRB5_KTNAME=FILE:/nonexistent "$@"; }

# Starts a server with the interposer, as start does. `env` becomes the server, so that its end is the server's: serve NAME COMMAND..
serve() {
    start "$1" env "GSS_MECH_CONFIG=${gss_mech:-$gss/mech.conf}" "MENOLAVURI_GSS_CONF=${gss_conf:-$gss/gss.conf}" KRB5_KTNAME=FILE:/nonexistent \
        "${@:2}"
}

# The settings of a server: gss_settings STORE [LOG]. A server's keytab is known to the interposer alone, so that MIT's mechanism has none.
gss_settings() {
    printf '%s = %s\n' keytab "$gss/keytab" store "$1" status "$gss/status" skew 60 log "${2:-$gss/log}"
}

# A folder of the room that each server's user may read, and the realm with the services that the servers need: gss_room [NAME]
gss_room() {
    local service
    gss=$room/${1:-gss}
    chmod 755 "$room"
    mkdir "$gss" && mkdir -m 1777 "$gss/store" "$gss/status"
    touch "$gss/log" && chmod 666 "$gss/log"
    printf 'menolavuri 1.3.6.1.4.1.32473.4120.1 %s <interposer>\n' "$gss_built/libmenolavuri_gss.so" > "$gss/mech.conf"
    gss_settings "file:$gss/store" > "$gss/gss.conf"
    sed -e "s/^    EXAMPLE.COM = {/&\n        auth_to_local_names = {\n            alice = $(id -un)\n        }/" \
        -e 's/^\[domain_realm\]/&\n    localhost = EXAMPLE.COM/' "$mit/krb5.conf" > "$gss/krb5.conf"
    for service in {host,HTTP,postgres,imap,ldap,pop}/localhost "pop/$(hostname)"; do
        kadmin.local addprinc -randkey "$service"
        kadmin.local ktadd -k "$gss/keytab" "$service"
    done
    kadmin.local ktadd -k "$gss/keytab" -norandkey host/server.example.com pop/server.example.com
    cp "$gss/keytab" "$gss/good.keytab" && chmod 644 "$gss/keytab"
    wrong_keytab
    skewed_cache
}

# A credential cache with tickets for all services, whose user's clock is 15 minutes ahead.
skewed_cache() {
    cp "${KRB5CCNAME#FILE:}" "$gss/skewed"
    kvno -c "FILE:$gss/skewed" {host,HTTP,postgres,imap,ldap,pop}/localhost {host,pop}/server.example.com
    "$python" "$live/gss/skew.py" "$gss/skewed" 900
}

# A keytab with the same services, versions and types, and other keys.
wrong_keytab() {
    klist -k -e "$gss/keytab" | sed -n 's/^ *\([0-9]*\) \([^ ]*\) (\([^)]*\)).*/addent -password -p \2 -k \1 -e \3\nwrong/p' > "$gss/entries"
    echo "wkt $gss/wrong.keytab" | cat "$gss/entries" - | ktutil > /dev/null
}

# Whether a client that ends so made the acceptor decide so within two seconds: decides STATUS PATTERN CLIENT..
decides() {
    local wanted=$1 pattern=$2 ended=0
    : > "$gss/log"
    timeout "${patience:-30}" "${@:3}" || ended=1
    for _ in $(seq 20); do grep -q -- "$pattern" "$gss/log" && break; sleep 0.1; done
    cut -d' ' -f2- "$gss/log" | tail -n 5
    [ "$ended" -eq "$wanted" ] && grep -q -- "$pattern" "$gss/log"
}

admits() { decides 0 "menolavuri.*: admitted client=alice@EXAMPLE.COM service=$1@EXAMPLE.COM " "${@:2}"; }

# Whether a client ends without success, and the acceptor refused it with these words: turns_away WORDS CLIENT..
turns_away() { decides 1 "menolavuri.*: refused .*us: $1" "${@:2}"; }

# Whether a client ends without success, and nobody was admitted, whoever refused it: stays_out CLIENT..
stays_out() {
    : > "$gss/log"
    timeout 30 "$@" && return 1
    cut -d' ' -f2- "$gss/log"
    ! grep ': admitted ' "$gss/log"
}

# The client's first token is kept, and comes again in the place of the next client's.
is_known_again() {
    rm -f "$gss/token"
    admits "$1" env LD_PRELOAD="$room/again.so" KEEP="$gss/token" "${@:2}" || return 1
    turns_away 'Replayed: ' env LD_PRELOAD="$room/again.so" AGAIN="$gss/token" "${@:2}"
}

has_wrong_clock() { turns_away 'Skew: ' env KRB5CCNAME="FILE:$gss/skewed" "$@"; }

# The keytab is another one while this client comes. The acceptor reads it anew, before and after.
has_wrong_key() {
    local status=0
    cp "$gss/wrong.keytab" "$gss/keytab"
    turns_away 'Altered: ' "$@" || status=1
    cp "$gss/good.keytab" "$gss/keytab"
    return $status
}

# All that is tried of each server: try_admissions NAME SERVICE CLIENT..
try_admissions() {
    check "$1: a client is admitted" admits "$2" "${@:3}"
    check "$1: its token is refused when it comes again" is_known_again "$2" "${@:3}"
    check "$1: a clock that is wrong is refused" has_wrong_clock "${@:3}"
    check "$1: a ticket under another key is refused" has_wrong_key "${@:3}"
    check "$1: a client is admitted after that" admits "$2" "${@:3}"
}

# Whether the counters tell of clients that were admitted, and of a replay.
counts() {
    "$gss_built/menolavuri-status" "$gss/status" | tee /dev/stderr | grep -q 'admitted [1-9]' || return 1
    "$gss_built/menolavuri-status" "$gss/status" | grep -q 'refused [0-9]*: Replayed: '
}

# Whether the check before a service's start finds the interposer, and does not where it is not there.
finds_itself() {
    served "$gss_built/menolavuri-status" --loaded || return 1
    ! env GSS_MECH_CONFIG=/dev/null "$gss_built/menolavuri-status" --loaded
}

# Whether a setuid program does not read the environment: it does not find the interposer that GSS_MECH_CONFIG names.
is_deaf_as_setuid() {
    install -o nobody -m 4755 "$gss_built/menolavuri-status" "$gss/setuid-status"
    ! served "$gss/setuid-status" --loaded
}

# Settings that cannot be read are a refusal, with a reason in the log.
tells_bad_settings() {
    local gss_conf=$gss/bad.conf
    echo 'stores = file:/tmp' > "$gss_conf"
    served "$gss_built/menolavuri-status" --loaded && return 1
    served "$gss_built/menolavuri-status" --loaded 2>&1 | grep 'line 1: stores: there is no such word'
}

build_gss() {
    make -s -C bindings/gss all || return 1
    gss_built=$PWD/bindings/gss/out
    ${CC:-cc} -shared -fPIC -O1 -o "$room/again.so" "$live/gss/again.c" -Wl,--no-as-needed -lgssapi_krb5 -ldl
}

# Whether MIT krb5's libraries can be linked.
has_krb5() { echo 'int main(void) { return 0; }' | ${CC:-cc} -x c -o "$room/linked" - -lgssapi_krb5 -lkrb5; }

try_gss() {
    local gss gss_built gss_conf='' KRB5_CONFIG=$KRB5_CONFIG
    has_krb5 2> /dev/null || { echo "not tried: servers over the interposer, which needs Debian's package libkrb5-dev"; return; }
    build_gss > "$room/built" 2>&1 || { cat "$room/built"; check "bindings/gss is built" false; return; }
    gss_room > "$room/gss-room.log" 2>&1 || { cat "$room/gss-room.log"; check "the room of the servers" false; return; }
    export KRB5_CONFIG=$gss/krb5.conf
    check "the interposer is loaded" finds_itself
    check "settings that cannot be read are reported" tells_bad_settings
    [ "$(id -u)" -ne 0 ] || check "a setuid program reads no environment" is_deaf_as_setuid
    local server
    for server in ${GSS_SERVERS:-samples sshd postgres apache sasl dovecot ldap python java redis kadmin checked}; do "try_gss_$server"; done
    [ -n "${GSS_SERVERS:-}" ] || check "the counters" counts
}

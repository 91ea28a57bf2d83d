# Dovecot's IMAP, and Cyrus' imtest.

start_dovecot() {
    local folder=$gss/dovecot
    mail_port=$(free_port)
    mkdir -p "$folder/run" && mkdir -m 777 "$folder/mail"
    cat > "$folder/conf" <<END2
base_dir = $folder/run
state_dir = $folder/run
log_path = $folder/log
protocols = imap
ssl = no
listen = 127.0.0.1
auth_mechanisms = gssapi
auth_gssapi_hostname = localhost
auth_krb5_keytab = /nonexistent
auth_username_format = %n
disable_plaintext_auth = no
import_environment = GSS_MECH_CONFIG=$gss/mech.conf MENOLAVURI_GSS_CONF=$gss/gss.conf KRB5_CONFIG=$gss/krb5.conf
mail_location = maildir:$folder/mail
first_valid_uid = 1
service imap-login {
  chroot =
  inet_listener imap {
    port = $mail_port
  }
  inet_listener imaps {
    port = 0
  }
}
passdb {
  driver = static
  args = nopassword=y
}
userdb {
  driver = static
  args = uid=mail gid=mail home=$folder/mail
}
END2
    start dovecot /usr/sbin/dovecot -F -c "$folder/conf"
    await_port "$mail_port"
}

# Whether imtest logs in, and the mailbox answers: imap_client PORT
imap_client() {
    local said
    said=$(printf 'a SELECT INBOX\r\nb LOGOUT\r\n' | timeout 20 "$imtest" -m GSSAPI -p "$1" -u alice -a alice localhost 2>&1)
    grep -q '^Authenticated' <<< "$said" && grep -q '^a OK' <<< "$said"
}

try_gss_dovecot() {
    local mail_port
    imtest=/usr/lib/cyrus/bin/imtest
    [ -x "$imtest" ] || imtest=$live/out/cyrus/usr/lib/cyrus/bin/imtest
    [ -x /usr/sbin/dovecot ] && [ -x "$imtest" ] || { echo "not tried: Dovecot, of Debian's packages dovecot-imapd and dovecot-gssapi, with imtest"; return; }
    [ "$(id -u)" -eq 0 ] || { echo "not tried: Dovecot, which is started by root here"; return; }
    check "Dovecot starts" start_dovecot
    export imtest && export -f imap_client
    try_admissions Dovecot imap/localhost bash -c "imap_client $mail_port"
}

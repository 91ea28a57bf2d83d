# Programs with the interposer under valgrind, and under the address sanitizer, as far as these are there.

# Builds the interposer with the address sanitizer, by Rust's nightly and the runtime of clang, and leaves its path in sanitized: build_sanitized
build_sanitized() {
    runtime=$(clang -print-file-name=libclang_rt.asan-x86_64.so 2> /dev/null)
    [ -e "$runtime" ] && cargo +nightly --version > /dev/null 2>&1 || return 1
    RUSTFLAGS="-Zsanitizer=address -Clink-arg=$runtime ${RUSTFLAGS:-}" cargo +nightly build --offline --quiet --release --lib \
        --manifest-path bindings/gss/Cargo.toml --target x86_64-unknown-linux-gnu --target-dir bindings/gss/target/sanitized || return 1
    sanitized=$PWD/bindings/gss/target/sanitized/x86_64-unknown-linux-gnu/release/libmenolavuri_gss.so
}

# Whether gss-server with the sanitized interposer takes messages, a delegated ticket and a refusal, and the sanitizer finds nothing.
is_sane() {
    local gss_mech=$gss/sanitized.conf sample_port
    echo "menolavuri 1.3.6.1.4.1.32473.4120.1 $sanitized <interposer>" > "$gss_mech"
    sample_port=$(free_port)
    serve sanitized env LD_PRELOAD="$runtime" ASAN_OPTIONS="detect_leaks=0:log_path=$gss/asan:verify_asan_link_order=0" \
        gss-server -port "$sample_port" host@localhost
    await_port "$sample_port"
    admits host/localhost bash -c "sample_client $sample_port 10 -mcount 10" || return 1
    admits host/localhost bash -c "sample_client $sample_port 1 -d" || return 1
    has_wrong_clock bash -c "sample_client $sample_port 1" || return 1
    ! cat "$gss"/asan.* 2> /dev/null
}

# Starts a server with the interposer under valgrind, which writes errors to files of the room: serve_checked NAME COMMAND.. Memory that a
# program does not free is not counted.
serve_checked() { serve "$1" valgrind --quiet --leak-check=no --trace-children=yes --log-file="$gss/$1.%p.valgrind" "${@:2}"; }

# Whether valgrind wrote nothing of this server: was_clean NAME
was_clean() { ! cat "$gss/$1".*.valgrind | grep .; }

# Whether Apache, in one process, and Python are clean with a client that is admitted and one that is refused. (sshd's sandbox ends it under
# valgrind.)
apache_is_clean() {
    local port gss_conf=$gss/apache.conf
    port=$(free_port)
    sed "s/^Listen .*/Listen 127.0.0.1:$port/; s#^PidFile .*#PidFile $gss/checked.pid#" "$gss/apache-prefork/conf" > "$gss/checked-apache.conf"
    serve_checked checked-apache /usr/sbin/apache2 -X -f "$gss/checked-apache.conf"
    await_slow_port "$port" || return 1
    admits HTTP/localhost bash -c "web_client $port" || return 1
    has_wrong_clock bash -c "web_client $port" || return 1
    was_clean checked-apache
}

python_is_clean() {
    local port
    local -x patience=100 # (seconds)
    port=$(free_port)
    serve_checked checked-python env PYTHONMALLOC=malloc "$python" "$live/gss/server.py" "$port"
    await_slow_port "$port" || return 1
    admits host/localhost bash -c "python_client $port host@localhost" || return 1
    has_wrong_clock bash -c "python_client $port host@localhost" || return 1
    was_clean checked-python
}

# A program under valgrind starts slowly: await_slow_port PORT
await_slow_port() { await_port "$1" 2> /dev/null || await_port "$1" 2> /dev/null || await_port "$1"; }

try_gss_checked() {
    local runtime sanitized sample_port
    export -f sample_client web_client python_client && export python live
    if build_sanitized > "$room/sanitized" 2>&1; then check "gss-server under the address sanitizer" is_sane
    else echo "not tried: the address sanitizer, which needs Rust's nightly and Debian's clang"; fi
    command -v valgrind > /dev/null || { echo "not tried: servers under valgrind, of Debian's package valgrind"; return; }
    [ ! -e "$gss/apache-prefork/conf" ] || check "Apache under valgrind" apache_is_clean
    ! "$python" -c 'import gssapi' 2> /dev/null || check "Python under valgrind" python_is_clean
}

# Two servers of one service that share a Redis: the example shared_server, twice.

start_redis() {
    start redis redis-server --port "$redis_port" --bind 127.0.0.1 --dir "$room" --save ''
    redis=$last
    await_port "$redis_port"
}

# Starts a server over the store: start_shared NAME, and leaves its port in shared_port. Its skew is five seconds, so that a new
# store is good after ten.
start_shared() {
    shared_port=$(free_port)
    start "$1" "$examples/shared_server" "127.0.0.1:$shared_port" host/server.example.com "$mit/keytab" 5 "127.0.0.1:$redis_port"
    await_port "$shared_port"
}

# Whether a token that was admitted is refused at another port, and the log says so: is_known NAME PORT
is_known() {
    "$python" "$live/relay.py" again "$2" "$room/shared-token" | tee /dev/stderr | grep -x 'answered by 0 octets' || return 1
    logged "$1" Replayed
}

# Lets a client in at a port, and keeps what it sent.
keeps_token() {
    local port
    port=$(free_port)
    start relay "$python" "$live/relay.py" "$port" "$1" "$room/shared-token"
    logged relay listens
    verifies 1 "$port" hello
}

# Whether a client is refused at a port, and the log says why: nobody_in NAME PORT WORDS
nobody_in() {
    verifies 1 "$2" hello && { echo "it was admitted"; return 1; }
    logged "$1" "nobody is admitted: $3"
}

try_redis() {
    local redis redis_port first second
    command -v redis-server > /dev/null || { echo "not tried: two servers over a Redis, of Debian's package redis-server"; return; }
    redis_port=$(free_port)
    start_shared first && first=$shared_port
    start_shared second && second=$shared_port
    check "the store is away: nobody is admitted" nobody_in first "$first" 'Connection refused'
    start_redis
    check "the store was started anew: nobody is admitted" nobody_in first "$first" 'the store was started anew'
    sleep 12
    check "a client is admitted at the first" keeps_token "$first"
    check "its token is refused at the second" is_known second "$second"
    check "and at the first" is_known first "$first"
    check "other tokens are admitted at both" verifies 1 "$second" hello
    kill -STOP "$redis"
    check "the store is silent: nobody is admitted" nobody_in second "$second" 'the store does not answer'
    kill -CONT "$redis"
    check "the store answers again: a client is admitted" verifies 1 "$second" hello
    kill "$redis" && wait "$redis"
    check "the store is gone: nobody is admitted" nobody_in second "$second" ''
}

# Two of gss-server as on two machines: each has a folder of its own for counters, and both ask one Redis.

# Whether a client gets no answer, and the log says that nobody is admitted.
store_is_away() {
    turns_away 'the store of admitted clients does not answer: nobody is admitted' bash -c "sample_client $1 1"
}

try_gss_redis() {
    local redis redis_port first second gss_conf=$gss/redis.conf sample_port
    command -v redis-server > /dev/null || { echo "not tried: two machines over a Redis, of Debian's package redis-server"; return; }
    redis_port=$(free_port)
    gss_settings "redis:127.0.0.1:$redis_port" | sed 's/^skew.*/skew = 5/' > "$gss_conf"
    start_sample redis-1 && first=$sample_port
    start_sample redis-2 && second=$sample_port
    check "the Redis is away: nobody is admitted" store_is_away "$first"
    start redis redis-server --port "$redis_port" --bind 127.0.0.1 --dir "$room" --save ''
    redis=$last
    await_port "$redis_port"
    check "the Redis was started anew: nobody is admitted" store_is_away "$first"
    sleep 12
    check "a token that one machine admitted is refused at the other" comes_to_another "$first" "$second"
    check "other tokens are admitted at both" admits host/localhost bash -c "sample_client $second 1 && sample_client $first 1"
    kill "$redis" && wait "$redis"
    check "the Redis is gone: nobody is admitted" store_is_away "$second"
}

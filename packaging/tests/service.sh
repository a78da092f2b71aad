# For tests/package: the package mvtgate-proxy in the fresh Debian, whose systemd runs in namespaces of its own, by the very words of
# docs/PROXY.md.
# (the names that aren't set here are those of tests/package)
# shellcheck shell=bash disable=SC2154

page=docs/PROXY.md
# (the process whose end is that of all in there, and the first one in there)
world='' first=''
# In seconds: how long anything may take; the machine may be busy.
limit=300
# /srv/gate in there (its /tmp is emptied when systemd begins)
shared=$root/srv/gate

# block LANGUAGE WORD: the block of the page in this language that has the word.
block() {
    awk -v fence="\`\`\`$1" -v word="$2" '
        /^```/ { if (inside && index(text, word)) printf "%s", text; inside = $0 == fence; text = ""; next }
        inside { text = text $0 "\n" }' $page
}

# until_true WORD..: waits until the words succeed.
until_true() {
    local end=$((SECONDS + limit))
    until "$@"; do
        [ $SECONDS -lt $end ] || { echo "it doesn't come to pass: $*"; return 1; }
        sleep 0.1
    done
}

# within WORD..: runs the words where systemd runs, with nothing of this environment.
within() {
    nsenter --target "$first" --all env -i PATH=/usr/local/bin:/usr/sbin:/usr/bin:/sbin:/bin HOME=/root LC_ALL=C.UTF-8 \
        DEBIAN_FRONTEND=noninteractive "$@"
}

# by_page WORD [NAME]: what the page says to type, in a block that has this word, of a sample tile. (root needs no sudo.)
by_page() {
    block sh "$1" | sed "s/^sudo //; s,YOUR/TILE,$(path_of "${2-}")," >"$shared/typed"
    within sh -c 'cd /srv/gate && . ./typed'
}

# path_of NAME: that of a sample tile at the map server.
path_of() { grep -nxF "$1" "$room/names" | awk -F : '{ print "7/0/" $1 ".mvt" }'; }

# What the page takes for granted, and the sample tiles as a map server's files.
prepare_service() {
    inside apt-get install -y --no-install-recommends systemd nginx-light curl ca-certificates
    rm -f "$root/etc/nginx/sites-enabled/default"
    mkdir -p "$shared/map/7/0"
    cp "$made/mvtgate-proxy_${version}_amd64.deb" "$shared/"
    local name
    basename -s .check tiles/expected/*.check >"$room/names"
    while IFS= read -r name; do
        cp "tiles/$name.mvt" "$shared/map/$(path_of "$name")"
    done <"$room/names"
}

# begin_world: starts systemd in there, in a group of its own.
begin_world() {
    mkdir "$room/groups"
    mount -t cgroup2 cgroup2 "$room/groups" && mkdir "$room/groups/mvtgate.$$" || return 1
    (
        echo "$BASHPID" >"$room/groups/mvtgate.$$/cgroup.procs"
        exec unshare --mount --propagation private --pid --fork --kill-child=KILL --uts --ipc --net --cgroup bash packaging/tests/boot.sh "$root"
    ) >"$room/world" 2>&1 </dev/null &
    world=$!
}

# has_begun: whether systemd is there, or has ended, after which `first` is ''.
has_begun() {
    first=$(pgrep --parent "$world" || true)
    kill -0 "$world" 2>/dev/null || return 0
    [ -n "$first" ] && [[ $(within systemctl is-system-running 2>&1 || true) =~ ^(running|degraded)$ ]]
}

end_world() {
    if [ -n "$world" ]; then
        kill -KILL "$world" 2>/dev/null || true
        wait "$world" 2>/dev/null || true
        world=''
    fi
    [ -d "$room/groups/mvtgate.$$" ] || return 0
    until_true remove_groups
    umount "$room/groups"
}

# (a group is empty a moment after its processes have ended)
remove_groups() { find "$room/groups/mvtgate.$$" -depth -type d -exec rmdir {} + 2>/dev/null || [ ! -d "$room/groups/mvtgate.$$" ]; }

is_service() { are_lines "$1" within systemctl is-active mvtgate-proxy; }

# It is there, with its settings, and waits for whoever makes them.
install_service() {
    by_page "apt install"
    [ "$(within mvtgate-proxy --version)" = "mvtgate-proxy $version" ]
    are_lines disabled within systemctl is-enabled mvtgate-proxy
    is_service inactive
    within dpkg --verify mvtgate-proxy
    gunzip -c "$root/usr/share/man/man1/mvtgate-proxy.1.gz" | cmp - packaging/mvtgate-proxy.1
    cmp "$root/usr/share/bash-completion/completions/mvtgate-proxy" packaging/mvtgate-proxy.bash-completion
    cmp "$root/etc/default/mvtgate-proxy" packaging/proxy/default
    cmp "$root/lib/systemd/system/mvtgate-proxy.service" packaging/proxy/mvtgate-proxy.service
}

asks() { within curl -sf -o /dev/null "$1"; }

# The settings and the commands of the page, in front of a map server.
start_service() {
    block sh MVTGATE_PROXY_MODE >"$root/etc/default/mvtgate-proxy"
    within setsid --fork python3 -m http.server --bind 127.0.0.1 --directory /srv/gate/map 3000 >"$room/map" 2>&1
    until_true asks http://127.0.0.1:3000/
    are_lines "" by_page "enable --now" polygon
    by_page "enable --now" crossing_edges | tr -d '\r' >"$room/said_to_user"
    cat "$room/said_to_user"
    [[ $(<"$room/said_to_user") == 'X-Tile-Fault: {"code":504,'*'
mvtgate_proxy_faults_total{answer="reported",code="504",layer="a"} 1' ]]
    is_service active
    are_lines '{"status":"ok"}' within curl -s http://127.0.0.1:8081/healthz
}

# How many connections may wait to be taken is what the system allows, which the service can read.
reads_length_of_queue() {
    local process
    process=$(within systemctl show --property=MainPID --value mvtgate-proxy)
    are_lines "$(within cat /proc/sys/net/core/somaxconn)" within nsenter --target "$process" --mount cat /proc/sys/net/core/somaxconn
}

# what are_samples_right calls
by_proxy() {
    local fault
    fault=$(within curl -s -o /srv/gate/answer -D - "http://127.0.0.1:8080/$(path_of "$1")" | tr -d '\r' | sed -n 's/^X-Tile-Fault: //p')
    cmp "$shared/answer" "tiles/$1.mvt" || return 99
    echo "${fault:-{\"ok\":true\}}"
    [ -z "$fault" ]
}

# nginx in front of it, by the page's file.
run_nginx() {
    local it
    block nginx proxy_cache_path >"$root/etc/nginx/conf.d/tiles.conf"
    within systemctl start nginx
    for it in polygon crossing_edges; do
        within curl -sf -o /srv/gate/answer "http://127.0.0.1:8000/$(path_of $it)"
        cmp "$shared/answer" "tiles/$it.mvt"
    done
    [ -d "$root/var/cache/nginx" ]
    within systemctl stop nginx
}

# The same package once more, as a newer version comes: the service runs on, as another process, with the settings as they are.
upgrade_service() {
    local before
    before=$(within systemctl show --property=MainPID mvtgate-proxy)
    within dpkg -i "/srv/gate/mvtgate-proxy_${version}_amd64.deb"
    is_service active
    [ "$(within systemctl show --property=MainPID mvtgate-proxy)" != "$before" ]
    grep -qx MVTGATE_PROXY_MODE=report "$root/etc/default/mvtgate-proxy"
}

# Its wrong settings are no reason to try again and again.
refuse_settings() {
    echo MVTGATE_PROXY_MODE=repair >>"$root/etc/default/mvtgate-proxy"
    ends_with 1 within systemctl restart mvtgate-proxy
    is_service failed
    are_lines ExecMainStatus=2 within systemctl show --property=ExecMainStatus mvtgate-proxy
    sed -i '$d' "$root/etc/default/mvtgate-proxy"
    within systemctl restart mvtgate-proxy
    is_service active
}

# It ends, and nothing of it is left, not even the link by which it was enabled.
remove_service() {
    within apt-get remove -y mvtgate-proxy
    # (nobody listens)
    ends_with 7 within curl -s -o "$room/nothing" http://127.0.0.1:8080/
    [ -e "$root/etc/default/mvtgate-proxy" ]
    within apt-get purge -y mvtgate-proxy
    rm -r "$shared"
    are_lines "" find "$root" -xdev \( -path "$root/var/log" -o -path "$root/var/cache" \) -prune -o -name '*mvtgate-proxy*' -print
}

test_service() {
    if [ ! -e "$made/mvtgate-proxy_${version}_amd64.deb" ]; then return; fi
    expect "what mvtgate-proxy is tried with" prepare_service
    if ! { begin_world && until_true has_begun; } || [ -z "$first" ]; then
        cat "$room/world" 2>/dev/null || true
        tests/left_out package:systemd "mvtgate-proxy as a service (systemd doesn't run here)" || failed=$((failed + 1))
        end_world
        return
    fi
    expect "apt install mvtgate-proxy" install_service
    expect "the service" start_service
    expect "the connections that wait for the service" reads_length_of_queue
    expect "the samples by the service" are_samples_right by_proxy
    expect "nginx in front of the service" run_nginx
    expect "an upgrade of mvtgate-proxy" upgrade_service
    expect "wrong settings of the service" refuse_settings
    expect "apt purge mvtgate-proxy" remove_service
    end_world
}

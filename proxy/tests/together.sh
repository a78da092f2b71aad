# shellcheck shell=bash
# For test_documents.py: a map server, the proxy and nginx in front of it, with the files of the folder, and what they answer:
# together.sh FOLDER PROGRAM
set -euo pipefail
cd "$1"
ip link set lo up
servers=()
trap 'kill "${servers[@]}" 2>/dev/null; wait' EXIT
nginx -p "$1" -c "$1/map.conf" -e "$1/map.log" &
servers+=($!)
"$2" 2>proxy.log &
servers+=($!)
nginx -p "$1" -c "$1/front.conf" -e "$1/front.log" &
servers+=($!)
# answers URL: waits until something answers there.
answers() {
    local attempt
    for attempt in {1..1200}; do
        curl -s -o /dev/null "$1" && return
        sleep 0.1
    done
    echo "nothing answers at $1 after $attempt attempts"
    cat ./*.log
    return 1
}
answers http://127.0.0.1:8081/healthz
answers http://127.0.0.1:8000/
until curl -sf http://127.0.0.1:8081/healthz >health || [ $SECONDS -gt 120 ]; do sleep 0.1; done
curl -si http://127.0.0.1:8000/1/2/3.mvt >valid
curl -si http://127.0.0.1:8000/1/2/4.mvt >faulty
curl -s http://127.0.0.1:8081/metrics >metrics

# shellcheck shell=sh
# What a wheel puts on the path as `residency-office`: it becomes the office's command, by the package of this release that was
# installed with it, and by a Python that runs nothing of the caller's folders (-I, -S). Ctrl-C is held back while Python starts,
# so that it gives no traceback.
trap 'echo "office: interrupted" >&2; exit 1' INT
self=$(readlink -f -- "$0")
bin=${self%/*}
for at in "$bin"/../lib*/python*/*-packages "$bin/.."; do
    [ ! -d "$at/residency-@VERSION@.dist-info" ] || break
done
command=$at/residency/office/__main__.py
if [ ! -f "$command" ]; then
    echo "office: the package isn't where pip puts it beside this file; install it again" >&2
    exit 1
fi
folder=${at%/*}
for python in "$bin/${folder##*/}" "${folder##*/}" "$bin/python3" python3; do
    ! command -v "$python" > /dev/null || break
done
! env --block-signal=INT true 2> /dev/null || exec env --block-signal=INT "$python" -I -S "$command" "$@"
exec "$python" -I -S "$command" "$@"

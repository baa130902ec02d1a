#!/usr/bin/env bash
# Tries both ends of a living session, tools/live/share and tools/live/view, on screens that nobody sees: one beside
# the other, and each beside a program of other hands.
#
#     tests/live.sh PROGRAM LIVE_SERVER LIVE_CLIENT [WORD ..]
#
# PROGRAM is gfxpipe. The words choose among the cases, by a part of their names. Each case is a line, `ok` or
# `FAILED`, and behind some is what was counted; the exit number is 1 where one failed. It takes eight minutes, and is no
# part of `rt ci`. Where packages of Debian are missing it names them, tries nothing, and ends with 0; the case of
# gnome-remote-desktop is left out alone, and so are those of FreeRDP 3, whose programs are xfreerdp3 and
# freerdp-shadow-cli3, or what XFREERDP3 and SHADOW3 name, with their libraries where FREERDP3_LIBRARIES says.
#
# LONG=6000 has the session that goes on take ten minutes. PATIENCE=10 waits ten times as long for what has to come, on
# a machine that is busy.
#
# It needs no network, and leaves no process: its programs are copied to a folder, and at the end of each case none may
# run from there.
set -u
# shellcheck source-path=SCRIPTDIR source=common.sh
. "$(dirname "$0")/common.sh"
if [ $# -lt 3 ]; then
    wrong_words
fi
need_programs "$1" "$2" "$3"

missing=
wants() {
    command -v "$1" > /dev/null || missing="$missing $2"
}
wants cc gcc
wants make make
wants pkg-config pkg-config
wants python3 python3
wants xz xz-utils
wants Xvfb xvfb
wants xfreerdp freerdp2-x11
wants freerdp-shadow-cli freerdp2-shadow-x11
wants xwud x11-apps
wants xterm xterm
wants xdotool xdotool
wants xrandr x11-xserver-utils
for library in freerdp2 winpr2 libcrypto:libssl x11:libx11 xext:libxext xtst:libxtst xdamage:libxdamage \
    xfixes:libxfixes xcursor:libxcursor; do
    pkg-config --exists "${library%:*}" 2> /dev/null || missing="$missing ${library#*:}-dev"
done
if [ -n "$missing" ]; then
    echo "nothing is tried: apt-get install$missing"
    exit 0
fi

here=$(realpath "$(dirname "$0")")
tools=$here/../tools
cp "$1" "$work/gfxpipe"
cp "$2" "$work/live_server"
cp "$3" "$work/live_client"
shift 3
chosen=("$@")
make --silent -C "$tools/live" || exit 1
cp "$tools"/live/out/* "$work"
cc -O2 -std=c11 -o "$work/opens_file" "$here/live/intruder.c" || exit 1
cc -O2 -std=c11 -DASKS_MEMORY -o "$work/asks_memory" "$here/live/intruder.c" || exit 1
xz -dc "$here/../examples/gnome.bin.xz" > "$work/stream"
{
    echo "static const uint8_t stream[] = {"
    od -A n -v -t u1 "$work/stream" | sed 's/ *\([0-9][0-9]*\)/\1,/g'
    echo "};"
} > "$work/stream.h"
cc -O2 -std=c11 -I "$work" -o "$work/compresses" "$here/live/stand_in.c" || exit 1
# shellcheck disable=SC2046
cc -O2 -std=c11 -o "$work/pointer" "$here/live/pointer.c" $(pkg-config --cflags --libs x11 xfixes) || exit 1
cc -O2 -std=c11 -I "$work" -DNONSENSE -o "$work/sends_nonsense" "$here/live/stand_in.c" || exit 1
export PYTHONDONTWRITEBYTECODE=1 PYTHONPATH=$tools HOME=$work
pids=()

end_all() {
    for ((at = ${#pids[@]} - 1; at >= 0; at--)); do
        kill "${pids[at]}" 2> /dev/null
        wait "${pids[at]}" 2> /dev/null
    done
    rm -rf "$work"
}
trap end_all EXIT

# ---- What cases are made of

is_chosen() {
    [ ${#chosen[@]} -eq 0 ] && return 0
    for word in "${chosen[@]}"; do
        case $1 in *"$word"*) return 0 ;; esac
    done
    return 1
}

# Waits until a command succeeds, for up to so many tenths of a second.
until_true() {
    local tenths=$(($1 * ${PATIENCE:-1}))
    shift
    for ((; tenths > 0; tenths--)); do
        "$@" > /dev/null 2>&1 && return 0
        sleep 0.1
    done
    return 1
}

# A screen that nobody sees, of the sides in the second word. Its display goes into a file of the first word.
new_screen() {
    Xvfb -displayfd 5 -screen 0 "$2x24" -nolisten tcp 5> "$work/$1" > "$work/xvfb-$1.log" 2>&1 &
    pids+=($!)
    until_true 100 test -s "$work/$1" || { echo "Xvfb doesn't begin" && exit 1; }
}

is_listening() {
    (exec 3<> "/dev/tcp/127.0.0.1/$1") 2> /dev/null
}

is_free() {
    ! is_listening "$1"
}

# Two runs beside each other have other ports.
port=$((20000 + $$ % 1000 * 10))
next_port() {
    port=$((port + 1))
    while is_listening $port; do port=$((port + 1)); done
}

# Begins to share the server's screen, by live_server or what `serving` names in its place, with more words.
begin_share() {
    next_port
    rm -f "$work/share.log"
    "$work/share" --display "$server" --user user --password secret --port $port \
        --server "$work/${serving:-live_server}" "$@" 2> "$work/share.log" &
    share=$!
    until_true 50 grep -q "at port" "$work/share.log" || echo "share doesn't begin: $(cat "$work/share.log")"
}

# Ends it. What it said of clients is then in `said`, without what counts.
end_share() {
    kill "$share"
    wait "$share" 2> /dev/null
    said=$(grep -v "at port" "$work/share.log" | sed 's/127.0.0.1:[0-9]*/CLIENT/; s/the process [0-9]*/the process N/
        s/[0-9]* frames, [0-9]* acknow/N frames, N acknow/')
}

# Begins to view what is at the port.
begin_view() {
    rm -f "$work"/recording* "$work/picture" "$work/view.log"
    DISPLAY=$client "$work/view" 127.0.0.1:$port --user user --password "${password:-secret}" ${trust---trust} \
        --client "$work/${proved:-live_client}" --size 800x600 --record "$work/recording" \
        --picture "$work/picture" < /dev/null 2> "$work/view.log" &
    view=$!
}

# Waits for its end. Its exit number and its line are then in `ended`, without what counts.
end_view() {
    for ((tenths = 100 * ${PATIENCE:-1}; tenths > 0; tenths--)); do
        kill -0 "$view" 2> /dev/null || break
        sleep 0.1
    done
    kill -9 "$view" 2> /dev/null
    wait "$view" 2> /dev/null
    ended="$? $(sed 's/[0-9]* messages, [0-9]* frames/N messages, N frames/' "$work/view.log")"
}

# Begins xfreerdp with this password, and more words.
begin_xfreerdp() {
    DISPLAY=$client xfreerdp /v:127.0.0.1:$port /u:user "/p:${1:-secret}" /gfx /cert-ignore /log-level:OFF "${@:2}" \
        > "$work/xfreerdp.log" 2>&1 &
    xfreerdp=$!
}

# Begins FreeRDP 3's, with the words for graphics in the first word, and more words.
begin_xfreerdp3() {
    DISPLAY=$client LD_LIBRARY_PATH=${FREERDP3_LIBRARIES:-} "$xfreerdp3" /v:127.0.0.1:$port /u:user /p:secret "$1" \
        /cert:ignore /log-level:OFF "${@:2}" > "$work/xfreerdp.log" 2>&1 &
    xfreerdp=$!
}

end_xfreerdp() {
    kill "$xfreerdp" 2> /dev/null
    wait "$xfreerdp" 2> /dev/null
}

# The programs that run from the folder, or `none`, which there have to be a moment behind each case.
left() {
    until_true 30 no_process && echo none && return
    ps -eo args | grep "^$work/" | cut -d' ' -f1 | tr '\n' ' '
}

no_process() {
    [ "$(ps -eo args | grep -c "^$work/")" -eq 0 ]
}

# A window on the server's screen, by its name.
window_of() {
    DISPLAY=$server xdotool search --name "$1" 2> /dev/null | tail -n 1 | grep .
}

# Windows that move: a terminal that writes, a photograph that goes to and fro.
scene() {
    DISPLAY=$server xwud -in "$work/photograph" -geometry +20+200 > /dev/null 2>&1 &
    pids+=($!)
    # shellcheck disable=SC2016
    local lines='while sleep 0.3; do test -e "$1" && n=$((n + 1)) && echo "line $n: $(date)"; done'
    DISPLAY=$server xterm -T writing -geometry 60x20+380+20 -e sh -c "$lines" sh "$work/moves" > /dev/null 2>&1 &
    pids+=($!)
    until_true 100 window_of photograph
    until_true 100 window_of writing
}

# So many steps of the photograph, ten in a second. Then the terminal writes no more, and all is still.
move() {
    touch "$work/moves"
    local photograph
    photograph=$(window_of photograph)
    for ((step = 0; step < $1; step++)); do
        DISPLAY=$server xdotool windowmove "$photograph" $((20 + step * 7 % 300)) $((200 + step * 5 % 130))
        sleep 0.1
    done
    rm "$work/moves"
}

# A screenshot of a display, as a dump of the sides of the server's screen or of those in the last words.
shoot() {
    DISPLAY=$1 xwd -root -silent > "$work/shot" &&
        python3 -m gfxtools.screenshot "$work/shot" 0 0 "${3:-800}" "${4:-600}" > "$2"
}

# How two dumps compare, in a word, where bytes of colour may be so far apart.
compared() {
    if "$tools/compare" "$1" "$2" --off "$3" > "$work/compared" 2>&1; then
        echo same
    else
        cat "$work/compared"
    fi
}

# The same, until they are the same, for up to so many tenths of a second: the client's screen beside the server's.
screens() {
    local found
    for ((tenths = $2 * ${PATIENCE:-1}; tenths > 0; tenths -= 5)); do
        shoot "$client" "$work/theirs"
        shoot "$server" "$work/ours"
        found=$(compared "$work/theirs" "$work/ours" "$1")
        [ "$found" = same ] && break
        sleep 0.5
    done
    echo "$found"
}

# The last picture of view beside what `render` draws of its recording.
recorded() {
    "$work/gfxpipe" render --output < "$work/recording" > "$work/drawn" 2> "$work/drawn.log" ||
        echo "render: $(cat "$work/drawn.log")"
    compared "$work/picture" "$work/drawn" 0
}

frames_of() {
    grep -o "[0-9]* frames" "$1" | tail -n 1
}

is_drawing() {
    [ "$(stat -c %s "$work/recording" 2> /dev/null || echo 0)" -gt 10000 ]
}

# The sides of view's window.
sides_of() {
    DISPLAY=$client xdotool search --name 127.0.0.1 getwindowgeometry | sed -n 's/.*Geometry: //p'
}

has_sides() {
    [ "$(sides_of)" = "$1" ]
}

has_window() {
    DISPLAY=$client xdotool search --name 127.0.0.1
}

# A file of kept bitmaps as FreeRDP 3 has them: a head, and of each bitmap its key, width, height and pixels.
keep_bitmaps() {
    python3 -c 'import struct, sys
bitmaps = b"".join(struct.pack("<QHH", key, 16, 16) + bytes([key]) * 1024 for key in range(1, 9))
sys.stdout.buffer.write(b"RDP8bmp\0" + struct.pack("<I", 6) + bitmaps)'
}

# The form of the pointer on the client's screen, till it is that of the server's, for up to ten seconds.
pointer_of() {
    DISPLAY=$1 "$work/pointer"
}

has_same_pointer() {
    [ "$(pointer_of "$client")" = "$(pointer_of "$server")" ]
}

# The process of the first client of share; that of its live_server.
session_of() {
    pgrep -P "$share" | head -n 1
}

server_of() {
    pgrep -P "$(session_of)" | head -n 1
}

# How many kB of memory a process has.
memory_of() {
    awk '/^VmRSS/ { print $2 }' "/proc/$1/status"
}

# ---- Cases

sockets=/tmp/.X11-unix
[ -e $sockets ] || mkdir -m 1777 $sockets
new_screen server 800x600
new_screen client 800x600
server=:$(cat "$work/server")
client=:$(cat "$work/client")
"$here/live/photograph.py" 320 240 > "$work/photograph"
scene

# How far pictures in passes may be apart once they are improved.
apart=6
gone="share: CLIENT: the client has gone; N frames, N acknowledged"
closed="0 view: interrupted; N messages, N frames"
no_logon="the client didn't log on: it has another user or password, or doesn't take the certificate"

name="share to xfreerdp"
if is_chosen "$name"; then
    begin_share
    begin_xfreerdp
    until_true 100 server_of
    move 30
    report "$name: its window" same "$(screens $apart 100)"
    end_xfreerdp
    until_true 30 grep -q gone "$work/share.log"
    counted=$(frames_of "$work/share.log")
    end_share
    report "$name: its end" "$gone" "$said" "$counted"
    report "$name: processes left" none "$(left)"
fi

name="share to view"
if is_chosen "$name"; then
    begin_share
    begin_view
    until_true 100 is_drawing
    move 30
    report "$name: its window" same "$(screens $apart 100)"
    shoot "$client" "$work/theirs"
    kill "$view"
    end_view
    report "$name: its end" "$closed" "$ended" "$(frames_of "$work/view.log")"
    report "$name: the last picture, and the recording's" same "$(recorded)"
    report "$name: the last picture, and the window's" same "$(compared "$work/picture" "$work/theirs" 0)"
    until_true 30 grep -q gone "$work/share.log"
    end_share
    report "$name: the end of share" "$gone" "$said"
    report "$name: processes left" none "$(left)"
fi

# What was sent is forgotten: live_server takes no more memory, however long a session goes on.
name="a session that goes on, to xfreerdp"
if is_chosen "$name"; then
    begin_share
    begin_xfreerdp
    until_true 100 server_of
    move 30
    first=$(memory_of "$(server_of)")
    move "${LONG:-120}"
    last=$(memory_of "$(server_of)")
    report "$name: its window" same "$(screens $apart 100)"
    report "$name: its memory" steady "$([ "$last" -lt $((first + 8192)) ] && echo steady || echo "$first, then $last")" \
        "$first kB, and then $last kB"
    end_xfreerdp
    until_true 30 grep -q gone "$work/share.log"
    counted=$(frames_of "$work/share.log")
    end_share
    report "$name: its end" "$gone" "$said" "$counted"
    report "$name: processes left" none "$(left)"
fi

name="keys and pointer"
if is_chosen "$name"; then
    DISPLAY=$server xterm -T typed -geometry 30x5+400+400 -e sh -c 'cat > "$1"' sh "$work/typed" > /dev/null 2>&1 &
    typing=$!
    until_true 100 window_of typed
    begin_share
    begin_view
    until_true 100 is_drawing
    sleep 1
    DISPLAY=$client xdotool mousemove 450 430 click 1
    sleep 0.5
    DISPLAY=$client xdotool type --delay 50 "Hello, 1+1=2"
    DISPLAY=$client xdotool key Return
    until_true 30 test -s "$work/typed"
    report "$name: what came" "Hello, 1+1=2" "$(cat "$work/typed")"
    kill "$view"
    end_view
    end_share
    kill $typing
    wait $typing 2> /dev/null
    report "$name: processes left" none "$(left)"
fi

name="another password"
if is_chosen "$name"; then
    begin_share
    password=wrong begin_view
    end_view
    report "$name: view" 1 "${ended%% *}" "${ended#* }"
    end_share
    report "$name: share" "share: CLIENT: $no_logon; N frames, N acknowledged" "$(echo "$said" | sort -u)"
    report "$name: processes left" none "$(left)"
fi

name="a certificate that isn't known"
if is_chosen "$name"; then
    begin_share
    trust='' begin_view
    end_view
    print=$(sed -n 's/.*SHA-256 is //p' "$work/share.log")
    untrusted="127.0.0.1:$port has a certificate that isn't known, and isn't taken without --trust; its fingerprint is"
    report "$name: view" "1 view: $untrusted $print" "$ended"
    until_true 50 grep -q "didn't log on" "$work/share.log"
    end_share
    report "$name: share" "share: CLIENT: $no_logon; N frames, N acknowledged" "$said"
    report "$name: processes left" none "$(left)"
fi

name="a window that is closed"
if is_chosen "$name"; then
    begin_share
    begin_view
    until_true 100 is_drawing
    until_true 100 has_window
    DISPLAY=$client xdotool windowclose "$(DISPLAY=$client xdotool search --name 127.0.0.1 | tail -n 1)"
    end_view
    report "$name: view" "0 view: the window was closed; N messages, N frames" "$ended"
    until_true 50 grep -q gone "$work/share.log"
    end_share
    report "$name: share" "$gone" "$said"
    report "$name: processes left" none "$(left)"
fi

name="three clients at once"
if is_chosen "$name"; then
    begin_share
    views=()
    for at in 1 2 3; do
        begin_view
        views+=("$view")
        until_true 100 is_drawing
        mv "$work/recording" "$work/kept-$at"
    done
    move 30
    sleep $((4 * ${PATIENCE:-1}))
    shoot "$server" "$work/ours"
    for at in 1 2 3; do
        rm -f "$work/picture"
        view=${views[at - 1]}
        kill "$view"
        end_view
        mv "$work/kept-$at" "$work/recording"
        report "$name: picture $at, and the recording's" same "$(recorded)"
        report "$name: picture $at, and the display" same "$(compared "$work/picture" "$work/ours" $apart)"
    done
    until_true 50 test "$(grep -c gone "$work/share.log")" -eq 3
    end_share
    report "$name: share" "$gone"$'\n'"$gone"$'\n'"$gone" "$said"
    report "$name: processes left" none "$(left)"
fi

# Of each kind of picture: by the ones that lose nothing the client's screen is the display, by the others what is drawn
# of the bytes that were sent.
for kind in raw residual bands plain progressive video; do
    name="share to xfreerdp, as $kind"
    if is_chosen "$name"; then
        begin_share --kind "$kind" --record "$work/sent"
        begin_xfreerdp
        until_true 100 server_of
        move 20
        screens $apart 100 > /dev/null
        # Behind the last improvement.
        sleep $((3 * ${PATIENCE:-1}))
        shoot "$client" "$work/theirs"
        shoot "$server" "$work/ours"
        end_xfreerdp
        until_true 30 grep -q gone "$work/share.log"
        end_share
        report "$name: its end" "$gone" "$said"
        "$work/gfxpipe" render --output < "$work/sent" > "$work/drawn"
        rm -f "$work/sent"
        case $kind in
        progressive | video)
            report "$name: its window, and what was sent" same "$(compared "$work/theirs" "$work/drawn" 1)" \
                "beside the display $("$here/live/decibels.py" "$work/theirs" "$work/ours")"
            ;;
        *)
            report "$name: its window, and what was sent" same "$(compared "$work/theirs" "$work/drawn" 0)"
            report "$name: its window, and the display" same "$(compared "$work/theirs" "$work/ours" 0)"
            ;;
        esac
        report "$name: processes left" none "$(left)"
    fi
done

for protocol in nla tls; do
    name="share to xfreerdp by $protocol"
    if is_chosen "$name"; then
        begin_share
        begin_xfreerdp secret "/sec:$protocol"
        until_true 100 server_of
        report "$name: its window" same "$(screens $apart 200)"
        end_xfreerdp
        until_true 50 grep -q gone "$work/share.log"
        end_share
        report "$name: its end" "$gone" "$said"
        begin_share
        begin_xfreerdp wrong "/sec:$protocol"
        wait $xfreerdp
        end_share
        case $protocol in
        nla) refused="share: CLIENT: $no_logon; N frames, N acknowledged" ;;
        tls) refused="share: CLIENT: the client has another user or password; N frames, N acknowledged" ;;
        esac
        report "$name: another password" "$refused" "$(echo "$said" | sort -u)"
        report "$name: processes left" none "$(left)"
    fi
done

# Forms without half-clear pixels come as they are.
name="the form of the pointer"
if is_chosen "$name"; then
    begin_share
    begin_view
    until_true 100 is_drawing
    DISPLAY=$client xdotool mousemove 20 20
    # A gumby, a heart and a man.
    for form in 56 62 88; do
        DISPLAY=$server "$work/pointer" $form &
        forming=$!
        until_true 100 has_same_pointer
        report "$name: $form" "$(pointer_of "$server")" "$(pointer_of "$client")" "$(pointer_of "$server")"
        kill $forming
        wait $forming 2> /dev/null
    done
    kill "$view"
    end_view
    end_share
    report "$name: its end" "$closed" "$ended"
    report "$name: processes left" none "$(left)"
fi

name="a display that changes its sides"
if is_chosen "$name"; then
    kept=$server
    new_screen other 800x600
    other=${pids[-1]}
    server=:$(cat "$work/other")
    DISPLAY=$server xwud -in "$work/photograph" -geometry +20+100 > /dev/null 2>&1 &
    pids+=($!)
    until_true 100 window_of photograph
    DISPLAY=$server xrandr --newmode other 25 640 656 752 800 480 490 492 525
    DISPLAY=$server xrandr --addmode screen other
    begin_share
    begin_view
    until_true 100 is_drawing
    sleep 1
    for sides in 640x480 800x600; do
        mode=$([ $sides = 640x480 ] && echo other || echo $sides)
        DISPLAY=$server xrandr --output screen --mode "$mode"
        until_true 100 has_sides $sides
        report "$name: the window" $sides "$(sides_of)"
    done
    DISPLAY=$server xrandr --output screen --mode other
    until_true 100 has_sides 640x480
    sleep $((4 * ${PATIENCE:-1}))
    shoot "$server" "$work/ours" 640 480
    kill "$view"
    end_view
    report "$name: view" "$closed" "$ended" "$(frames_of "$work/view.log")"
    report "$name: the last picture, and the recording's" same "$(recorded)"
    report "$name: the last picture, and the display" same "$(compared "$work/picture" "$work/ours" $apart)"
    begin_xfreerdp
    until_true 100 server_of
    sleep $((2 * ${PATIENCE:-1}))
    DISPLAY=$server xrandr --output screen --mode 800x600
    report "$name: xfreerdp's window" same "$(screens $apart 100)"
    end_xfreerdp
    until_true 50 grep -q gone "$work/share.log"
    end_share
    report "$name: share" "$gone"$'\n'"$gone" "$said"
    server=$kept
    kill "$other"
    report "$name: processes left" none "$(left)"
fi

name="a client without TLS"
if is_chosen "$name"; then
    begin_share
    begin_xfreerdp secret /sec:rdp
    wait $xfreerdp
    until_true 50 grep -q gone "$work/share.log"
    end_share
    report "$name: share" "$gone" "$said" "$(frames_of "$work/share.log")"
    report "$name: processes left" none "$(left)"
fi

name="a client that vanishes"
if is_chosen "$name"; then
    begin_share
    begin_view
    until_true 100 is_drawing
    kill -9 "$view"
    wait "$view" 2> /dev/null
    until_true 50 grep -q gone "$work/share.log"
    end_share
    report "$name: share" "$gone" "$said"
    report "$name: processes left" none "$(left)"
fi

name="a server that vanishes"
if is_chosen "$name"; then
    begin_share
    begin_view
    until_true 100 is_drawing
    kill -9 "$(session_of)"
    end_view
    report "$name: view" "3 view: the server has gone; N messages, N frames" "$ended"
    end_share
    report "$name: share" "share: the process N of a client was ended by signal 9" "$said"
    report "$name: processes left" none "$(left)"
fi

name="share that is ended"
if is_chosen "$name"; then
    begin_share
    begin_view
    until_true 100 is_drawing
    end_share
    report "$name: share" "share: CLIENT: share was ended; N frames, N acknowledged" "$said"
    end_view
    report "$name: view" 3 "${ended%% *}" "${ended#* }"
    report "$name: processes left" none "$(left)"
fi

name="a display that ends"
if is_chosen "$name"; then
    kept=$server
    new_screen brief 400x300
    brief=${pids[-1]}
    server=:$(cat "$work/brief")
    begin_share
    server=$kept
    begin_view
    until_true 100 test -s "$work/recording"
    sleep 0.5
    kill "$brief"
    end_view
    report "$name: view" 3 "${ended%% *}" "${ended#* }"
    until_true 50 grep -q "has gone" "$work/share.log"
    end_share
    report "$name: share" "share: CLIENT: display :$(cat "$work/brief") has gone" "$said"
    report "$name: processes left" none "$(left)"
fi

name="live_client that is ended"
if is_chosen "$name"; then
    begin_share
    begin_view
    until_true 100 is_drawing
    kill -9 "$(pgrep -P "$view" | head -n 1)"
    end_view
    report "$name: view" "4 view: live_client was ended by signal 9" "$ended"
    until_true 50 grep -q gone "$work/share.log"
    end_share
    report "$name: share" "$gone" "$said"
    report "$name: processes left" none "$(left)"
fi

name="live_server that is ended"
if is_chosen "$name"; then
    begin_share
    begin_view
    until_true 100 is_drawing
    kill -9 "$(server_of)"
    end_view
    report "$name: view" 3 "${ended%% *}" "${ended#* }"
    end_share
    report "$name: share" "share: CLIENT: live_server was ended by signal 9" "$said"
    report "$name: processes left" none "$(left)"
fi

not_allowed="was ended by its sandbox: it made a call to the system that isn't allowed"
for intruder in opens_file asks_memory; do
    name="the sandbox: $intruder"
    if is_chosen "$name"; then
        begin_share
        proved=$intruder begin_view
        end_view
        report "$name as live_client" "4 view: $intruder $not_allowed" "$ended"
        end_share
        serving=$intruder begin_share
        begin_view
        end_view
        end_share
        report "$name as live_server" "share: CLIENT: $intruder $not_allowed" "$said"
        report "$name: processes left" none "$(left)"
    fi
done

# A recording whose blocks are compressed on the way: what view records of it isn't compressed, and draws the same.
name="messages that are compressed"
if is_chosen "$name"; then
    serving=compresses begin_share
    begin_view
    until_true 100 is_drawing
    sleep 3
    kill "$view"
    end_view
    report "$name: view" "$closed" "$ended" "$(frames_of "$work/view.log")"
    report "$name: the last picture, and the recording's" same "$(recorded)"
    "$work/gfxpipe" render --output < "$work/stream" > "$work/drawn"
    report "$name: the last picture, and the stream's" same "$(compared "$work/picture" "$work/drawn" 0)"
    end_share
    report "$name: processes left" none "$(left)"
fi

name="a message that is refused"
if is_chosen "$name"; then
    serving=sends_nonsense begin_share
    begin_view
    end_view
    report "$name: view" "4 view: live_client refuses the server's message" "${ended% [0-9]*: *}" "$ended"
    until_true 50 grep -q gone "$work/share.log"
    end_share
    report "$name: share" "$gone" "$said"
    report "$name: processes left" none "$(left)"
fi

name="FreeRDP's shadow server to view"
if is_chosen "$name"; then
    next_port
    DISPLAY=$server freerdp-shadow-cli "/port:$port" /bind-address:127.0.0.1 -auth /sec:tls > "$work/shadow.log" 2>&1 &
    shadow=$!
    until_true 100 is_listening $port
    begin_view
    until_true 50 test -s "$work/recording"
    sleep 3
    kill "$view"
    # Version 2.11 paints over this channel by AVC alone, which isn't offered: so only the version is confirmed.
    end_view
    report "$name: its end" "$closed" "$ended" "$(frames_of "$work/view.log")"
    [ ! -e "$work/picture" ] || report "$name: the last picture, and the recording's" same "$(recorded)"
    kill $shadow
    wait $shadow 2> /dev/null
    report "$name: processes left" none "$(left)"
fi

xfreerdp3=${XFREERDP3:-$(command -v xfreerdp3)}
cases=("/gfx" "/gfx /cache:persist,persist-file:$work/kept" "/gfx:frame-ack:off" "/gfx:small-cache" "/gfx:thin-client"
    "/gfx:RFX" "/gfx /sec:tls")
for words in "${cases[@]}"; do
    name="share to xfreerdp 3 with ${words//"$work/"/}"
    if is_chosen "$name"; then
        if [ -z "$xfreerdp3" ]; then
            echo "left out $name: there is no xfreerdp3 (freerdp3-x11 of bookworm-backports), and XFREERDP3 names none"
            continue
        fi
        keep_bitmaps > "$work/kept"
        begin_share
        # shellcheck disable=SC2086
        begin_xfreerdp3 $words
        until_true 100 server_of
        move 20
        report "$name: its window" same "$(screens $apart 100)"
        end_xfreerdp
        until_true 50 grep -q gone "$work/share.log"
        counted=$(frames_of "$work/share.log")
        end_share
        report "$name: its end" "$gone" "$said" "$counted"
        report "$name: processes left" none "$(left)"
    fi
done

shadow3=${SHADOW3:-$(command -v freerdp-shadow-cli3)}
for words in +gfx-progressive "-gfx-progressive -gfx-planar"; do
    name="FreeRDP 3's shadow server to view with $words"
    if is_chosen "$name"; then
        if [ -z "$shadow3" ]; then
            echo "left out $name: there is no freerdp-shadow-cli3 (freerdp3-shadow-x11), and SHADOW3 names none"
            continue
        fi
        next_port
        # shellcheck disable=SC2086
        DISPLAY=$server LD_LIBRARY_PATH=${FREERDP3_LIBRARIES:-} "$shadow3" "/port:$port" /bind-address:127.0.0.1 -auth \
            /sec:tls $words > "$work/shadow.log" 2>&1 &
        shadow=$!
        until_true 100 is_listening $port
        begin_view
        until_true 100 is_drawing
        move 100
        kill "$view"
        end_view
        report "$name: its end" "$closed" "$ended" "$(frames_of "$work/view.log")"
        report "$name: the last picture, and the recording's" same "$(recorded)"
        kill $shadow
        wait $shadow 2> /dev/null
        report "$name: processes left" none "$(left)"
    fi
done

name="gnome-remote-desktop to view"
if is_chosen "$name"; then
    lacks=
    for program in mutter pipewire wireplumber grdctl dbus-run-session Xwayland openssl; do
        command -v $program > /dev/null || lacks="$lacks $program"
    done
    if [ -n "$lacks" ]; then
        echo "left out $name: there is no$lacks (docs/RECORDING.md says which packages have them)"
    else
        next_port
        "$here/live/gnome" "$work" "$port" &
        gnome=$!
        pids+=("$gnome")
        until_true 300 is_listening $port
        begin_view
        until_true 100 is_drawing
        sleep 10
        kill "$view"
        end_view
        report "$name: its end" "$closed" "$ended" "$(frames_of "$work/view.log")"
        report "$name: the last picture, and the recording's" same "$(recorded)"
        kill $gnome
        wait $gnome 2> /dev/null
        report "$name: processes left" none "$(left)"
    fi
fi

[ "$failures" -eq 0 ]

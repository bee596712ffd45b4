#!/bin/sh
# Starts jk in the form that this processor takes: that for x86-64-v3 (AVX2) where it can, else that for x86-64-v2.
# JK_CPU=v2 or JK_CPU=v3 chooses one.
path=$0
[ -L "$path" ] && path=$(readlink -f "$path")
case $path in
    */*) programs=${path%/*}/../libexec/jk ;;
    *) programs=../libexec/jk ;;
esac

# Whether the processor has what x86-64-v3 asks for, by the system's list; where that can't be read, by the loader's.
has_v3() {
    if [ -r /proc/cpuinfo ]; then
        while read -r word rest; do
            [ "$word" = flags ] && break
        done < /proc/cpuinfo
        for word in avx avx2 bmi1 bmi2 f16c fma abm movbe xsave; do
            case " $rest " in *" $word "*) ;; *) return 1 ;; esac
        done
        return 0
    fi
    case $(/lib64/ld-linux-x86-64.so.2 --help 2> /dev/null) in
        *"x86-64-v3 (supported"*) return 0 ;;
        *) return 1 ;;
    esac
}

case ${JK_CPU-} in
    v2 | v3) form=$JK_CPU ;;
    '') if has_v3; then form=v3; else form=v2; fi ;;
    *)
        echo "jk: JK_CPU is v2 or v3, and not $JK_CPU" >&2
        exit 2
        ;;
esac
exec "$programs/jk-$form" "$@"
